// faye-websocket: its browser-like API over websocket-driver.
const http = require('http');
const WebSocket = require('faye-websocket');
const lines = require('./lines');

function talk(socket, name) {
  socket.on('open', () => say(socket, name));
  socket.on('message', (event) => lines.message(name, typeof event.data !== 'string', event.data));
  socket.on('error', () => {});
  socket.on('close', (event) => lines.closed(name, event.code));
}

function say(socket, name) {
  for (const text of lines.texts(name)) socket.send(text);
  if (name.startsWith('short')) {
    socket.send(lines.BINARY);
    socket.ping('p');
  }
  if (lines.texts(name).length) socket.close(1000, 'bye');
}

if (process.argv[2] === 'server') {
  const server = http.createServer();
  server.on('upgrade', (request, socket, body) => talk(new WebSocket(request, socket, body), request.url.slice(1)));
  server.listen(+process.argv[3], '127.0.0.1', () => lines.line('ready'));
} else {
  lines.urls((url, name) => talk(new WebSocket.Client(url), name));
}
