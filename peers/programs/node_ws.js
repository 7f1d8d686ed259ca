// ws: WebSocketServer and WebSocket.
const { WebSocket, WebSocketServer } = require('ws');
const lines = require('./lines');

function talk(socket, name) {
  socket.on('message', (data, isBinary) => lines.message(name, isBinary, data));
  socket.on('error', () => {});
  socket.on('close', (given) => lines.closed(name, given));
  socket.once('open', () => say(socket, name));
}

function say(socket, name) {
  for (const text of lines.texts(name)) socket.send(text);
  if (name.startsWith('short')) {
    socket.send(lines.BINARY);
    socket.ping('p');
    socket.send('Hel', { fin: false });
    socket.send('lo', { fin: true });
  }
  if (lines.texts(name).length) socket.close(1000, 'bye');
}

if (process.argv[2] === 'server') {
  const server = new WebSocketServer({ host: '127.0.0.1', port: +process.argv[3] });
  server.on('listening', () => lines.line('ready'));
  server.on('connection', (socket, request) => {
    const name = request.url.slice(1);
    talk(socket, name);
    say(socket, name);
  });
} else {
  lines.urls((url, name) => talk(new WebSocket(url), name));
}
