// websocket-driver: as its documentation uses it, over http and net.
const http = require('http');
const net = require('net');
const websocket = require('websocket-driver');
const lines = require('./lines');

function talk(driver, stream, name) {
  driver.messages.on('data', (message) => lines.message(name, typeof message !== 'string', message));
  driver.on('error', () => {});
  driver.on('open', () => say(driver, name));
  let code;
  driver.on('close', (event) => {
    code = event.code;
    stream.end();
  });
  stream.on('error', () => {});
  stream.on('end', () => stream.end());
  stream.on('close', () => lines.closed(name, code));
  stream.pipe(driver.io).pipe(stream);
}

function say(driver, name) {
  for (const text of lines.texts(name)) driver.text(text);
  if (name.startsWith('short')) {
    driver.binary(lines.BINARY);
    driver.ping('p');
  }
  if (lines.texts(name).length) driver.close('bye', 1000);
}

if (process.argv[2] === 'server') {
  const server = http.createServer();
  server.on('upgrade', (request, socket, body) => {
    const driver = websocket.http(request);
    driver.io.write(body);
    talk(driver, socket, request.url.slice(1));
    driver.start();
  });
  server.listen(+process.argv[3], '127.0.0.1', () => lines.line('ready'));
} else {
  lines.urls((url, name) => {
    const driver = websocket.client(url);
    const stream = net.connect(+new URL(url).port, '127.0.0.1', () => driver.start());
    talk(driver, stream, name);
  });
}
