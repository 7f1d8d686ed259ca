// The line protocol of the programs in JavaScript, and what each peer sends of its own (see ../README.md).
const readline = require('readline');

exports.BINARY = Buffer.from([0, 1, 254, 255]);

exports.texts = (name) => {
  if (name.startsWith('long')) return ['a'.repeat(65535), 'a'.repeat(65536)];
  return name.startsWith('short') ? ['', 'Hello', 'a'.repeat(125), 'a'.repeat(126)] : [];
};

exports.line = (...words) => process.stdout.write(words.join(' ') + '\n');

exports.message = (name, isBinary, data) =>
  exports.line(name, isBinary ? 'binary' : 'text', Buffer.from(data).toString('hex'));

exports.closed = (name, code) => exports.line(name, 'closed', code === undefined || code === null ? '-' : code);

// Calls `connect` with each URL that comes.
exports.urls = (connect) => {
  readline.createInterface({ input: process.stdin }).on('line', (url) => connect(url, url.split('/').pop()));
  exports.line('ready');
};
