// What is given to the page: a capture, or the stream of one endpoint, as bytes or in hexadecimal digits.

const MOST = 2 ** 28; // The bytes of a capture's text; `page/build` has the same limit.
const LINE_BYTES = 4096; // The bytes in a line of a capture that is made of a stream; more are too long.

/** A text with a character for each byte. */
function textOfBytes(bytes) {
  const parts = [];
  for (let at = 0; at < bytes.length; at += 32768) parts.push(String.fromCharCode(...bytes.subarray(at, at + 32768)));
  return parts.join("");
}

/** Whether a text is a capture: its first line begins as a capture's lines do, or another one and it looks like text. */
function isCapture(text) {
  const start = text.slice(0, 4096), begins = /^(?:[CS] |[CS]\.|#)/;
  if (begins.test(start.trimStart())) return true;
  return !/[^\t\n\r -~\x80-\xff]/.test(start) && new RegExp(begins, "m").test(start);
}

/** The bytes of a text of hexadecimal digits, also as 0x81 or \x81; null if it is something else. */
function bytesOfDigits(text) {
  const bare = text.replace(/(?:0x|\\x)(?=[0-9a-f]{2}(?![0-9a-f]))/gi, "");
  if (!/^[0-9a-fA-F\s:,]*$/.test(bare)) return null;
  const found = bare.replace(/[\s:,]+/g, "");
  if (found.length % 2) throw new Error(`There are ${number(found.length)} hexadecimal digits; two make a byte.`);
  const byteAt = (_, at) => parseInt(found.slice(2 * at, 2 * at + 2), 16);
  return found ? Uint8Array.from({ length: found.length / 2 }, byteAt) : null;
}

/** A capture of one endpoint's stream. Its comment says so where the capture or its page is kept. */
function captureOfStream(stream, side) {
  const letter = side === "client" ? "C" : "S", lines = [`# only what the ${side} sent is known\n`];
  for (let at = 0; at < stream.length; at += LINE_BYTES)
    lines.push(`${letter} ${Array.from(stream.subarray(at, at + LINE_BYTES), digits).join("")}\n`);
  return lines.join("");
}

// What no accepted stream begins with, and what to do about it, mostly as `wsn` hints.
const MISTAKES = [
  [/^(?:\xa1\xb2(?:\xc3\xd4|<M)|(?:\xd4\xc3|M<)\xb2\xa1)/,
    "It is a pcap file: recipes/pcap2wsn FILE 0 or wsn-pcap FILE 0 makes a capture of it."],
  [/^\n\r\r\n/, "It is a pcapng file: recipes/pcap2wsn FILE 0 or wsn-pcap FILE 0 makes a capture of it."],
  [/^\x1f\x8b\x08/, "It is compressed by gzip: unpack it first."],
  [/^[\x14-\x17]\x03[\0-\x04]/, "It is TLS: recipes/pcap2wsn (or wsn-pcap) PCAP 0 KEYLOG decrypts it, from its pcap."],
  [/^(?:HTTP\/1\.|(?:GET|HEAD|POST|PUT|DELETE|CONNECT|OPTIONS|TRACE|PATCH) )/,
    "It begins with an HTTP head: remove it, LC_ALL=C sed '1,/^\\r$/d' FILE."],
  [/^\xef\xbb\xbf/, "It begins with a byte order mark: remove it, tail -c +4 FILE."],
  [/^(?:\xff\xfe|\xfe\xff)[^]*\0/, "It is text in UTF-16: save it as UTF-8."],
  [/^[0-9a-fA-F]{8}: [0-9a-fA-F]/, "It is a dump by xxd: make bytes of it, xxd -r FILE."],
  [/^[\t\n\r -~]+$/, "It is text, but neither a capture nor hexadecimal digits alone."],
];

/** Throws an Error if bytes, as a text, are surely no stream. */
function refuseMistake(text) {
  const [, words] = MISTAKES.find(([begins]) => begins.test(text.slice(0, 4096))) ?? [];
  if (words) throw new Error(words);
}

/** Throws an Error if there are more bytes than a page holds. */
function refuseOver(most, bytes) {
  if (bytes > most) throw new Error(`It has ${number(bytes)} bytes; the page holds ${number(most)}.`);
}

/** What bytes are: a capture's text, or a stream. Throws an Error that says why they are neither. */
function recognized(bytes) {
  if (!bytes.length) throw new Error("It is empty: there is nothing to show.");
  const text = textOfBytes(bytes);
  if (isCapture(text)) return { form: "a capture", capture: text };
  const found = bytesOfDigits(text), stream = found ?? bytes;
  if (!found) refuseMistake(text);
  refuseOver(MOST / 2, stream.length);
  return { form: found ? "a stream in hexadecimal digits" : "a stream of bytes", stream };
}
