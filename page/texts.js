// A text that is refused: which bytes its bad character has and where, and what the text looks like. The program says
// it of a text message; of a Close's reason, and of a text that ends inside a character, the bytes that are read do.

const TEXT_REASONS = new Set(["text-bad", "text-cut", "close-reason"]);
const SEEN_BYTES = 32; // The bytes before a red one that are shown at first, and of the text behind it.
const ROW_BYTES = 24; // The same in a row.
const SEARCHED_BYTES = 2048; // The bytes of a refused text that a search looks in.

/** How many bytes a character has that begins with a byte; 0 if none begins with it. */
function sizeBy(byte) {
  if (byte < 0x80) return 1;
  return byte < 0xc2 || byte > 0xf4 ? 0 : byte < 0xe0 ? 2 : byte < 0xf0 ? 3 : 4;
}

/** How many bytes at the end of a text are of a character that isn't whole. What is before them is a text. */
function incomplete(bytes) {
  for (let some = 1; some <= Math.min(3, bytes.length); some++) {
    const byte = bytes[bytes.length - some];
    if (byte < 0x80 || byte > 0xbf) return sizeBy(byte) > some ? some : 0;
  }
  return 0;
}

/** Whether bytes are a text but for more bytes that may come. */
function isTextSoFar(bytes) {
  try {
    new TextDecoder("utf-8", { fatal: true }).decode(bytes, { stream: true });
    return true;
  } catch {
    return false;
  }
}

/** A byte that is no text. */
function byteEscape(byte) {
  return `\\x${digits(byte)}`;
}

/** Bytes of a comment that isn't UTF-8, as parts: each that isn't printable ASCII as an escape. */
function byteParts(bytes) {
  return Array.from(bytes, byte => isPlain([byte]) ? String.fromCharCode(byte) : make("i", "escape", byteEscape(byte)));
}

/** The same as a text. */
function escapedBytes(bytes) {
  return make("span", "", ...byteParts(bytes)).textContent;
}

/** Bytes that needn't be a text, as parts: what is a text, and each other byte as an escape. */
function looseText(bytes) {
  const parts = [];
  for (let at = 0; at < bytes.length;) {
    const size = Math.max(1, sizeBy(bytes[at])), part = bytes.slice(at, at + size);
    const isText = part.length === size && sizeBy(bytes[at]) && isTextSoFar(part);
    parts.push(...isText ? visible(decoded(part), true) : [make("i", "escape", byteEscape(bytes[at]))]);
    at += isText ? size : 1;
  }
  return parts;
}

/** The bytes of a text's end, without those of a character that began before them. */
function fromCharacter(bytes) {
  const first = bytes.findIndex(byte => byte < 0x80 || byte > 0xbf);
  return first > 0 && first < 4 ? bytes.slice(first) : bytes;
}

/** Where a bad character begins in the payload of its message, and its size, as the program says of a text. */
function toldCharacter({ in_payload: at, hex }) {
  return { at, size: hex.length / 2, isCut: false };
}

/** The same of a Close's reason or a text that is cut, by the last bytes that are read of the payload. */
function readCharacter(session, row, frames, start) {
  const last = frames[frames.length - 1], isLast = last.offset === row.offset;
  const unread = isLast ? last.end - Math.max(row.place + 1, last.payloadAt) : 0;
  const read = frames.reduce((sum, each) => sum + each.length, 0) - unread;
  const bytes = session.unmasked(frames, Math.max(start, read - 4), read), some = incomplete(bytes.slice(0, -1));
  const isCut = row.reason === "text-cut" || isTextSoFar(bytes.slice(-1 - some));
  const size = isCut ? incomplete(bytes) : some + 1;
  return { at: read - size, size, isCut };
}

/**
 * What is known of a refused text, or of a Close's reason: `frames`, those of its message up to the refused one;
 * `start`, where the text begins in the message's payload; `at`, where the bad character begins there; `bytes`, those
 * of the character, the offending one last; `offsets`, where they are in what the side sent; `isCut`, whether bytes are
 * missing and none is wrong. Nothing if the refusal is for something else.
 */
function badCharacter(session, row) {
  if (!TEXT_REASONS.has(row.reason)) return null;
  const listed = session.frameAt(row.side, row.offset); // An empty frame isn't, if its head shows that a text is cut.
  const frame = listed ?? session.frames[row.side].findLast(each => DATA.has(each.opcode) && each.offset < row.offset);
  if (!frame) return null;
  const frames = session.messageUpTo(frame), start = frame.opcode === "close" ? 2 : 0;
  const found = row.character ? toldCharacter(row.character) : readCharacter(session, row, frames, start);
  const { at, size, isCut } = found, bytes = session.unmasked(frames, at, at + size);
  const offsets = Array.from(bytes, (_, place) => session.offsetOf(frames, at + place));
  return { frames, start, at, bytes, offsets, isCut };
}

/** What a bad character is called. */
function characterName({ isCut }) {
  return isCut ? "cut character" : "bad character";
}

/** Bytes as digits. */
function bytePairs(bytes) {
  return pairs(Array.from(bytes, digits).join(""));
}

/** Where a bad character begins, which bytes it has, and what is wrong with it. */
function characterSentence(side, bad) {
  const { bytes, isCut, offsets, at } = bad, what = bad.start ? "the Close" : "the message";
  const place = `offset ${offsets[0]} of what the ${side} sent, offset ${at} in ${what}'s payload`;
  const code = some => make("span", "mono", bytePairs(some)), word = bytes.length === 1 ? "byte" : "bytes";
  const parts = [`The ${characterName(bad)} begins at ${place}, and has the ${word} `, code(bytes)];
  const least = bytes.length ? sizeBy(bytes[0]) - bytes.length : 0;
  if (isCut) return [...parts, `; ${what} ends there, and ${missing(least, " of the character")}.`];
  return bytes.length === 1 ? [...parts, ", with which no character begins."]
    : [...parts, ": ", code(bytes.slice(-1)), " can't follow ", code(bytes.slice(0, -1)), "."];
}

/** A refused text around its bad character, which is marked: what is before it, and after it what isn't read. */
function characterText(session, bad, before, after) {
  const { frames, start, at, bytes } = bad, from = Math.max(start, at - before);
  const end = at + bytes.length, sum = frames.reduce((all, frame) => all + frame.length, 0);
  const front = session.unmasked(frames, from, at), rest = session.unmasked(frames, end, Math.min(sum, end + after));
  const text = visible(decoded(from > start ? fromCharacter(front) : front), true);
  const wrong = make("i", "escape wrong", ...Array.from(bytes, byteEscape));
  const parts = [...from > start ? [make("span", "dim", "..")] : [], ...text, wrong];
  const shown = looseText(rest);
  if (shown.length) parts.push(make("span", "rest", ...shown, end + after < sum ? " .." : ""));
  return { parts, hidden: from - start };
}

/** What a search finds of a refused text: what came up to its bad character, and that as escapes. */
function refusedWords(session, row) {
  const bad = badCharacter(session, row);
  if (!bad) return "";
  const front = session.unmasked(bad.frames, Math.max(bad.start, bad.at - SEARCHED_BYTES), bad.at);
  return decoded(fromCharacter(front)) + Array.from(bad.bytes, byteEscape).join("");
}

/** A refused text: what came before its bad character, the end of it at first. */
function characterBlock(session, bad) {
  const draw = before => characterText(session, bad, before, SEEN_BYTES);
  const { parts, hidden } = draw(SEEN_BYTES), block = make("pre", "payload", ...parts);
  const title = heading(`${bad.start ? "Reason" : "Text"} around the ${characterName(bad)}`);
  if (!hidden) return [title, block];
  block.tabIndex = -1;
  const more = button(`Show the ${count(Math.min(hidden, WHOLE_TEXT), "byte")} before`, () => {
    more.remove();
    block.replaceChildren(...draw(SEEN_BYTES + WHOLE_TEXT).parts);
    block.focus({ preventScroll: true });
    block.scrollTop = block.scrollHeight;
  }, "more");
  return [title, more, block];
}
