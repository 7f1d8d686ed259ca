"use strict";
// What the program said of a capture, and the capture's bytes. Nothing is judged here: offsets, kinds and sizes are the
// program's; this only finds the frames that an entry names and the bytes at an offset.

const SIDES = ["client", "server"];
const DATA = new Set(["cont", "text", "binary"]);
const other = side => side === "client" ? "server" : "client";

/** The objects of JSON lines, or of an array with an object a line. A time is the text that the capture has. */
function objectsOf(text) {
  return text.split("\n").filter(line => line.startsWith("{")).map(line => {
    const object = JSON.parse(line.endsWith(",") ? line.slice(0, -1) : line);
    if (typeof object.time === "number") object.time = /"time":([0-9.]+)/.exec(line)[1];
    return object;
  });
}

/**
 * What one side sent: where each line's bytes begin, where their digits are in the capture's text, and when it was;
 * `held` are the ranges of bytes that the page has: of a part of a capture not all.
 */
class SentBytes {
  constructor(capture) {
    this.capture = capture;
    this.starts = [];
    this.digits = [];
    this.times = [];
    this.held = [];
    this.length = 0;
  }

  add(from, to, time) {
    const end = this.length + (to - from) / 2, last = this.held.at(-1);
    this.starts.push(this.length);
    this.digits.push(from);
    this.times.push(time);
    if (last?.to === this.length) last.to = end; else this.held.push({ from: this.length, to: end });
    this.length = end;
  }

  /** Where the bytes end that the page has from an offset on. */
  heldTo(offset) {
    return this.held.find(({ from, to }) => from <= offset && offset < to)?.to ?? offset;
  }

  /** Where the bytes begin that the page has up to an offset. */
  heldFrom(offset) {
    return this.held.find(({ from, to }) => from < offset && offset <= to)?.from ?? offset;
  }

  /** The time of the byte at an offset, as the capture has it; nothing if it has none, or the page lacks the byte. */
  timeAt(offset) {
    return this.heldTo(offset) > offset ? this.times[this.lineAt(offset)] : undefined;
  }

  /** The number of the line that has the byte at an offset. */
  lineAt(offset) {
    let low = 0, high = this.starts.length;
    while (high - low > 1) {
      const middle = (low + high) >> 1;
      if (this.starts[middle] <= offset) low = middle; else high = middle;
    }
    return low;
  }

  slice(from, to) {
    const bytes = new Uint8Array(Math.max(0, Math.min(to, this.heldTo(from)) - from));
    for (let at = from, line = this.lineAt(from); at - from < bytes.length; line++) {
      const end = Math.min(this.starts[line + 1] ?? this.length, from + bytes.length);
      for (let digit = this.digits[line] + 2 * (at - this.starts[line]); at < end; at++, digit += 2)
        bytes[at - from] = parseInt(this.capture.slice(digit, digit + 2), 16);
    }
    return bytes;
  }
}

const TIME = /^# ((?:0|[1-9][0-9]*)\.[0-9]{1,9})$/; // A comment that is the time of the lines after it.

/**
 * The bytes of both sides of a capture's text. Of a part, `runs` say where lines are left out before some: the place in
 * the text, both sides' offsets there, and the time; `sent` how much each side sent in all.
 */
function sentBytes(capture, { runs = [], sent: all = null } = {}) {
  const sent = { client: new SentBytes(capture), server: new SentBytes(capture) };
  let time, next = 0;
  for (let at = 0; at < capture.length;) {
    if (runs[next]?.[0] === at) {
      const [, client, server, since] = runs[next++];
      sent.client.length = client;
      sent.server.length = server;
      time = since ?? undefined;
    }
    let end = capture.indexOf("\n", at);
    if (end < 0) end = capture.length;
    const last = capture[end - 1] === "\r" ? end - 1 : end;
    const side = { C: sent.client, S: sent.server }[capture[at]];
    if (side && capture[at + 1] === " ") side.add(at + 2, last, time);
    if (capture[at] === "#") time = TIME.exec(capture.slice(at, last))?.[1] ?? time;
    at = end + 1;
  }
  if (all) for (const side of SIDES) sent[side].length = all[side];
  return sent;
}

/** A frame as `wsn show --wire` lists it, with where its key and payload begin. */
function frameOf(listed) {
  const least = listed.length < 126 ? 0 : listed.length < 65536 ? 2 : 8;
  const keyAt = listed.offset + 2 + ({ two: 2, eight: 8 }[listed.form] ?? least);
  const payloadAt = keyAt + (listed.key ? 4 : 0);
  const key = listed.key && bytesOfHex(listed.key);
  return { ...listed, keyBytes: key, keyAt, payloadAt, end: payloadAt + listed.length };
}

/** A session: its entries, frames, report and bytes. Where the page has a part of them, `part` says which. */
class Session {
  constructor({ name, version, explained, capture, shown, wire, part }) {
    Object.assign(this, { name, version, explained, capture, part });
    const objects = objectsOf(shown);
    this.report = objects.find(object => object.type === "report");
    this.endedBy = objects.find(object => object.type === "ended-by") ?? null;
    this.entries = objects.filter(object => object !== this.report && object !== this.endedBy);
    for (const entry of this.entries)
      if (entry.type === "comment") entry.text ??= escapedBytes(bytesOfHex(entry.hex));
    this.frames = { client: [], server: [] };
    this.wire = objectsOf(wire).filter(object => object.type === "frame").map(frameOf);
    for (const frame of this.wire) this.frames[frame.side].push(frame);
    this.numbers = {};
    for (const side of SIDES) this.numbers[side] = new Map(this.frames[side].map((frame, at) => [frame.offset, at]));
    this.sent = sentBytes(capture, part);
  }

  /** The frame of a side that begins at an offset, if it is listed. */
  frameAt(side, offset) {
    return this.frames[side][this.numbers[side].get(offset)];
  }

  /** The frames of an event or of what is unfinished: the one at its offset, and those that continue it. */
  framesOf(entry) {
    if (entry.type !== "event" && entry.type !== "unfinished") return [];
    const frames = this.frames[entry.side], first = this.numbers[entry.side].get(entry.offset);
    if (first === undefined) return [];
    const found = [frames[first]];
    for (let at = first + 1; found.length < entry.frames && at < frames.length; at++)
      if (frames[at].opcode === "cont") found.push(frames[at]);
    return found;
  }

  /** The frames of the message that a frame is in, up to it; of a control frame, that frame. */
  messageUpTo(frame) {
    const listed = this.frames[frame.side], found = [frame];
    for (let at = this.numbers[frame.side].get(frame.offset), of = frame; of.opcode === "cont" && at > 0;) {
      of = listed[--at];
      if (DATA.has(of.opcode)) found.push(of); else of = frame;
    }
    return found.reverse();
  }

  /** The bytes between two places in the payload of frames, unmasked, as many as came. */
  unmasked(frames, from, to) {
    const parts = [];
    let start = 0;
    for (const { side, payloadAt, length, keyBytes } of frames) {
      const first = Math.max(0, from - start), last = Math.min(length, to - start);
      const bytes = first < last ? this.sent[side].slice(payloadAt + first, payloadAt + last) : [];
      for (let at = 0; at < bytes.length; at++) parts.push(bytes[at] ^ (keyBytes ? keyBytes[(first + at) % 4] : 0));
      start += length;
    }
    return Uint8Array.from(parts);
  }

  /** The offset in what the side sent of a place in the payload of frames. */
  offsetOf(frames, place) {
    let start = 0;
    for (const { payloadAt, length } of frames) {
      if (place < start + length) return payloadAt + place - start;
      start += length;
    }
    return undefined;
  }

  /** A frame's payload, as much of it as came, unmasked. */
  payload(frame, most = Infinity) {
    const bytes = this.sent[frame.side].slice(frame.payloadAt, Math.min(frame.end, frame.payloadAt + most));
    return frame.keyBytes ? bytes.map((byte, at) => byte ^ frame.keyBytes[at % 4]) : bytes;
  }

  /** The payloads of frames, joined; at most so many bytes. */
  joined(frames, most) {
    const parts = [];
    for (const frame of frames) {
      if (most <= 0) break;
      parts.push(this.payload(frame, most));
      most -= parts[parts.length - 1].length;
    }
    const bytes = new Uint8Array(parts.reduce((sum, part) => sum + part.length, 0));
    parts.reduce((at, part) => { bytes.set(part, at); return at + part.length; }, 0);
    return bytes;
  }

  /** The first sentence of what `wsn explain` says of a word, without the word. */
  sentence(word) {
    const text = (this.explained[word] ?? "").split(/\.(?=\s+[A-Z0-9])/)[0].replace(/\n/g, " ");
    return text.slice(text.indexOf(":") + 1).trim();
  }

  /** A close code's name. */
  codeName(code) {
    return /^[0-9]+, ([^:]*):/.exec(this.explained[code] ?? "")?.[1] ?? "";
  }
}
