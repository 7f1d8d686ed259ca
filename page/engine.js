// The engine of `wsn.html`: the program's proved code as WebAssembly. It works in memory alone; its calls are those of
// `crates/wsn_page`.

const MEMORY_UNIT = 65536; // The bytes by which memory grows.
const SETTINGS_SIZE = 12, ANSWER_SIZE = 24, MESSAGE_ROOM = 256;

/** The bytes of a text in base64. */
function bytesOfBase64(text) {
  return Uint8Array.from(atob(text), character => character.charCodeAt(0));
}

class Engine {
  constructor(exports, limits) {
    Object.assign(this, { calls: exports, limits });
  }

  /** An engine with the code that the page holds. Rejects where the browser can't run it. */
  static async start(code, limits) {
    const { instance } = await WebAssembly.instantiate(bytesOfBase64(code), {});
    return new Engine(instance.exports, limits);
  }

  /** Where rooms of these sizes begin, one after the other. Throws a RangeError if the browser gives no such memory. */
  rooms(...sizes) {
    const { memory, __heap_base: first } = this.calls, places = [];
    let at = Number(first.value);
    for (const size of sizes) {
      at = 16 * Math.ceil(at / 16);
      places.push(at);
      at += size;
    }
    const missing = at - memory.buffer.byteLength;
    if (missing > 0) memory.grow(BigInt(Math.ceil(missing / MEMORY_UNIT)));
    return places;
  }

  putSettings(at, { detail, role }) {
    const view = new DataView(this.calls.memory.buffer, at, SETTINGS_SIZE), { limit, frames, lengths } = this.limits;
    view.setUint32(0, limit, true);
    view.setUint32(4, frames, true);
    [lengths, detail, role].forEach((value, place) => view.setUint8(8 + place, value));
  }

  /** A call with rooms for an output of some size: the output, the message, and the exit status. */
  call(name, bytes, settings, size) {
    const sizes = [ANSWER_SIZE, SETTINGS_SIZE, bytes.length, size, size, MESSAGE_ROOM];
    const [answer, asked, input, scratch, output, message] = this.rooms(...sizes), { buffer } = this.calls.memory;
    new Uint8Array(buffer).set(bytes, input);
    this.putSettings(asked, settings);
    const rooms = [input, bytes.length, scratch, size, output, size, message, MESSAGE_ROOM];
    this.calls[name](...[answer, asked, ...rooms].map(BigInt));
    const view = new DataView(buffer, answer, ANSWER_SIZE);
    const given = (at, place) => new Uint8Array(buffer, at, Number(view.getBigUint64(place, true)));
    return { output: given(output, 0), message: decoded(given(message, 8)), status: view.getUint8(16) };
  }

  /** What a call gives with enough room for its output, which is in the engine's memory until the next call. */
  answer(name, bytes, settings, first = 8 * bytes.length) {
    for (let size = Math.max(MEMORY_UNIT, first); ; size *= 2) {
      const given = this.call(name, bytes, settings, size);
      if (given.message !== "write failed\n") return given;
    }
  }

  /** What `wsn show --json --view 4096` says of a capture: of its events, or of its frames with `--wire`. */
  show(capture, wire) {
    const { output, ...ended } = this.answer("wsn_page_show", capture, { detail: Number(wire), role: 0 });
    return { text: decoded(output), ...ended };
  }

  /** What `wsn redact` writes of a capture or, with a side, of its stream: no more bytes than these. */
  redact(bytes, side) {
    const name = side ? "wsn_page_redact_stream" : "wsn_page_redact", role = side ? SIDES.indexOf(side) : 0;
    const { output, ...ended } = this.answer(name, bytes, { detail: 0, role }, bytes.length);
    return { bytes: output.slice(), ...ended };
  }

  /** The verdict on the stream of one endpoint. */
  judge(stream, side) {
    const { output } = this.answer("wsn_page_show_stream", stream, { detail: 1, role: SIDES.indexOf(side) });
    return JSON.parse(decoded(output).trimEnd().split("\n").pop());
  }
}
