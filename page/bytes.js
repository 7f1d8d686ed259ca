// Bytes in hexadecimal: as they were sent, unmasked beside, and as characters; head, key and payload are marked.

const FIRST_BYTES = 1024; // The bytes that are drawn at first.
const MORE_BYTES = 16384;

/** What a byte of a view is: in a head, a key, a payload, or none of these; the red ones are marked too. */
function markAt(view, offset) {
  const frame = view.frame;
  if (view.wrong?.includes(offset)) return offset === view.bad ? "wrong bad" : "wrong";
  if (offset === view.bad) return "bad";
  if (view.bad !== undefined && offset > view.bad) return "rest";
  if (!frame) return offset < view.payloadAt ? "head" : "none";
  return offset < frame.keyAt ? "head" : offset < frame.payloadAt ? "key" : "payload";
}

/** Whether the offending byte is no part of the cut character: it only shows that the text ends there. */
function isInnocent({ wrong, bad }) {
  return Boolean(wrong?.length) && !wrong.includes(bad);
}

/** A run of bytes of one mark after the other, as spans with a class each. */
class Runs {
  constructor(parent) {
    this.parent = parent;
    this.text = "";
    this.mark = "";
  }

  put(text, mark) {
    if (mark !== this.mark) this.flush(mark);
    this.text += text;
  }

  flush(mark = "") {
    if (this.text) this.parent.append(this.mark ? make("span", this.mark, this.text) : this.text);
    this.text = "";
    this.mark = mark;
  }
}

/** One line of a view, the bytes from an offset on: cells of hexadecimal, and one of characters. */
function byteLine(view, bytes, from, width) {
  const cells = ["raw", ...(view.frame?.keyBytes ? ["plain"] : []), "chars"].map(name => make("span", name));
  const runs = cells.map(cell => new Runs(cell)), key = view.frame?.keyBytes, last = runs.length - 1;
  for (let column = 0; column < bytes.length; column++) {
    const offset = from + column, mark = markAt(view, offset), byte = bytes[column];
    const inPayload = !view.frame || (offset >= view.frame.payloadAt && offset < view.frame.end);
    const shown = key && inPayload ? byte ^ key[(offset - view.frame.payloadAt) % 4] : byte;
    const next = column + 1 < bytes.length ? markAt(view, offset + 1) : "";
    const gap = column === width / 2 - 1 ? "  " : " ";
    const put = (run, text, as) => { run.put(text, as); run.put(gap, next === as ? as : ""); };
    put(runs[0], digits(byte), mark);
    if (key) put(runs[1], inPayload ? digits(shown) : "··", inPayload ? mark : "none");
    runs[last].put(inPayload && isPlain([shown]) ? String.fromCharCode(shown) : "·", inPayload ? mark : "none");
  }
  for (const run of runs) run.flush();
  return make("div", "byteline", make("span", "at", String(from)), ...cells);
}

/** The lines of a view from one offset to another. Those before its start end there, so the first one may be short. */
function byteLines(session, view, from, to, width) {
  const bytes = session.sent[view.side].slice(from, to), lines = [], start = view.start ?? view.from;
  for (let at = from; at < from + bytes.length;) {
    const next = at < start ? start - width * Math.ceil((start - at) / width) + width : at + width;
    lines.push(byteLine(view, bytes.subarray(at - from, next - from), at, width));
    at = next;
  }
  return lines;
}

/**
 * A view of a side's bytes. `view` has side, from, to; the frame that they belong to, if it is listed; without a frame,
 * payloadAt, before which bytes count as a head; bad, the offset of the offending byte; wrong, those of the bytes of a
 * bad character, and isCut, whether that is cut; start, the offset of the first byte that is drawn at first.
 */
function byteView(session, view) {
  const width = matchMedia("(max-width: 760px)").matches ? 8 : 16, start = view.start ?? view.from;
  const box = make("div", isInnocent(view) ? "bytes innocent" : "bytes");
  const titles = ["as sent", ...(view.frame?.keyBytes ? ["unmasked"] : []), "characters"];
  const names = ["raw", ...(titles.length > 2 ? ["plain"] : []), "chars"];
  box.style.setProperty("--columns", width);
  box.tabIndex = 0;
  box.setAttribute("role", "group");
  box.setAttribute("aria-label", `Bytes ${view.from} to ${view.to - 1} of the ${view.side}`);
  const cells = titles.map((title, at) => make("span", names[at], title));
  const top = make("div", "byteline titles", make("span", "at", "offset"), ...cells);
  box.append(top);
  const sent = session.sent[view.side], end = Math.min(view.to, sent.heldTo(start));
  const first = Math.max(view.from, Math.min(start, sent.heldFrom(start)));
  const absent = bytes => bytes > 0 ? [make("div", "dim", `${count(bytes, "byte")}, not in this page`)] : [];
  const before = end => {
    if (end <= first) return;
    const from = Math.max(first, end - MORE_BYTES), words = count(end - from, "byte");
    const label = `Show the ${words} before${from > first ? ` of ${number(end - first)}` : ""}`;
    const more = button(label, () => {
      const below = box.scrollHeight - box.scrollTop;
      more.replaceWith(...byteLines(session, view, from, end, width));
      before(from);
      box.focus({ preventScroll: true });
      box.scrollTop = box.scrollHeight - below; // What was in view stays there.
    }, "more");
    top.after(more);
  };
  before(start);
  top.after(...absent(first - view.from));
  const draw = (from, most) => {
    const to = Math.min(end, from + most), left = end - to;
    box.append(...byteLines(session, view, from, to, width));
    if (left <= 0) {
      box.append(...absent(view.to - end));
      return;
    }
    const label = `Show ${count(Math.min(left, MORE_BYTES), "more byte")} of ${number(left)}`;
    const more = button(label, () => { more.remove(); draw(to, MORE_BYTES); }, "more");
    box.append(more);
  };
  draw(start, FIRST_BYTES);
  return box;
}

/** What the marks in a view mean. */
function marksLegend(view) {
  const legend = make("p", isInnocent(view) ? "marks innocent" : "marks", make("span", "head", "head"));
  if (view.frame?.keyBytes) legend.append(" ", make("span", "key", "key"));
  if (view.frame) legend.append(" ", make("span", "payload", "payload"));
  const isWrong = view.wrong?.some(offset => offset >= view.from && offset < view.to);
  const last = !view.isCut && view.wrong?.length > 1 && view.bad !== undefined ? ", the offending byte last" : "";
  if (isWrong) legend.append(" ", make("span", "wrong", `${view.isCut ? "cut" : "bad"} character${last}`));
  if (view.bad === undefined) return legend;
  if (!view.wrong?.includes(view.bad)) legend.append(" ", make("span", "bad", "offending byte"));
  legend.append(" ", make("span", "rest", "after it: not read"));
  return legend;
}
