// What a row shows when it is opened: what was said, the frames, their bytes, and what the program explains.

const WHOLE_TEXT = 65536; // The bytes of a text that are shown as text.
const FIRST_FRAMES = 16; // The frames of a message whose bytes are shown at first.
const LISTED_FRAMES = 500; // The frames of a message that are listed.
const AFTER = 32; // The bytes after an offending byte that are shown.

function heading(text, ...more) {
  return make("h3", "", text, ...more);
}

/** Where and when an entry was complete. */
function placeWords(row) {
  if (row.line === undefined) return "the capture's end";
  return `line ${number(row.line)} of the capture${row.time ? `, at ${row.time} s` : ""}`;
}

/** What `wsn explain` says of words, whole. */
function explanations(session, ...words) {
  return words.filter(word => session.explained[word]).flatMap(word =>
    [heading(`wsn explain ${word}`), make("pre", "explained", session.explained[word].trimEnd())]);
}

/** A text, and if it is JSON a button that lays it out. */
function textBlock(title, text) {
  const block = make("pre", "payload", ...visible(text, true)), parts = [heading(title), block];
  let tidy = null;
  try {
    const value = JSON.parse(text);
    if (value && typeof value === "object") tidy = indented(text);
  } catch { /* It is no JSON. */ }
  if (!tidy || tidy === text) return parts;
  const toggle = button("Lay out as JSON", () => {
    const sent = toggle.textContent === "As sent";
    block.replaceChildren(...visible(sent ? text : tidy, true));
    toggle.textContent = sent ? "Lay out as JSON" : "As sent";
  });
  parts[0].append(" ", toggle);
  return parts;
}

/** A payload as text, if it is one. */
function payloadParts(session, row) {
  const frames = row.list, bytes = session.joined(frames, WHOLE_TEXT);
  if (!bytes.length) return [];
  const left = row.bytes > WHOLE_TEXT ? `, the first ${count(WHOLE_TEXT, "byte")}` : "";
  if (row.event === "text") return textBlock(`Text${left}`, decoded(bytes, row.type === "unfinished" || left !== ""));
  if (row.event === "close") return bytes.length > 2 ? textBlock("Reason", decoded(bytes.slice(2))) : [];
  return row.event !== "binary" && isPlain(bytes) ? textBlock("Payload", decoded(bytes)) : [];
}

/** A table of frames, as `wsn show --wire` lists them. */
function frameTable(frames) {
  const table = make("table", "frames");
  const row = (name, cells) => make("tr", "", ...cells.map(cell => make(name, "", cell)));
  table.append(row("th", ["frame", "offset", "FIN", "opcode", "key", "payload bytes", "length's encoding"]));
  frames.slice(0, LISTED_FRAMES).forEach((frame, at) => table.append(row("td", [number(at + 1), String(frame.offset),
    frame.fin ? "fin" : "more", frame.opcode, frame.key ?? "-", number(frame.length), frame.form])));
  if (frames.length > LISTED_FRAMES) table.append(row("td", [`.. ${number(frames.length - LISTED_FRAMES)} more`]));
  return table;
}

/** The bytes of frames, as many as came, each in a view of its own. */
function frameViews(session, frames) {
  const box = make("div");
  const draw = (from, to) => {
    frames.slice(from, to).forEach((frame, at) => {
      const end = Math.min(frame.end, session.sent[frame.side].length), of = number(frames.length);
      const view = { side: frame.side, from: frame.offset, to: end, frame };
      const title = frames.length > 1 ? `Frame ${number(from + at + 1)} of ${of}` : "The frame's bytes";
      box.append(heading(title), marksLegend(view), byteView(session, view));
    });
    if (to >= frames.length) return;
    const label = `Show ${count(Math.min(FIRST_FRAMES, frames.length - to), "more frame")}`;
    const more = button(label, () => { more.remove(); draw(to, to + FIRST_FRAMES); }, "more");
    box.append(more);
  };
  draw(0, FIRST_FRAMES);
  return box;
}

/** What an entry's event is called. */
function eventWords({ event }) {
  return { text: "text message", binary: "binary message", close: "Close" }[event] ?? event;
}

function eventDetails(session, row) {
  const size = count(row.bytes, "byte") + (row.frames > 1 ? ` in ${number(row.frames)} frames` : "");
  return [
    make("p", "", `The ${row.side} sent this ${eventWords(row)}, ${size}; complete in ${placeWords(row)}.`),
    ...payloadParts(session, row), frameTable(row.list), frameViews(session, row.list),
    ...(row.event === "close" && row.code ? explanations(session, row.code) : []),
  ];
}

/** The views of a refused frame's bytes, and before it one of the frame in which its bad character begins. */
function refusedViews(session, row, frame, bad) {
  const side = row.side, to = Math.min(row.place + 1 + AFTER, session.sent[side].length);
  const wrong = bad?.offsets ?? [], views = [];
  const isCut = bad?.isCut, start = (from, red) => Math.max(from, red - SEEN_BYTES);
  const add = (view, red) => views.push({ side, wrong, isCut, red, ...view, start: start(view.from, red) });
  const parts = bad ? bad.frames.filter(each => each.offset < row.offset) : [];
  for (const each of parts) {
    const red = wrong.find(offset => offset >= each.offset && offset < each.end);
    if (red !== undefined) add({ frame: each, from: each.offset, to: each.end }, red);
  }
  const red = Math.min(row.place, ...wrong.filter(offset => offset >= row.offset));
  add({ frame, bad: row.place, payloadAt: row.place + 1, from: row.offset, to }, red);
  return views;
}

function viewTitle({ from, start, red }) {
  return heading(start > from ? `Bytes around offset ${red}` : `Bytes from offset ${from}`);
}

function refusedDetails(session, row) {
  const listed = session.frameAt(row.side, row.offset), bad = badCharacter(session, row);
  const frame = listed && row.place >= listed.payloadAt ? listed : undefined;
  const parts = [
    make("p", "", `In the frame at offset ${row.offset} of what the ${row.side} sent; ${placeWords(row)}. `
      + `The ${other(row.side)} should close with ${codeWords(session, row.code)}.`),
    ...(bad ? [make("p", "", ...characterSentence(row.side, bad)), ...characterBlock(session, bad)] : []),
    ...(listed ? [frameTable([listed])] : []),
  ];
  for (const view of refusedViews(session, row, frame, bad))
    parts.push(viewTitle(view), marksLegend(view), byteView(session, view));
  return [...parts, ...explanations(session, row.reason)];
}

function unfinishedDetails(session, row) {
  const sent = session.sent[row.side], listed = session.frames[row.side], parts = [];
  const last = lastTime(session, row), when = last ? ` Its last byte came at ${last} s.` : "";
  const place = make("p", "", `What the ${row.side} sent of it by ${placeWords(row)}.${when}`);
  parts.push(place, ...payloadParts(session, row));
  if (row.list.length) parts.push(frameTable(row.list), frameViews(session, row.list));
  if (row.lacks === null) {
    const from = row.event === "head" ? row.offset : listed[listed.length - 1].end, to = sent.length;
    const view = { side: row.side, from, to, payloadAt: to };
    parts.push(heading("A part of the next frame's head"), byteView(session, view));
  }
  return [...parts, ...explanations(session, "lacks")];
}

function restDetails(session, row) {
  const after = row.type === "tail" ? "its Close" : "the refusal", size = count(row.bytes, "byte");
  const view = { side: row.side, from: row.offset, to: row.offset + row.bytes, payloadAt: row.offset };
  return [make("p", "", `${size} that the ${row.side} sent after ${after}. They aren't read as frames.`),
    byteView(session, view), ...explanations(session, row.type)];
}

function fragmentDetails(session, row) {
  const words = `Fragment ${number(row.number)} of the message at offset ${row.message.offset}`;
  const place = make("p", "", `${words}; its head was complete in ${placeWords(row)}.`);
  return [place, frameTable([row.frame]), frameViews(session, [row.frame])];
}

const DETAILS = {
  event: eventDetails, refused: refusedDetails, unfinished: unfinishedDetails, unread: restDetails, tail: restDetails,
  fragment: fragmentDetails,
};
