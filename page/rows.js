// The rows of the ladder: each entry of `wsn show` in its order, a row more for each fragment before a message's last
// frame, one where nothing was sent for a while, and one where the page of a part leaves lines out.

const SILENCE = 1; // Seconds without a line that get a row.
const MESSAGES = new Set(["text", "binary"]);
const BETWEEN = new Set(["silence", "omitted"]); // The rows of no entry.
const PROBLEMS = new Set(["refused", "unfinished", "unread", "tail"]);

/** A row's kind, by which it is filtered. */
function kindOf(row) {
  if (row.type === "event") return row.event;
  return row.type === "fragment" ? "fragment" : PROBLEMS.has(row.type) ? "problem" : "note";
}

/** A row's name in a link, such as S7. */
function nameOf(row) {
  if (!row.side) return `line${row.line}`;
  const place = `${row.side === "client" ? "C" : "S"}${row.offset}`;
  if (row.type === "event" || row.type === "refused") return place;
  return row.type === "fragment" ? `${place[0]}${row.message.offset}.${row.number}` : `${place}-${row.type}`;
}

/** The frames of an entry that get a row of their own. The entry's row is the last one's, unless that is whole. */
function fragmentsOf(session, entry) {
  const frames = session.framesOf(entry);
  if (entry.type === "unfinished" && entry.lacks === null) return entry.event === "head" ? [] : frames;
  if (entry.type === "unfinished" && entry.lacks === 0) return frames;
  return frames.slice(0, -1);
}

/** The rows of all fragments, in the order in which their heads came. */
function fragmentRows(session) {
  const of = new Map();
  for (const entry of session.entries) {
    const parts = fragmentsOf(session, entry);
    parts.forEach((frame, at) => of.set(frame, { ...frame, type: "fragment", message: entry, number: at + 1, frame }));
  }
  return session.wire.filter(frame => of.has(frame)).map(frame => of.get(frame));
}

/** Whether a fragment's head came before what an entry says. Those of one line are of one side. */
function isBefore(part, entry, frames) {
  const line = entry.line ?? Infinity;
  const last = frames.length ? frames[frames.length - 1].offset : entry.offset;
  return part.line < line || (part.line === line && part.offset <= last);
}

/** Entries and fragments in one order. */
function merged(session) {
  const parts = fragmentRows(session), rows = [];
  let next = 0;
  for (const entry of session.entries) {
    const frames = session.framesOf(entry);
    while (next < parts.length && isBefore(parts[next], entry, frames)) rows.push(parts[next++]);
    rows.push({ ...entry, frames: entry.frames ?? 0, list: frames });
  }
  return rows.concat(parts.slice(next));
}

/** Puts the part of a bar that a row has on its own side in place of one that goes through. */
function setBar(row, part) {
  row.bars = [...row.bars.filter(([side]) => side !== row.side), [row.side, part]];
}

/** Marks in each row which sides' messages are open, and which sides have ended. */
function markLanes(rows) {
  const open = {}, ended = {};
  for (const row of rows) {
    row.ended = SIDES.filter(side => ended[side]);
    row.bars = Object.entries(open).map(([side]) => [side, "through"]);
    if (row.type === "fragment") {
      setBar(row, open[row.side] ? "middle" : "first");
      open[row.side] = true;
    } else if (open[row.side] && (row.type === "event" || row.type === "unfinished") && MESSAGES.has(row.event)) {
      setBar(row, "last");
      delete open[row.side];
    }
    if (row.type === "end") ended[row.side] = true;
  }
}

/** What a row between two others has of the second: its lanes. */
function lanesBefore({ ended, bars }) {
  return { ended, bars: bars.filter(([, part]) => part !== "first").map(([side]) => [side, "through"]) };
}

/** Puts a row where no line came for a while. */
function withSilence(rows) {
  const out = [];
  let last = null;
  for (const row of rows) {
    const passed = last !== null && row.line && row.time ? Number(row.time) - Number(last.time) : 0;
    if (passed >= SILENCE) out.push({ type: "silence", seconds: passed, ...lanesBefore(row) });
    out.push(row);
    if (row.line && row.time) last = row;
    if (row.type === "omitted") last = null;
  }
  return out;
}

/** The lines between two that no row is of: those of the page's part aren't among them. */
function omittedLines({ first, last }, from, to) {
  const found = [[from + 1, Math.min(to, first) - 1], [Math.max(from, last) + 1, to - 1]];
  return found.filter(([low, high]) => low <= high);
}

/** Puts rows where the page of a part leaves lines out. */
function withOmitted({ part }, rows) {
  if (!part) return rows;
  const out = [], end = part.lines + 1, lanes = { ended: rows.at(-1)?.ended ?? [], bars: [] };
  const omit = (from, to, row) => out.push(...omittedLines(part, from, to)
    .map(([low, high]) => ({ type: "omitted", low, high, ...lanesBefore(row) })));
  let from = 0;
  for (const row of rows) {
    const to = row.line ?? end;
    omit(from, to, row);
    out.push(row);
    from = Math.max(from, to);
  }
  omit(from, end, lanes);
  return out;
}

/** A session's rows. */
function rowsOf(session) {
  const rows = merged(session);
  markLanes(rows);
  const all = withSilence(withOmitted(session, rows));
  for (const row of all) if (!BETWEEN.has(row.type)) row.name = nameOf(row);
  return all;
}
