// The ladder: client on the left, server on the right, an arrow for each row. Rows are drawn in blocks, those near the
// part that is in view; a row has one height until it is opened.

const BLOCK = 50; // The rows of a block.
const AT_ONCE = 1000; // Up to so many rows are all drawn at once, so that a browser's own search finds them.
const PRINTED = 5000; // Up to so many rows are all printed.
const VIEW_CHARACTERS = 200; // The characters of a payload in a row.

/** What a row's payload looks like: a text or digits. */
function viewParts(row) {
  const more = cut => row.truncated ? [field("truncated", "dim", " ..")] : cut ? [make("span", "dim", " ..")] : [];
  if (row.text !== undefined) {
    const [text, cut] = front(row.text, VIEW_CHARACTERS);
    return [field("text", "text", ...visible(text)), ...more(cut)];
  }
  if (row.hex !== undefined) {
    const shown = row.hex.slice(0, VIEW_CHARACTERS);
    return [field("hex", "hex", pairs(shown)), ...more(shown !== row.hex)];
  }
  if (row.reason === undefined || row.event !== "close") return [];
  return [field("reason", "text", ...visible(row.reason))];
}

/** The view of a row: its payload, or what is to be said of it. */
function viewOf(session, row) {
  switch (row.type) {
    case "refused": return refusedView(session, row);
    case "unfinished": return [...lacksWords(row), " ", ...viewParts(row)];
    case "fragment": return fragmentView(session, row);
    case "comment": return [];
    default: return viewParts(row);
  }
}

/** A refused text up to its bad character, and the program's first sentence on the reason. */
function refusedView(session, row) {
  const words = session.sentence(row.reason) || row.reason, place = field("place", "", String(row.place));
  const bad = badCharacter(session, row);
  const text = bad ? [make("span", "text", ...characterText(session, bad, ROW_BYTES, 0).parts), " "] : [];
  return [...text, "byte ", place, ": ", words];
}

function lacksWords(row) {
  const dim = (...words) => [make("span", "dim", ...words)], lacks = field("lacks", "", number(row.lacks ?? 0));
  if (row.lacks === null) return dim(`only a part of ${row.event === "head" ? "it came" : "the next head came:"}`);
  if (row.lacks === 0) return dim("no final frame came (", lacks, " bytes missing):");
  return dim(lacks, ` byte${row.lacks === 1 ? "" : "s"} missing:`);
}

/** The first bytes of a fragment, unmasked: as text if they are a text's, else in digits. */
function fragmentWords(session, row) {
  const bytes = session.payload(row.frame, VIEW_CHARACTERS);
  return row.message.event === "text" ? decoded(bytes) : pairs(Array.from(bytes, digits).join(""));
}

function fragmentView(session, row) {
  const kind = row.message.event === "text" ? "text" : "hex", more = row.length > VIEW_CHARACTERS ? " .." : "";
  return [make("span", `${kind} dim`, ...visible(fragmentWords(session, row)), more)];
}

function bytesWords(name, bytes) {
  return [field(name, "", number(bytes)), bytes === 1 ? " byte" : " bytes"];
}

/** How large an event is, and in how many frames it came. */
function sizeWords(row) {
  const frames = row.frames > 1 ? [" in ", field("frames", "", number(row.frames)), " frames"] : [];
  return [...bytesWords("bytes", row.bytes), ...frames];
}

const LABELS = {
  event: row => row.event === "close"
    ? [field("event", "kind", "close"), " ", field("code", "", row.code ?? "no code"), ", ", ...sizeWords(row)]
    : [field("event", "kind", row.event), " ", ...sizeWords(row)],
  fragment: row => [field("opcode", "kind", row.opcode), ` fragment ${number(row.number)}`,
    row.message.type === "event" ? ` of ${number(row.message.frames)}, ` : ", ", ...bytesWords("length", row.length)],
  refused: row => [make("span", "kind", "refused"), " ", field("reason", "", row.reason), " ",
    field("code", "", String(row.code))],
  unfinished: row => [make("span", "kind", "unfinished"), " ", field("event", "", row.event),
    ...(row.event === "head" ? [] : [", ", ...sizeWords(row)])],
  unread: row => [make("span", "kind", "unread"), " ", ...bytesWords("bytes", row.bytes)],
  tail: row => [make("span", "kind", "tail"), " ", ...bytesWords("bytes", row.bytes), " after the Close"],
  end: row => [`the ${row.side}'s direction ended`],
  silence: row => [`${row.seconds.toFixed(1)} s of silence`],
  omitted: ({ low, high }) => [low === high ? `line ${number(low)} isn't shown`
    : `lines ${number(low)} to ${number(high)} aren't shown`],
  comment: row => [field("text", "text", ...row.hex === undefined ? visible(row.text) : byteParts(bytesOfHex(row.hex)))],
};

/** The words on an arrow. */
function labelOf(row) {
  return LABELS[row.type](row);
}

/** The lane of a row: lifelines, bars of open messages, the arrow and its label. */
function laneOf(session, row) {
  const lane = make("div", ["lane", ...row.ended.map(side => `without-${side}`)].join(" "));
  for (const [side, part] of row.bars) lane.append(make("span", `bar ${side} ${part}`));
  if (row.side && row.type !== "end") {
    const marker = row.type === "unfinished" && !row.lacks && row.event !== "head";
    if (!marker) lane.append(make("span", "arrow"));
  }
  if (row.type === "end") lane.append(make("span", "stop"));
  const way = row.side ? spoken(row.type === "end" ? "" : `${row.side} to ${other(row.side)}: `) : "";
  lane.append(make("span", "label", way, ...labelOf(row)));
  return lane;
}

/** A row's element. */
function rowElement(session, row) {
  const kind = row.event ?? row.message?.event;
  const element = make("div", ["row", row.type, kind && `kind-${kind}`, row.side].filter(Boolean).join(" "));
  const cells = [
    make("div", "line", row.line === undefined ? "" : field("line", "", String(row.line))),
    make("div", "time", row.time ? field("time", "", row.time) : ""),
    make("div", "offset", row.side ? field("offset", "", String(row.offset)) : ""),
    laneOf(session, row), make("div", "view", ...viewOf(session, row)),
  ];
  element.setAttribute("role", "row");
  element.setAttribute("aria-level", "1");
  for (const cell of cells) cell.setAttribute("role", "gridcell");
  if (DETAILS[row.type]) element.setAttribute("aria-expanded", "false");
  element.tabIndex = -1;
  element.append(...cells);
  element.row = row;
  return element;
}

class Ladder {
  constructor(session, rows, root, signal) {
    Object.assign(this, { session, rows, root, shown: [], blocks: [], current: null });
    this.observer = new IntersectionObserver(seen => {
      for (const each of seen) if (each.isIntersecting) this.draw(each.target);
    }, { rootMargin: "1200px" });
    root.addEventListener("click", event => this.clicked(event));
    root.addEventListener("keydown", event => this.typed(event));
    root.addEventListener("focusin", event => { if (event.target.row) this.choose(event.target.row); });
    addEventListener("beforeprint", () => { if (this.shown.length <= PRINTED) this.drawAll(); }, { signal });
  }

  /** Shows these rows, in blocks. */
  show(rows) {
    this.observer.disconnect();
    this.shown = rows;
    this.blocks = [];
    for (let from = 0; from < rows.length; from += BLOCK) {
      const block = make("div", "block empty");
      block.rows = rows.slice(from, from + BLOCK);
      block.rows.forEach(row => { row.block = block; });
      block.setAttribute("role", "rowgroup");
      block.style.setProperty("--rows", block.rows.length);
      this.blocks.push(block);
    }
    this.root.replaceChildren(...this.blocks);
    this.root.setAttribute("aria-rowcount", String(rows.length));
    if (rows.length <= AT_ONCE) this.drawAll();
    this.blocks.slice(0, 2).forEach(block => this.draw(block));
    this.blocks.slice(2).forEach(block => this.observer.observe(block));
    if (rows.length && !rows.includes(this.current)) this.choose(rows.find(row => row.name) ?? rows[0]);
    else if (this.current) this.choose(this.current);
  }

  drawAll() {
    this.blocks.forEach(block => this.draw(block));
  }

  /** Draws a block's rows, unless they are. */
  draw(block) {
    if (!block.classList.contains("empty")) return;
    block.classList.remove("empty");
    this.observer.unobserve(block);
    for (const row of block.rows) {
      row.element ??= rowElement(this.session, row);
      block.append(row.element);
      if (row.more) block.append(row.more);
    }
  }

  /** Makes a row the one that the tab key reaches. */
  choose(row) {
    if (this.current?.element) this.current.element.tabIndex = -1;
    this.current = row;
    if (row.element) row.element.tabIndex = 0;
  }

  /** Goes to a row; false if it isn't shown. */
  go(row) {
    if (!row || !this.shown.includes(row)) return false;
    this.draw(row.block);
    row.element.focus({ preventScroll: true });
    row.element.scrollIntoView({ block: "nearest" });
    return true;
  }

  /** Opens or closes a row. */
  toggle(row, open = !row.more) {
    if (!DETAILS[row.type] || open === Boolean(row.more)) return;
    this.draw(row.block);
    row.element.setAttribute("aria-expanded", String(open));
    row.element.classList.toggle("open", open);
    if (open) {
      const cell = make("div", "details", ...DETAILS[row.type](this.session, row));
      cell.setAttribute("role", "gridcell");
      row.more = make("div", `more ${row.type} ${row.side}`, cell);
      row.more.of = row;
      row.more.setAttribute("role", "row");
      row.more.setAttribute("aria-level", "2");
      row.element.after(row.more);
    } else {
      row.more.remove();
      row.more = null;
    }
  }

  clicked(event) {
    const element = event.target.closest(".row");
    if (!element || !getSelection().isCollapsed) return;
    element.focus({ preventScroll: true });
    this.toggle(element.row);
    if (element.row.more) remember(element.row);
  }

  /** The row so many rows further; those without anything to say are passed. */
  further(by, wanted = row => row.name) {
    let at = this.shown.indexOf(this.current), found = this.current;
    for (const step = Math.sign(by); by !== 0; ) {
      at += step;
      if (at < 0 || at >= this.shown.length) break;
      if (wanted(this.shown[at])) { found = this.shown[at]; by -= step; }
    }
    return found;
  }

  typed(event) {
    const row = event.target.row, inside = event.target.closest(".more");
    if (inside && event.key === "Escape") { this.go(inside.of); this.toggle(inside.of, false); }
    if (!row || event.ctrlKey || event.metaKey || event.altKey) return;
    const steps = { ArrowDown: 1, j: 1, ArrowUp: -1, k: -1, PageDown: 15, PageUp: -15, Home: -Infinity, End: Infinity };
    if (event.key in steps) this.go(this.further(steps[event.key]));
    else if (event.key === "Enter" || event.key === " ") { this.toggle(row); if (row.more) remember(row); }
    else if (event.key === "ArrowRight") this.toggle(row, true);
    else if (event.key === "ArrowLeft" || event.key === "Escape") this.toggle(row, false);
    else return;
    event.preventDefault();
  }
}
