// The page: puts heading, tools and ladder together, filters, searches, saves.

const KINDS = {
  text: "text", binary: "binary", ping: "pings", pong: "pongs", close: "Closes", fragment: "fragments",
  problem: "problems", note: "ends, comments",
};
const KEYS = {
  "↓ ↑ or j k": "next, previous row", "Enter": "a row's bytes", "n p": "next, previous problem", "/": "search",
  "Esc": "close a row, or the search", "Home End": "first, last row",
};

/** Keeps a row's name in the page's address, for a link to it. */
function remember(row) {
  try { history.replaceState(null, "", `#${row.name}`); } catch { /* Some viewers allow no address. */ }
}

/** Offers bytes as a file. */
function offer(name, parts, type) {
  const link = document.createElement("a"), url = URL.createObjectURL(new Blob(parts, { type }));
  link.href = url;
  link.download = name;
  link.click();
  setTimeout(() => URL.revokeObjectURL(url), 10000);
}

/** The page as it was built, with its capture. */
function pageSource() {
  const copy = document.documentElement.cloneNode(true);
  copy.removeAttribute("data-theme");
  copy.querySelector("#page").replaceChildren();
  return `<!doctype html>${copy.outerHTML}`;
}

const SAVE = { label: "Save page", source: pageSource };

/** A file's name without what a system may not take. */
function fileName(session, ending) {
  return session.name.replace(/\.capture$/, "").replace(/[^\p{L}\p{N}._ -]/gu, "_") + ending;
}

function bytesOfCapture(capture) {
  return Uint8Array.from(capture, character => character.charCodeAt(0));
}

/** Goes from the system's theme to the other one, and back. */
function switchTheme() {
  const root = document.documentElement, dark = matchMedia("(prefers-color-scheme: dark)").matches;
  if (root.dataset.theme) delete root.dataset.theme; else root.dataset.theme = dark ? "light" : "dark";
}

/** What a search looks in: a row's words, its payload's front, its digits without and with blanks. */
function wordsOf(session, row) {
  if (row.words !== undefined) return row.words;
  const { type, event, opcode, code, reason, hex } = row;
  const text = ({ fragment: fragmentWords, refused: refusedWords })[type]?.(session, row) ?? row.text;
  const words = [type, event, opcode, code, reason, text, hex, hex && pairs(hex)];
  row.words = words.filter(Boolean).join("\n").toLowerCase();
  return row.words;
}

/** The switches and the search, which choose the rows that are shown. */
class Filter {
  constructor(session, rows, ladder) {
    Object.assign(this, { session, rows, ladder, off: new Set(), switches: [], wanted: "" });
    this.status = make("span", "dim");
    this.status.setAttribute("role", "status");
    this.search = make("input", "search");
    this.search.type = "search";
    this.search.placeholder = "Search  ( / )";
    this.search.setAttribute("aria-label", "Search in payloads, kinds and digits");
    let waiting;
    const soon = () => { clearTimeout(waiting); waiting = setTimeout(() => this.apply(), 120); };
    this.search.addEventListener("input", soon);
    this.search.addEventListener("keydown", event => {
      if (event.key === "Enter") { clearTimeout(waiting); this.apply(); this.ladder.go(this.ladder.current); }
      if (event.key === "Escape") { this.search.value = ""; this.apply(); }
    });
    this.kinds = new Map();
    for (const kind of rows.filter(row => row.name).map(kindOf))
      this.kinds.set(kind, (this.kinds.get(kind) ?? 0) + 1);
  }

  /** A switch that hides what it names. */
  toggle(name, label, className = "") {
    const made = button(label, () => {
      if (!this.off.delete(name)) this.off.add(name);
      made.setAttribute("aria-pressed", String(!this.off.has(name)));
      this.apply();
    }, `switch ${className}`);
    made.setAttribute("aria-pressed", "true");
    if (SIDES.includes(name)) made.setAttribute("aria-label", name);
    this.switches.push(made);
    return made;
  }

  /** Shows all rows. */
  clear() {
    this.search.value = "";
    this.off.clear();
    for (const each of this.switches) each.setAttribute("aria-pressed", "true");
    this.apply();
  }

  controls() {
    const named = { client: "▶ client", server: "◀ server" };
    const sides = make("div", "switches", ...SIDES.map(side => this.toggle(side, named[side], side)));
    const there = Object.entries(KINDS).filter(([kind]) => this.kinds.has(kind));
    const kinds = make("div", "switches", ...there.map(([kind, name]) =>
      this.toggle(kind, `${name} ${number(this.kinds.get(kind))}`, kind === "problem" ? "problem" : "")));
    sides.setAttribute("role", "group");
    sides.setAttribute("aria-label", "Sides that are shown");
    kinds.setAttribute("role", "group");
    kinds.setAttribute("aria-label", "Kinds that are shown");
    return [this.search, sides, kinds, this.status];
  }

  keeps(row) {
    if (BETWEEN.has(row.type)) return !this.wanted && !this.off.size;
    if (this.off.has(row.side) || this.off.has(kindOf(row))) return false;
    return !this.wanted || wordsOf(this.session, row).includes(this.wanted);
  }

  apply() {
    this.wanted = this.search.value.trim().toLowerCase();
    const shown = this.rows.filter(row => this.keeps(row)), counted = rows => rows.filter(row => row.name).length;
    const all = counted(this.rows), some = counted(shown);
    this.status.textContent = some === all ? count(all, "row") : `${number(some)} of ${count(all, "row")}`;
    this.ladder.show(shown);
  }
}

/** The line of the page's name and its buttons. */
function barOf(session, save) {
  const names = [make("span", "brand", "wsn"), make("span", "name", session.name), make("span", "gap")];
  const saveCapture = () => offer(fileName(session, ".capture"), [bytesOfCapture(session.capture)], "text/plain");
  const bar = make("header", "bar", ...names,
    button(save.label, () => offer(fileName(session, ".html"), [save.source()], "text/html")),
    session.part ? "" : button("Save capture", saveCapture), save.redacted, button("Light / dark", switchTheme));
  bar.querySelector("button").title = "Saves this page with its capture: one file for a ticket";
  return bar;
}

/** How to read the ladder. */
function helpOf() {
  const entry = ([key, does]) => make("div", "", make("dt", "", key), make("dd", "", does));
  const keys = make("dl", "keys", ...Object.entries(KEYS).map(entry));
  const marks = make("p", "", "Each arrow is a frame, in the order of the capture's lines. A solid arrow ends a ",
    "message or is a control frame; a dashed one is a fragment, and a bar at its sender's line joins the fragments of ",
    "one message. ✕ marks where bytes are refused. An offset counts the bytes that one side sent, from 0.");
  return make("details", "help", make("summary", "", "How to read this"), marks, keys);
}

/** The names above the ladder's columns. */
function titlesOf() {
  const lane = make("div", "lane titles", make("b", "client", "Client"), make("b", "server", "Server"));
  const before = [make("div", "line", "line"), make("div", "time", "seconds"), make("div", "offset", "offset")];
  const titles = make("div", "row titles", ...before, lane, make("div", "view", "payload"));
  titles.setAttribute("role", "row");
  for (const cell of titles.children) cell.setAttribute("role", "columnheader");
  return titles;
}

/** Keys that work anywhere on the page. */
function globalKeys(filter, ladder, signal) {
  const toProblem = by => ladder.go(ladder.further(by, row => kindOf(row) === "problem"));
  addEventListener("keydown", event => {
    const { key, target } = event;
    if (event.ctrlKey || event.metaKey || event.altKey || target.matches?.("input, textarea")) return;
    if (key === "/") { filter.search.focus(); filter.search.select(); }
    else if (key === "n" || key === "p") toProblem(key === "n" ? 1 : -1);
    else if ((key === "j" || key === "ArrowDown") && target === document.body) ladder.go(ladder.current);
    else return;
    event.preventDefault();
  }, { signal });
}

let laidOut = null; // Ends what listens for the session that is laid out.

function footerOf(session) {
  const made = `Made by ${session.version}: frames, refusals, the bad characters of texts, the seven facts and the `
    + "outcome are what its ";
  const more = " says. Where a Close's reason goes wrong, where a cut text's last character begins, what looks "
    + "compressed or exchanged, and the handshake are read from the bytes and comments by this page. It holds "
    + `${session.part ? "a part of " : ""}the capture, and fetches nothing.`;
  return make("footer", "", made, make("code", "", "wsn show --json"), more);
}

/** The ladder with the names of its columns. */
function gridOf(session, rows) {
  const timed = session.entries.some(entry => entry.time), grid = make("div", timed ? "ladder" : "ladder timeless");
  grid.append(titlesOf(), rows);
  grid.setAttribute("role", "treegrid");
  grid.setAttribute("aria-label", "What both sides said, in order");
  return grid;
}

/**
 * Lays a session out. `wsn.html` calls this with what its engine says of a capture, with how its page is saved, and with
 * the button that saves its redaction.
 */
function layOut(parts, save = SAVE) {
  laidOut?.abort();
  laidOut = new AbortController();
  const { signal } = laidOut, session = new Session(parts), rows = rowsOf(session), root = make("div", "rows");
  const ladder = new Ladder(session, rows, root, signal), filter = new Filter(session, rows, ladder);
  const tools = make("div", "tools", ...filter.controls()), grid = gridOf(session, root);
  const visit = row => {
    if (!ladder.go(row)) { filter.clear(); ladder.go(row); }
    ladder.toggle(row, true);
  };
  const refusal = (...sides) => rows.find(row => row.type === "refused" && sides.includes(row.side));
  const first = refusal(...sidesAtFault(session)) ?? refusal(...SIDES);
  const named = () => rows.find(row => row.name && `#${row.name}` === location.hash);
  const heading = headingOf(session, side => visit(refusal(side)));
  document.getElementById("page").replaceChildren(
    barOf(session, save), make("main", "", ...partOf(session), ...heading, helpOf(), tools, grid), footerOf(session));
  new ResizeObserver(() => grid.style.setProperty("--tools", `${tools.offsetHeight}px`)).observe(tools);
  filter.apply();
  globalKeys(filter, ladder, signal);
  addEventListener("hashchange", () => { if (named()) visit(named()); }, { signal });
  if (named()) visit(named()); else if (first) ladder.toggle(first, true);
}

/** What the page holds of a session: the capture's text, a character for each byte, and what the program said of it. */
function held() {
  const text = id => document.getElementById(id).textContent;
  const capture = JSON.parse(text("capture"));
  return { ...JSON.parse(text("session")), capture, shown: text("shown"), wire: text("wire") };
}

if (document.getElementById("session")) layOut(held());
