// The top of the page: how the session went, in words, and the seven facts of the report.

const SYMBOLS = { clean: "✓", complete: "✓", half: "◐", open: "○", abnormal: "!", failed: "✕" };
const DOUBT = "?"; // In place of ✕ where no side need be at fault.

/** A side's state as `wsn closing` prints it. */
function stateWords(state) {
  if (state.state === "closed") return `closed ${state.code ?? "-"}`;
  return state.state === "refused" ? `refused ${state.offset} ${state.reason} ${state.code}` : state.state;
}

/** A fact of the report: its name there, a title, its value as it is printed, and what that means. */
function fact(name, title, value, meaning = "") {
  const term = make("dt", "", title);
  term.title = `${name.replace("_", "-")}, as wsn closing prints it`;
  const more = meaning ? make("span", "meaning", ` ${meaning}`) : "";
  const shown = make("dd", "", field(name, "value", String(value ?? "-")), more);
  return make("div", "fact", term, shown);
}

function seenWords(session, code) {
  return code === null ? "nothing yet" : session.codeName(code);
}

/** What a page says that has a part of a capture: which, and what else it has. */
function partOf({ part }) {
  if (!part) return [];
  const { first, last, lines, frames: [some, all] } = part;
  const which = first === last ? `line ${number(first)}` : `lines ${number(first)} to ${number(last)}`;
  const shown = make("b", "", `This page shows a part of the capture: ${which} of ${number(lines)}`);
  return [make("p", "part", shown, `, with ${number(some)} of ${count(all, "frame")}. Of other lines it has the `
    + "messages that go on in these, what is refused or unfinished, the ends, and the comments on the handshake. The "
    + "headline and the facts are those of the whole capture, and so are line numbers, times and offsets.")];
}

/** How many events of which kinds a side sent. */
function sideCounts(session, side) {
  const events = session.entries.filter(entry => entry.type === "event" && entry.side === side), { part } = session;
  const ofKind = kind => part ? part.events[side][kind] ?? 0 : events.filter(each => each.event === kind).length;
  const of = (...kinds) => kinds.reduce((sum, kind) => sum + ofKind(kind), 0);
  const words = [count(of("text", "binary"), "message")];
  for (const kind of ["ping", "pong"]) if (of(kind)) words.push(count(of(kind), kind));
  return [...words, count(session.sent[side].length, "byte")].join(", ");
}

function sideCard(session, side) {
  const { report } = session, state = report[side], bad = state.state === "refused" ? " bad" : "";
  const title = make("h2", "", make("span", "way", side === "client" ? "▶" : "◀"), ` ${capital(side)}`);
  const sees = `${side}_sees`, facts = make("dl", "", fact(side, "its stream", stateWords(state)),
    fact(sees, "its application sees", report[sees], seenWords(session, report[sees])));
  return make("section", `card ${side}${bad}`, title, make("p", "dim", sideCounts(session, side)), facts);
}

function closingCard(session) {
  const { report } = session, echo = report.echo === null ? "-" : report.echo ? "yes" : "no";
  const last = session.part?.time ?? session.entries.findLast(entry => entry.line && entry.time)?.time;
  const times = make("p", "dim", last ? `last time in the capture: ${last} s` : "no times in this capture");
  const facts = make("dl", "", fact("first", "closed first", report.first),
    fact("echo", "same code back", echo, report.echo === null ? "not both closed" : ""),
    fact("outcome", "outcome", report.outcome));
  return make("section", "card", make("h2", "", "Closing"), times, facts);
}

/** The top of the page. */
function headingOf(session, go) {
  const { outcome } = session.report, isWrong = isHandshakeWrong(session);
  const isDoubtful = !isWrong && outcome === "failed" && !sidesAtFault(session).length;
  const kind = isWrong ? "failed" : isDoubtful ? "doubtful" : outcome;
  const about = make("details", "", make("summary", "", `wsn explain ${outcome}`));
  about.open = sidesAtFault(session).length > 1;
  about.append(make("pre", "explained", session.explained[outcome].trimEnd()));
  const symbol = make("span", "symbol", isDoubtful ? DOUBT : SYMBOLS[kind]);
  const verdict = make("section", `verdict ${kind}`, symbol,
    make("div", "", make("h1", "", titleOf(session)), ...sentences(session, go), about));
  symbol.setAttribute("aria-hidden", "true");
  const cards = make("div", "cards", ...SIDES.map(side => sideCard(session, side)), closingCard(session));
  return [verdict, ...handshakeOf(session), cards];
}
