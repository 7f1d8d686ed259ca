// How the session went, in words: a title, and sentences. What a comment or the first refused byte lets one suspect
// (compression, sides exchanged) is said beside what the program says, not in its place. The sentences that `wsn show`
// prints for people, too, are in sentences.js.

const TITLES = {
  clean: "Closed cleanly", complete: "Closed by both sides", half: "Closed by one side", open: "Still open",
};

/** The first comment of a capture that has a form, as its expression finds it. */
function commentLike(session, form) {
  for (const { type, text } of session.entries) {
    const found = type === "comment" && form.exec(text);
    if (found) return found;
  }
  return null;
}

/** A side's Close in words. */
function withCode(session, state) {
  return state.code === null ? "without a code" : `with code ${codeWords(session, state.code)}`;
}

/** Which sides are refused. */
function refusedSides({ report }) {
  return SIDES.filter(side => report[side].state === "refused");
}

/** What comments say of compression: it was agreed on, or no extension was. Nothing if they don't say. */
function agreement(session) {
  if (commentLike(session, /^ extensions: .*permessage-deflate/)) return "agreed";
  return commentLike(session, /^ answer: /) && !commentLike(session, /^ extensions: /) ? "none" : "";
}

/**
 * Whether a side is refused where a message begins whose first reserved bit is set, and no other one. Unless a comment
 * says that compression was agreed on, the frame has the side's masking.
 */
function isLikeCompressed({ report, sent }, side, agreed) {
  const { reason, offset } = report[side];
  if (reason !== "reserved-bits") return false;
  const [first, second] = sent[side].slice(offset, offset + 2), opcode = first & 15;
  const isLawful = agreed || second === undefined || (second > 127) === (side === "client");
  return (first & 0x70) === 0x40 && (opcode === 1 || opcode === 2) && isLawful;
}

/**
 * Why refused sides needn't be at fault: `exchanged`, each has the other's masking; else `compressed`, the sides that
 * are refused where a compressed message would begin, and `agreed`, whether a comment says that compression is used.
 * `unagreed` are such sides if the comments say that no extension was agreed on: these are at fault.
 */
function doubts(session) {
  const { report } = session, isAt1 = (side, reason) => report[side].offset === 1 && report[side].reason === reason;
  const isInflated = commentLike(session, /^ inflated,/);
  const found = agreement(session), agreed = found === "agreed";
  const alike = isInflated ? [] : SIDES.filter(side => isLikeCompressed(session, side, agreed));
  return {
    exchanged: isAt1("client", "mask-missing") && isAt1("server", "mask-present"),
    compressed: found === "none" ? [] : alike, unagreed: found === "none" ? alike : [], agreed,
  };
}

/** The refused sides for which nothing but the side itself is at fault. */
function sidesAtFault(session) {
  const { exchanged, compressed } = doubts(session);
  return exchanged ? [] : refusedSides(session).filter(side => !compressed.includes(side));
}

function faultTitle(session) {
  const { exchanged, compressed, unagreed, agreed } = doubts(session), faulty = sidesAtFault(session);
  if (exchanged) return "The sides look exchanged";
  if (unagreed.length && unagreed.length === faulty.length) {
    const isBoth = faulty.length > 1, look = isBoth ? "their streams look" : "its stream looks";
    const who = isBoth ? "Both sides" : `The ${faulty[0]}`;
    return `${who} broke the protocol: ${look} compressed, and no extension was agreed on`;
  }
  const streams = compressed.length > 1 ? "Both streams look" : `The ${compressed[0]}'s stream looks`;
  const words = agreed ? "The session is compressed" : `${streams} compressed`;
  if (!faulty.length) return words;
  const broke = faulty.length > 1 ? "Both sides are refused" : `The ${faulty[0]} broke the protocol`;
  return compressed.length ? `${broke}; ${words[0].toLowerCase()}${words.slice(1)}` : broke;
}

/** What a side has begun and not finished; the last of it. */
function unfinishedOf({ entries }, side) {
  return entries.findLast(entry => entry.type === "unfinished" && entry.side === side);
}

function missing(bytes, of = "") {
  return `${count(bytes, "byte")}${of} ${bytes === 1 ? "is" : "are"} missing`;
}

/** How many bytes are missing of what is unfinished, or what else. More fragments may be missing too. */
function missingWords(session, entry) {
  const frame = session.framesOf(entry).pop();
  if (entry.lacks === null) return entry.event === "head" ? "" : "; of its next frame only a part of the head came";
  if (entry.lacks === 0) return "; its final frame is missing";
  return `; ${frame?.fin === false ? "at least " : ""}${missing(entry.lacks)}`;
}

/** What is unfinished, as the place in which a connection broke off. */
function insideWords(session, entry) {
  if (entry.event === "head") return "inside a frame's head";
  const what = MESSAGES.has(entry.event) ? "message" : eventWords(entry);
  return `inside a ${what}${missingWords(session, entry)}`;
}

/** Who ended the connection, as the program says, and inside what. */
function breakTitle(session) {
  const { report, endedBy: { side, reset } } = session, peer = other(side);
  const began = `The ${side} ${reset ? "reset" : "ended"} the connection`;
  if (report[side].state === "cut") return `${began} ${insideWords(session, unfinishedOf(session, side))}`;
  const cut = report[peer].state === "cut" && insideWords(session, unfinishedOf(session, peer));
  if (cut && reset) return `${began} while the ${peer} was ${cut}`;
  const close = report[side].state === "closed" ? "after its Close" : "without a Close";
  return `${began} ${close}${cut ? `, then the ${peer} ${cut}` : ""}`;
}

/** The outcome in a few words, but for the handshake. */
function outcomeTitle(session) {
  const { outcome } = session.report;
  return outcome === "failed" ? faultTitle(session) : outcome === "abnormal" ? breakTitle(session) : TITLES[outcome];
}

/** The outcome in a few words. A wrong answer to the handshake comes first: the client must fail that connection. */
function titleOf(session) {
  const { outcome } = session.report, title = outcomeTitle(session);
  if (!isHandshakeWrong(session)) return title;
  if (outcome === "abnormal" && session.endedBy.side === "client")
    return "The handshake's answer is wrong, so the client had to fail the connection";
  return `The handshake's answer is wrong; ${title[0].toLowerCase()}${title.slice(1)}`;
}

/** Who is at fault for a wrong handshake, and who ended the connection if the headline doesn't say it. */
function handshakeSentence(session) {
  if (!isHandshakeWrong(session)) return [];
  const ended = session.report.outcome === "abnormal" && session.endedBy.side === "client";
  return [make("p", "", "The server is at fault: the client must fail a connection with such an answer (RFC 6455, ",
    `4.1).${ended ? ` ${breakTitle(session)}.` : ""}`)];
}

/** What is said of a refused side; its offset leads to the row. */
function refusalSentence(session, side, go) {
  const state = session.report[side], peer = session.report[other(side)], { exchanged, compressed } = doubts(session);
  const why = session.sentence(state.reason);
  const link = button(`byte ${state.offset}`, () => go(side), "link");
  const closed = peer.code === state.code ? ", and did" : `; it closed ${withCode(session, peer)}`;
  const did = peer.state === "closed" ? closed : "";
  const sent = ` of what the ${side} sent: `, reason = make("b", "", state.reason);
  const unless = exchanged ? "If they aren't, the" : compressed.includes(side) ? "Without an extension the" : "The";
  const row = session.entries.find(entry => entry.type === "refused" && entry.side === side);
  return make("p", "", `${unless} ${other(side)} must refuse `, link, sent, reason, why ? ` (${why})` : "",
    `. It should close with code ${codeWords(session, state.code)}${did}.`, ...characterWords(session, row));
}

/** Where a refused text's bad character begins. */
function characterWords(session, row) {
  const bad = row && badCharacter(session, row);
  if (!bad) return [];
  const bytes = make("code", "", bytePairs(bad.bytes));
  return [` The ${characterName(bad)}, `, bytes, `, begins at offset ${bad.offsets[0]}.`];
}

/** Where these sides set the first reserved bit. */
function firstBit(sides) {
  return `The first reserved bit is set where ${sides.length > 1 ? "messages begin" : "a message begins"}, `;
}

/** What undoes compression, if a side is refused for it: by a comment of the capture, or by the look of it. */
function compressedSentence(session) {
  const { compressed, unagreed, agreed } = doubts(session), code = text => make("code", "", text);
  const undo = options => code(SENTENCES.inflate_command.replace("CAPTURE", `${options}CAPTURE`));
  const prevents = [" undoes it; ", code("recipes/record --plain"), " records a session without it."];
  const isRefused = SIDES.some(side => session.report[side].reason === "reserved-bits");
  if (agreed && isRefused)
    return [make("p", "", "A comment in the capture says that the session is compressed, and compression isn't read ",
      "here: ", undo(""), ...prevents)];
  if (unagreed.length) {
    const names = "as permessage-deflate sets it, but the handshake's answer names no extension; without one the bit ";
    return [make("p", "", `${firstBit(unagreed)}${names}must be 0 (RFC 6455, 5.2). To read the session all the same: `,
      undo("--extensions permessage-deflate "), ".")];
  }
  if (!compressed.length) return [];
  const ask = "as permessage-deflate sets it; no comment in the capture says whether that was agreed on. If so, ";
  return [make("p", "", firstBit(compressed), ask, undo("--extensions permessage-deflate "), ...prevents)];
}

/** How to put sides right that are exchanged. */
function exchangedSentence(session) {
  if (!doubts(session).exchanged) return [];
  const swap = make("code", "", SENTENCES.exchange_command);
  return [make("p", "", `${SENTENCES.exchanged_sentence} To exchange them: `, swap, ".")];
}

function closedSentence(session) {
  const { report } = session, first = report.first ?? "client", second = other(first);
  const answer = report.echo ? "with the same" : withCode(session, report[second]);
  const ends = SENTENCES[`${report.outcome}_sentence`];
  const closed = `The ${first} closed first, ${withCode(session, report[first])}`;
  return `${closed}, and the ${second} answered ${answer}. ${ends}`;
}

function brokenSentence(session) {
  const words = { ended: SENTENCES.ended_words, cut: SENTENCES.cut_words };
  const { report } = session, closers = SIDES.filter(side => report[side].state === "closed");
  const parts = SIDES.filter(side => words[report[side].state])
    .map(side => `the ${side}'s direction ${words[report[side].state]}`);
  if (report.client.state === report.server.state) parts.splice(0, 2, `both directions ${words[report.client.state]}`);
  const closed = closers.map(side => ` The ${side} sent a Close ${withCode(session, report[side])}.`);
  return `${capital(parts.join(", and "))}, without a Close.${closed.join("")}`;
}

function halfSentence(session) {
  const side = session.report.first, sent = `The ${side} sent a Close ${withCode(session, session.report[side])}`;
  return `${sent}; no answer of the ${other(side)} is in the capture.`;
}

/** When the last byte came of what is unfinished; nothing if the capture has no time of it. */
function lastTime(session, entry) {
  const sent = session.sent[entry.side], frame = session.framesOf(entry).pop();
  const end = entry.lacks === 0 && frame ? frame.end : sent.length;
  return sent.timeAt(end - 1);
}

/** What a side has begun and not finished, and when the last byte of it came. */
function unfinishedSentences(session, side) {
  const state = session.report[side].state, isRead = state !== "refused" && state !== "closed";
  return session.entries.filter(entry => isRead && entry.type === "unfinished" && entry.side === side).map(entry => {
    const time = lastTime(session, entry), last = time ? `, the last byte at ${time} s` : "";
    if (entry.event === "head") return make("p", "", `Of the ${side}'s next frame a part of the head came${last}.`);
    const what = `The ${side}'s ${eventWords(entry)} from offset ${entry.offset} is unfinished`;
    return make("p", "", `${what}: ${count(entry.bytes, "byte")} of it came${last}${missingWords(session, entry)}.`);
  });
}

/** Who reset the connection, where the title doesn't say it. */
function resetSentence(session) {
  const found = commentLike(session, /^ reset by the (client|server)$/);
  return found ? [make("p", "", `The ${found[1]} reset the connection.`)] : [];
}

/** What is said of refused sides: those at fault first, then what others may be refused for, and what to do. */
function failedSentences(session, go) {
  const faulty = sidesAtFault(session), others = refusedSides(session).filter(side => !faulty.includes(side));
  const refusals = sides => sides.map(side => refusalSentence(session, side, go));
  const advice = [...exchangedSentence(session), ...compressedSentence(session)];
  return [...refusals(faulty), ...advice, ...refusals(others), ...resetSentence(session)];
}

/** The headline's sentences. */
function sentences(session, go) {
  return [...handshakeSentence(session), ...outcomeSentences(session, go)];
}

/** The outcome in sentences. */
function outcomeSentences(session, go) {
  const { outcome } = session.report;
  const unfinished = () => SIDES.flatMap(side => unfinishedSentences(session, side));
  switch (outcome) {
    case "failed": return failedSentences(session, go);
    case "clean": case "complete": return [make("p", "", closedSentence(session))];
    case "abnormal": return [make("p", "", brokenSentence(session)), ...unfinished()];
    case "half": return [make("p", "", halfSentence(session)), ...unfinished()];
    default: return [make("p", "", SENTENCES.open_sentence), ...unfinished()];
  }
}
