// What the comments of a capture say of the opening handshake, as recipes/record and recipes/pcap2wsn write them.

const HANDSHAKE = ["path", "answer", "subprotocol", "extensions"];
const COMMENT_CHARACTERS = 300; // The characters of a comment that are shown in the heading.
const MOST_WARNINGS = 10; // The warnings that are shown in the heading.

/** A comment's text that enters the heading: its front, hidden characters written out. */
function commentParts(text) {
  const [shown, cut] = front(text, COMMENT_CHARACTERS);
  return [...visible(shown), cut ? " .." : ""];
}

/** What a comment says is wrong with the answer, in words; nothing if it says something else. */
function warningParts(text) {
  if (text === " accept is wrong") return ["the answer's ", make("code", "", "Sec-WebSocket-Accept"), " is wrong"];
  const [, what, name] = /^ (subprotocol|extension) ([^]+) was not offered$/.exec(text) ?? [];
  if (!what) return null;
  const chosen = make("code", "text", ...commentParts(name));
  return [`the server chose the ${what} `, chosen, ", which the client didn't offer"];
}

function warningsOf(session) {
  const found = new Map();
  for (const { type, text } of session.entries) {
    const parts = type === "comment" && found.size < MOST_WARNINGS && !found.has(text) && warningParts(text);
    if (parts) found.set(text, make("p", "warning", make("b", "", "Wrong handshake: "), ...parts, "."));
  }
  return [...found.values()];
}

/** Whether a comment says that the answer is wrong, so that the client must fail the connection. */
function isHandshakeWrong({ entries }) {
  return entries.some(({ type, text }) => type === "comment" && warningParts(text));
}

/** The handshake in the heading: path, answer, subprotocol, extensions, and warnings; nothing if no comment has any. */
function handshakeOf(session) {
  const facts = HANDSHAKE.flatMap(name => {
    const [, text] = commentLike(session, new RegExp(`^ ${name}: ([^]*)`)) ?? [];
    if (text === undefined) return [];
    return [make("div", "fact", make("dt", "", name), make("dd", "value text", ...commentParts(text)))];
  });
  const warnings = warningsOf(session);
  if (!facts.length && !warnings.length) return [];
  const section = make("section", "handshake", ...warnings, facts.length ? make("dl", "", ...facts) : "");
  section.setAttribute("aria-label", "The opening handshake, as the capture's comments have it");
  return [section];
}
