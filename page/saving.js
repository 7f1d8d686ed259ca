// What is saved: the page that `page/build CAPTURE` makes, made here of the same template, style, script and JSON, to the
// byte; and what `wsn redact` writes.

const UNSEEN = /[\0-\x1f\x7f-\x9f\xad\u034f\u061c\u115f\u1160\u17b4\u17b5\u180e\u200b\u200e\u200f\u2028-\u202e\u2060-\u206f\u3164\ufeff\uffa0\ufff0-\ufff8\u{1bca0}-\u{1bca3}\u{1d173}-\u{1d17a}\u{e0000}-\u{e00ff}\u{e01f0}-\u{e0fff}\ud800-\udfff]/gu;

/** A character's number as an escape: beyond U+FFFF by its two surrogates. */
function codeEscape(character) {
  return character.split("").map(unit => `\\u${unit.charCodeAt(0).toString(16).padStart(4, "0")}`).join("");
}

/** A name whose hidden characters, which could turn or break it, are escaped. */
function visibleName(name) {
  return name.replace(UNSEEN, codeEscape);
}

/** A value as JSON that is fit for a page. */
function literal(value) {
  return JSON.stringify(value).replace(/[^ -~]|</g, codeEscape);
}

/** Objects, one a line, as a JSON array with an object a line, fit for a page. */
function arrayOf(lines) {
  return `[\n${lines.trimEnd().split("\n").join(",\n").replace(/</g, "\\u003c")}\n]`;
}

function markup(text) {
  return text.replace(/&/g, "&amp;").replace(/</g, "&lt;").replace(/>/g, "&gt;");
}

/** The title of a session's page. */
function titleFor(name) {
  return `${name} - WebSocket session`;
}

/** The page of a session. */
function pageOf(template, { name, version, explained, capture, shown, wire }) {
  const content = id => document.getElementById(id).textContent;
  const parts = {
    TITLE: markup(titleFor(name)), STYLE: content("style"), SCRIPT: content("script"),
    SESSION: literal({ name, version, explained }), CAPTURE: literal(capture),
    SHOWN: arrayOf(shown), WIRE: arrayOf(wire),
  };
  return template.replace(/@([A-Z]+)@/g, (_, part) => parts[part]);
}

/** The name of the file with what `wsn redact` writes. */
function redactedName(name, isStream) {
  const bare = isStream ? name.replace(/\.bin$/, "") : name;
  return fileName({ name: bare }, isStream ? ".redacted.bin" : ".redacted.capture");
}

/** What is no longer in a saved redaction, and what still is. */
function redactedWords(file, isStream) {
  const comments = isStream ? "" : "; comments are # but for times, resets and the names of extensions";
  return `Saved as ${file}, without what was said: in texts and close reasons letters are x or X, digits 0, and `
    + `characters beyond ASCII others of as many bytes; other payloads are zeros${comments}. Lengths, spaces and `
    + "punctuation, close codes and masking keys are still in it, and so is where a stream goes wrong.";
}
