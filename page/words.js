// Elements, numbers, and texts that came from a capture: these enter the page as text alone.

const HIDDEN = /[\u0000-\u001f\u007f-\u009f\u00ad\u034f\u061c\u115f\u1160\u17b4\u17b5\u180e\u200b\u200e\u200f\u2028-\u202e\u2060-\u206f\u3164\ufeff\uffa0\ufff0-\ufff8\u{1bca0}-\u{1bca3}\u{1d173}-\u{1d17a}\u{e0000}-\u{e00ff}\u{e01f0}-\u{e0fff}]/u;
const SHORT = { "\n": "\\n", "\r": "\\r", "\t": "\\t" };

/** An element with a class and with what is inside it; strings become text. */
function make(name, className, ...inside) {
  const element = document.createElement(name);
  if (className) element.className = className;
  element.append(...inside.filter(part => part !== null && part !== undefined && part !== ""));
  return element;
}

/** An element that shows one field of an object: tests read it by the field's name. */
function field(name, className, ...inside) {
  const element = make("span", className, ...inside);
  element.dataset.field = name;
  return element;
}

/** Text for screen readers alone. */
function spoken(text) {
  return make("span", "spoken", text);
}

function button(label, does, className = "") {
  const element = make("button", className, label);
  element.type = "button";
  element.addEventListener("click", does);
  return element;
}

function number(value) {
  return value.toLocaleString("en-US");
}

function count(value, word) {
  return `${number(value)} ${word}${value === 1 ? "" : "s"}`;
}

function capital(text) {
  return text.slice(0, 1).toUpperCase() + text.slice(1);
}

function digits(byte) {
  return byte.toString(16).padStart(2, "0");
}

/** Hexadecimal digits in pairs. */
function pairs(hex) {
  return hex.replace(/..(?=.)/g, "$& ");
}

/** How a hidden character is written: beyond U+FFFF by its two surrogates. */
function escape(character) {
  return SHORT[character] ?? character.split("").map(unit => "\\u" + unit.charCodeAt(0).toString(16).padStart(4, "0")).join("");
}

/** A text's first characters, and whether some are left out. No character is cut. */
function front(text, most) {
  if (text.length <= most) return [text, false];
  const high = text.charCodeAt(most - 1);
  return [text.slice(0, high >= 0xd800 && high < 0xdc00 ? most - 1 : most), true];
}

/** A text that came from a capture; its hidden characters are written out, but for line feeds if these are kept. */
function visible(text, keepLines = false) {
  const parts = [];
  let plain = "";
  for (const character of text) {
    if (!HIDDEN.test(character) || (keepLines && character === "\n")) { plain += character; continue; }
    parts.push(plain, make("i", "escape", escape(character)));
    plain = "";
  }
  parts.push(plain);
  return parts.filter(part => part !== "");
}

/** The bytes that digits stand for. */
function bytesOfHex(hex) {
  return Uint8Array.from(hex.match(/../g) ?? [], pair => parseInt(pair, 16));
}

/** Whether bytes are shown as a text: those of printable ASCII. */
function isPlain(bytes) {
  return bytes.every(byte => byte >= 0x20 && byte <= 0x7e);
}

/** Bytes as text. A character that the end cuts is left out if more of it is to come. */
function decoded(bytes, goesOn = false) {
  return new TextDecoder("utf-8", { ignoreBOM: true }).decode(bytes, { stream: goesOn });
}

/** A JSON text in lines, its strings and numbers as they are. */
function indented(text) {
  let out = "", depth = 0;
  const line = () => "\n" + "  ".repeat(depth);
  for (const [token] of text.matchAll(/"(?:[^"\\]|\\.)*"|[{[]\s*[}\]]|[{}[\],:]|[^\s{}[\],:"]+/g)) {
    if (token === "{" || token === "[") { depth++; out += token + line(); }
    else if (token === "}" || token === "]") { depth--; out += line() + token; }
    else out += token === "," ? token + line() : token === ":" ? ": " : token;
  }
  return out;
}

/** A close code and its name. */
function codeWords(session, code) {
  if (code === null || code === undefined) return "no code";
  const name = session.codeName(code);
  return name ? `${code} (${name})` : String(code);
}
