// `wsn.html`: a session is dropped, chosen or pasted, the engine says what it holds, and the page lays it out.

const there = id => document.getElementById(id);
const kept = JSON.parse(there("kept").textContent); // The template, the version, the explanations, the limits.
const engine = Engine.start(there("engine").textContent, kept.limits).catch(lackEngine); // Nothing if it can't run.
const TITLE = document.title; // While no session is shown.
let given = null; // What was given last: its name, its form, and its capture or stream.

/** The words and codes in objects that are explained in a page. */
function wordsIn(objects) {
  const found = new Set(), keys = ["reason", "code", "outcome", "client_sees", "server_sees"];
  for (const object of objects) {
    const { type, code, client, server } = object;
    if (type === "event") found.add(code); else for (const key of keys) found.add(object[key]);
    if (["unfinished", "unread", "tail"].includes(type)) found.add(type === "unfinished" ? "lacks" : type);
    for (const side of [client, server]) if (side) found.add(side.reason).add(side.code);
  }
  return [...found].filter(Boolean).map(String).sort();
}

/** What `wsn explain` prints of a word. Codes from 3000 are explained by thousands. */
function explanation(word) {
  return kept.explained[/^[34]\d{3}$/.test(word) ? `${word[0]}000` : word];
}

/** A session as `layOut` takes it. Throws an Error if a line isn't accepted. */
function partsOf({ name, capture }, code) {
  const bytes = bytesOfCapture(capture), [shown, wire] = [false, true].map(frames => code.show(bytes, frames));
  if (shown.status === 2) throw new LineError(shown.message, capture);
  const words = wordsIn(objectsOf(shown.text));
  const explained = Object.fromEntries(words.map(word => [word, explanation(word)]));
  return { name, version: kept.version, explained, capture, shown: shown.text, wire: wire.text };
}

/** Why a capture isn't shown or redacted: its first line that isn't accepted. */
class LineError extends Error {
  constructor(message, capture) {
    const [, line, word] = /^line (\d+): (.*)\n$/.exec(message) ?? [];
    super(line ? `Line ${number(Number(line))} of the capture isn't accepted: ${word}.` : message.trim());
    if (!line) return;
    this.line = capture.split("\n", line)[line - 1] ?? "";
    this.explained = explanation(word);
  }
}

/** The verdict's line as `wsn judge` prints it. */
function judgeLine({ verdict, used, tail, unfinished, offset, reason, code }) {
  if (verdict === "refused") return `refused ${offset} ${reason} ${code}`;
  return verdict === "cut" ? `cut ${used}` : `accepted ${used} tail ${tail} unfinished ${unfinished ?? "-"}`;
}

/** What is said of a stream's verdict. A key that is missing, or that is there, may tell that the role is wrong. */
function judgedWords(verdict, side) {
  const role = /^mask-/.test(verdict.reason) ? ` Was it sent by the ${other(side)}?` : "";
  return ` wsn judge --role ${side} prints: ${judgeLine(verdict)}.${role}`;
}

/** Says why something can't be done. */
function complain(error) {
  const parts = [make("p", "", `${given ? `${given.name}: ` : ""}${error.message}`)];
  if (error.line !== undefined) parts.push(make("pre", "", ...visible(front(error.line, 200)[0])));
  if (error.explained) parts.push(make("pre", "explained", error.explained.trimEnd()));
  there("trouble").replaceChildren(...parts);
  there("status").replaceChildren();
}

/** Shows no session. */
function showNothing() {
  document.title = TITLE;
  there("page").replaceChildren();
  there("drop").classList.remove("done");
}

/** Saves what `wsn redact` writes of a capture or stream, and says what is still in it. Throws an Error if it can't. */
function saveRedacted({ name, capture, stream }, side, code) {
  const redacted = stream ? code.redact(stream, side) : code.redact(bytesOfCapture(capture));
  if (redacted.status === 2) throw new LineError(redacted.message, capture);
  const file = redactedName(name, Boolean(stream));
  offer(file, [redacted.bytes], stream ? "application/octet-stream" : "text/plain");
  there("trouble").replaceChildren();
  there("status").replaceChildren(redactedWords(file, Boolean(stream)));
}

/** The button that saves the redaction of what was given. What is shown stays if that can't be done. */
function redactingButton(shown, side, code) {
  const made = button("Save redacted", () => attempt(() => saveRedacted(shown, side, code), () => {}));
  made.title = "Saves it without what was said, for anyone to see: lengths, times, spaces and punctuation stay";
  return made;
}

/** The endpoint that sent the stream, as it was chosen; nothing before. */
function chosenSide() {
  return document.querySelector("input[name=side]:checked")?.value;
}

/** Asks who sent a stream, before anything is said of it. */
function askSide({ name, form }) {
  document.title = TITLE;
  there("page").replaceChildren();
  there("status").replaceChildren(`${name} was read as ${form}. Who sent it?`);
  document.querySelector("input[name=side]").focus();
}

/** Shows what was given. */
async function present() {
  const shown = given, { name, form, stream } = shown, side = chosenSide(), code = await engine;
  there("side").hidden = !stream;
  there("trouble").replaceChildren();
  if (stream && !side) return askSide(shown);
  const capture = stream ? captureOfStream(stream, side) : shown.capture, parts = partsOf({ name, capture }, code);
  const judged = stream ? judgedWords(code.judge(stream, side), side) : "";
  there("drop").classList.add("done");
  document.title = titleFor(name);
  const source = () => pageOf(kept.template, parts), redacted = redactingButton(shown, side, code);
  layOut(parts, { label: "Save with this capture", source, redacted });
  there("status").replaceChildren(`${name} was read as ${form}.${judged}`);
}

/** Does something, and says why if it can't be done; then nothing is shown, or what else follows. */
async function attempt(work, follows = showNothing) {
  there("drop").ariaBusy = "true";
  try {
    await work();
  } catch (error) {
    follows();
    complain(error instanceof RangeError ? new Error("It needs more memory than this browser gives.") : error);
  }
  there("drop").ariaBusy = "false";
}

/** Takes a file or a text. What was given before, and isn't shown yet, is forgotten. */
function take(name, blob) {
  const taken = { name: visibleName(name) };
  given = taken;
  there("side").hidden = true;
  for (const input of document.querySelectorAll("input[name=side]")) input.checked = false;
  return attempt(async () => {
    refuseOver(MOST, blob.size);
    Object.assign(taken, recognized(new Uint8Array(await blob.arrayBuffer())));
    if (!await engine || given !== taken) return;
    forgetRow();
    await present();
  });
}

/** Takes the row of another session out of the page's address. */
function forgetRow() {
  try { history.replaceState(null, "", location.pathname); } catch { /* Some viewers allow no address. */ }
}

/** Takes what was dropped or pasted. */
function takeTransfer(event, transfer, name) {
  const [file] = transfer.files, text = transfer.getData("text/plain");
  if (!file && !text) return;
  event.preventDefault();
  take(file?.name ?? name, file ?? new Blob([text]));
}

/** Says that the browser can't run the engine. */
function lackEngine(error) {
  const needs = "This browser can't run the engine of this page, which needs WebAssembly with 64-bit memory.";
  const words = [needs, " Chrome and Edge have it from version 133, Firefox from 134. Without it, ",
    make("code", "", "page/build CAPTURE"), " makes a page of a capture, which any browser shows. (", error.message, ")"];
  there("trouble").replaceChildren(make("p", "", ...words));
  for (const control of document.querySelectorAll("#drop button, #drop input, #drop textarea")) control.disabled = true;
}

function listen() {
  const over = is => document.documentElement.classList.toggle("over", is);
  addEventListener("dragover", event => { event.preventDefault(); over(true); });
  addEventListener("dragleave", event => { if (!event.relatedTarget) over(false); });
  addEventListener("drop", event => {
    over(false);
    event.preventDefault();
    takeTransfer(event, event.dataTransfer, "dropped text");
  });
  addEventListener("paste", event => {
    if (!event.target.matches?.("input, textarea")) takeTransfer(event, event.clipboardData, "pasted text");
  });
  there("file").addEventListener("click", ({ target }) => { target.value = ""; });
  there("file").addEventListener("change", ({ target: { files } }) => { if (files[0]) take(files[0].name, files[0]); });
  there("show").addEventListener("click", () => take("pasted text", new Blob([there("text").value])));
  for (const input of document.querySelectorAll("input[name=side]"))
    input.addEventListener("change", () => attempt(present));
}

listen();
