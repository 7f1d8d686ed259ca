// Runs a page's scripts without a browser, and prints the page's elements as HTML, as Chromium's --dump-dom does; with
// - it prints instead, as JSON, the value in the page of the expression that it reads from standard input:
//
//     node page_document.js PAGE [-]
//
// Of a browser there is here what laying a session out calls. A script that fails, or calls more, ends it: status 1.
"use strict";
const fs = require("node:fs"), vm = require("node:vm");

const ESCAPES = { "&": "&amp;", "<": "&lt;", ">": "&gt;", '"': "&quot;" };

function escaped(text) {
  return String(text).replace(/[&<>"]/g, character => ESCAPES[character]);
}

/** What is inside of an element: an element, or else a text. */
function htmlOf(part) {
  return part instanceof Element ? part.outerHTML : escaped(part);
}

/** The classes of an element, as its `className` has them. */
class Classes {
  constructor(element) {
    this.element = element;
  }

  set(name, is) {
    const others = this.element.className.split(" ").filter(each => each && each !== name);
    this.element.className = [...others, ...is ? [name] : []].join(" ");
  }

  contains(name) {
    return this.element.className.split(" ").includes(name);
  }

  add(name) {
    this.set(name, true);
  }

  remove(name) {
    this.set(name, false);
  }

  toggle(name, is = !this.contains(name)) {
    this.set(name, is);
  }
}

class Element {
  constructor(tag) {
    Object.assign(this, { tag, inside: [], parent: null, className: "", dataset: {}, attributes: {} });
    Object.assign(this, { value: "", offsetHeight: 0 });
    this.classList = new Classes(this);
    this.style = { setProperty() {} };
  }

  /** These parts as this element's: an element leaves the place where it was. */
  taken(parts) {
    for (const part of parts) {
      if (!(part instanceof Element)) continue;
      part.remove();
      part.parent = this;
    }
    return parts;
  }

  append(...parts) {
    this.inside.push(...this.taken(parts));
  }

  replaceChildren(...parts) {
    for (const child of this.children) child.remove();
    this.inside = this.taken(parts);
  }

  after(...parts) {
    this.parent.taken(parts);
    this.parent.inside.splice(this.parent.inside.indexOf(this) + 1, 0, ...parts);
  }

  remove() {
    if (this.parent) this.parent.inside = this.parent.inside.filter(each => each !== this);
    this.parent = null;
  }

  setAttribute(name, value) {
    this.attributes[name] = value;
  }

  addEventListener(name, does) {
    if (typeof does !== "function") throw new TypeError(`a listener for ${name} is no function`);
  }

  focus() {}

  scrollIntoView() {}

  get children() {
    return this.inside.filter(part => part instanceof Element);
  }

  get textContent() {
    return this.inside.map(part => part instanceof Element ? part.textContent : part).join("");
  }

  set textContent(text) {
    this.replaceChildren(text);
  }

  /** The first element below with this tag. */
  querySelector(tag) {
    for (const child of this.children) {
      const found = child.tag === tag ? child : child.querySelector(tag);
      if (found) return found;
    }
    return null;
  }

  get outerHTML() {
    const fields = Object.entries(this.dataset).map(([name, value]) => [`data-${name}`, value]);
    const named = [...this.className ? [["class", this.className]] : [], ...fields, ...Object.entries(this.attributes)];
    const begin = [this.tag, ...named.map(([name, value]) => `${name}="${escaped(value)}"`)].join(" ");
    return this.tag === "input" ? `<${begin}>` : `<${begin}>${this.inside.map(htmlOf).join("")}</${this.tag}>`;
  }
}

/** What a page sees of what is in view: nothing comes into it. */
class Observer {
  observe() {}

  unobserve() {}

  disconnect() {}
}

const held = {}, scripts = []; // The elements that have an id, and the scripts in their order.

/** An element of the page's own, as it is before any script runs. */
function hold(tag, attributes, text) {
  const [, id] = / id="(\w+)"/.exec(attributes) ?? [];
  if (tag === "script" && !attributes.includes(" type=")) scripts.push(text);
  if (!id) return;
  held[id] = new Element(tag);
  held[id].setAttribute("id", id);
  if (text) held[id].textContent = text;
}

const page = fs.readFileSync(process.argv[2], "utf8"), whole = /<(script|style)((?: [^>]*)?)>([^]*?)<\/\1>/g;
for (const [, tag, attributes, text] of page.matchAll(whole)) hold(tag, attributes, text);
for (const [, tag, attributes] of page.replace(whole, "").matchAll(/<(\w+)( [^>]*)>/g)) hold(tag, attributes);
Object.assign(globalThis, {
  document: {
    getElementById: id => held[id] ?? null, createElement: tag => new Element(tag), querySelectorAll: () => [],
    title: "",
  },
  location: { hash: "" }, matchMedia: () => ({ matches: false }), addEventListener() {},
  ResizeObserver: Observer, IntersectionObserver: Observer,
});
for (const script of scripts) vm.runInThisContext(script, { filename: "the page's script" });
if (process.argv[3] === "-")
  Promise.resolve(vm.runInThisContext(fs.readFileSync(0, "utf8"))).then(value => console.log(JSON.stringify(value)));
else
  process.stdout.write(`<html><body>${held.page.outerHTML}</body></html>\n`);
