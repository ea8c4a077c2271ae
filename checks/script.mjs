// A page of `ira draw --out NAME.html` without a browser: its script runs in Node over the page's own data, in a document of
// which there is as much as it asks for. Each line of standard input is a page to open, `{"open": FILE, "link": HASH}`, or a
// piece of code to run there, `{"run": BODY, "with": [VALUE..]}`; each answer is a line, `{"is": VALUE}` or `{"fault": TEXT}`.
import {readFileSync} from 'node:fs';
import {createInterface} from 'node:readline';
import vm from 'node:vm';

class Element {
  constructor(tagName, text = '') {
    Object.assign(this, {tagName, childNodes: [], text, dataset: {}, parentNode: null, attributes: {}});
  }
  get children() { return this.childNodes.filter(child => child.tagName); }
  get textContent() { return this.text + this.childNodes.map(child => child.textContent).join(''); }
  set textContent(text) { [this.text, this.childNodes] = [text, []]; }
  append(...children) {
    for (const child of children) {
      const node = child instanceof Element ? child : new Element('', String(child));
      node.parentNode = this;
      this.childNodes.push(node);
    }
  }
  appendChild(child) { return this.append(child), child; }
  replaceChildren(...children) { this.textContent = '', this.append(...children); }
  get nextSibling() { return this.parentNode.childNodes[this.parentNode.childNodes.indexOf(this) + 1]; }
  get all() { return this.children.flatMap(child => [child, ...child.all]); }
  querySelectorAll(name) { return this.all.filter(element => element.tagName == name); }
  querySelector(name) { return this.querySelectorAll(name)[0] ?? null; }
  get rows() { return this.querySelectorAll('tr'); }
  get cells() { return this.children; }
  get selectedIndex() { return max(0, this.children.findIndex(option => option.textContent.trim() == this.value)); }
  setAttribute(name, value) { this.attributes[name] = value; }
  focus() { this.document.activeElement = this; }
  click() { this.checked = !this.checked, this.onchange?.(); }
  showModal() { this.open = true; }
  setPointerCapture() {}
  getContext() { return this.context ??= new Context; }
}
const {max} = Math;

// What is drawn: each stroke and fill with its lines, circles and boxes, words, and areas.
class Context {
  strokes = []; fills = []; words = []; areas = []; globalAlpha = 1;
  beginPath() { this.path = {lines: [], circles: [], boxes: []}; }
  moveTo(x, y) { this.at = [x, y]; }
  lineTo(x, y) { this.path.lines.push([...(this.at ?? [x, y]), x, y]), this.at = [x, y]; }
  arc(x, y, r) { this.path.circles.push([x, y, r]); }
  rect(x, y, w, h) { this.path.boxes.push([x, y, w, h]); }
  closePath() {}
  setLineDash(dash) { this.dash = dash; }
  stroke() {
    this.strokes.push({colour: this.strokeStyle, width: this.lineWidth, dash: this.dash, alpha: this.globalAlpha, ...this.path});
  }
  fill() { this.fills.push({colour: this.fillStyle, alpha: this.globalAlpha, ...this.path}); }
  fillText(words, x, y) { this.words.push({words, x, y, colour: this.fillStyle, align: this.textAlign}); }
  strokeText() {}
  fillRect(x, y, w, h) { this.areas.push({x, y, w, h, alpha: this.globalAlpha}); }
  setTransform() {}
  drawImage() {}
}

function open(file, link) {
  const text = readFileSync(file, 'latin1'), elements = {}, location = {hash: link};
  const [, data, script] = /<script type="application\/x-ndjson" id="data">\n([^]*?)<\/script>\n<script>\n([^]*)<\/script>/.exec(text);
  const document = Object.assign(new Element('html'), {documentElement: {}, title: ''});
  const made = name => Object.assign(new Element(name), {document});
  for (const [, name, more] of text.slice(0, text.indexOf('application/x-ndjson')).matchAll(/<(\w+)([^>]*)>/g)) {
    const element = made(name), id = / id="(\w+)"/.exec(more)?.[1], key = / data-key="(.)/.exec(more)?.[1];
    if (id) elements[id] = Object.assign(element, {id}), document.append(element);
    if (key) element.dataset.key = key, document.append(element);
  }
  elements.data = Object.assign(made('script'), {textContent: data});
  Object.assign(elements.stage, {clientWidth: 1000, clientHeight: 700});
  elements.legend.parentNode = made('details');
  document.activeElement = elements.view;
  Object.assign(document, {
    getElementById: id => elements[id], createElement: made, createElementNS: (_, name) => made(name),
    querySelectorAll: () => document.all.filter(element => element.dataset.key),
  });
  const context = vm.createContext({
    document, location, TextDecoder, Uint8Array, clearTimeout, clearInterval, devicePixelRatio: 1,
    history: {replaceState: (_, __, hash) => location.hash = hash}, performance: {now: () => 0},
    setTimeout: () => 0, setInterval: () => 0, requestAnimationFrame: () => 0, matchMedia: () => ({}),
    getComputedStyle: () => ({getPropertyValue: name => name}), ResizeObserver: class { observe() {} }, Context,
  });
  vm.runInContext(script, context, {filename: 'script.js'});
  return context;
}

let page;
for await (const line of createInterface({input: process.stdin})) {
  const {open: file, link, run, with: given} = JSON.parse(line);
  let said;
  try {
    if (file) page = open(file, link);
    else said = vm.runInContext(`(function () {${run}})`, page)(...given);
    console.log(JSON.stringify({is: said ?? null}));
  } catch (fault) {
    console.log(JSON.stringify({fault: fault.stack}));
  }
}
