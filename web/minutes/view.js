// The text of the pad as minutes: drawn by a worker's answers, a moment after the text has changed, block by block.
import { compose } from "../../clients/js/src/delta.js";
import { boxAt } from "./places.js";

// Milliseconds after a change until minutes are made, or so many times what the last ones took; and until the worker is given up.
const SOON = 60, TIMES = 2, LONGEST = 15000;
// Blocks of a group, which a browser lays out by itself.
const SIZE = 60;

export class MinutesView {
  // `source` answers { text, isPresent }. `onTick` gets the unit of the text at which a box has its mark, and whether it is ticked
  // now. `onMade` is called when minutes are drawn, and `onFailed` if they cannot be made.
  constructor(root, { source, onTick, onMade, onFailed }) {
    Object.assign(this, { root, source, onTick, onMade, onFailed, isWanted: false, number: 0, timer: null, lateTimer: null, took: 0 });
    this.forget();
    root.addEventListener("change", ({ target }) => { if (target.matches("input[type=checkbox]")) this.tick(target); });
  }

  // Nothing is drawn, and the next answer is for an empty text.
  forget() {
    this.worker?.terminate();
    clearTimeout(this.lateTimer);
    Object.assign(this, { worker: null, isBusy: false, isStale: true, blocks: [], lines: [], text: null, since: [], posted: null });
    this.root.replaceChildren();
  }

  // Whether minutes have to be there, since somebody looks at them.
  want(is) {
    this.isWanted = is;
    if (is) this.later();
  }

  // What is shown has changed; without a delta, it is another text.
  changed(delta = null) {
    this.isStale = true;
    if (delta) {
      this.since = compose(this.since, delta);
      if (this.posted) this.posted.since = compose(this.posted.since, delta);
    }
    if (this.isWanted) this.later();
  }

  later() {
    if (!this.isStale || this.isBusy) return;
    clearTimeout(this.timer);
    this.timer = setTimeout(() => this.make(), this.text === null ? 0 : Math.max(SOON, TIMES * this.took));
  }

  make() {
    const { text } = this.source(), number = ++this.number, start = performance.now();
    if (!this.worker) {
      this.worker = new Worker("/minutes/worker.js", { type: "module" });
      this.worker.onerror = (event) => { event.preventDefault(); this.fail(); };
    }
    Object.assign(this, { isStale: false, isBusy: true, posted: { text, since: [] } });
    this.lateTimer = setTimeout(() => this.fail(), LONGEST);
    this.worker.onmessage = ({ data }) => {
      if (data.number !== number) return;
      clearTimeout(this.lateTimer);
      this.took = performance.now() - start;
      this.draw(data);
    };
    this.worker.postMessage({ number, text });
  }

  fail() {
    this.forget();
    this.isStale = false; // the same text would fail again
    this.onFailed();
  }

  draw({ start, end, between, lines }) {
    const { posted } = this, made = between.map((html) => blockOf(html)), gone = this.blocks.splice(start, this.blocks.length - start - end, ...made);
    this.place(made, start);
    for (const block of gone) block.remove();
    for (const group of [...this.root.children]) if (!group.firstChild) group.remove();
    Object.assign(this, { lines, text: posted.text, since: posted.since, posted: null, isBusy: false });
    this.setEditable();
    this.onMade();
    if (this.isWanted) this.later();
  }

  // Puts blocks behind those before `start`: into the group there, or into groups of their own if they are many.
  place(made, start) {
    const last = start ? this.blocks[start - 1] : null, next = last ? last.nextSibling : this.root.firstChild?.firstChild;
    const group = last?.parentNode ?? this.root.firstChild;
    if (group && made.length + group.childNodes.length <= 2 * SIZE) { for (const block of made) group.insertBefore(block, next ?? null); return; }
    const rest = group ? [...group.childNodes].slice(last ? [...group.childNodes].indexOf(last) + 1 : 0) : [], all = [...made, ...rest], groups = [];
    for (let at = 0; at < all.length; at += SIZE) {
      const one = document.createElement("div");
      one.className = "leaves";
      one.append(...all.slice(at, at + SIZE));
      groups.push(one);
    }
    if (last) group.after(...groups); else this.root.prepend(...groups);
  }

  // Boxes can be ticked by those who may write, in the present text.
  setEditable(is = this.isEditable) {
    this.isEditable = is;
    for (const box of this.root.querySelectorAll("input")) box.disabled = !is;
  }

  // ---- places

  // The line of the text at which a block begins, and before which it ends.
  linesOf(index) { return { from: this.lines[2 * index], to: this.lines[2 * index + 1] }; }

  // The index of the block that has a line, or of the one before it.
  blockAt(line) {
    let low = 0, high = this.blocks.length - 1;
    while (low < high) {
      const middle = (low + high + 1) >> 1;
      if (this.lines[2 * middle] <= line) low = middle; else high = middle - 1;
    }
    return low;
  }

  // The height on the screen of a line, in parts of its block, and the line at a height.
  topOf(line) {
    if (!this.blocks.length) return 0;
    const index = this.blockAt(line), { from, to } = this.linesOf(index), { top, height } = this.blocks[index].getBoundingClientRect();
    return top + height * Math.min(1, Math.max(0, (line - from) / Math.max(1, to - from)));
  }
  lineAt(y) {
    let low = 0, high = this.blocks.length - 1;
    if (high < 0) return 0;
    while (low < high) {
      const middle = (low + high) >> 1;
      if (this.blocks[middle].getBoundingClientRect().bottom < y) low = middle + 1; else high = middle;
    }
    const { from, to } = this.linesOf(low), { top, height } = this.blocks[low].getBoundingClientRect();
    return from + Math.min(1, Math.max(0, (y - top) / (height || 1))) * (to - from);
  }

  // ---- tasks

  tick(box) {
    const block = this.blocks.findIndex((one) => one.contains(box)), line = this.linesOf(block).from + Number(box.dataset.line);
    const at = boxAt(this.text, line, this.since, this.source().text);
    if (at !== null) this.onTick(at, box.checked);
    else box.checked = !box.checked; // the line is another one now
  }

  // Goes to a heading, and takes the keyboard there.
  focus(line) {
    const block = this.blocks[this.blockAt(line)];
    if (!block) return;
    const heading = block.querySelector("h1, h2, h3, h4, h5, h6") ?? block;
    heading.tabIndex = -1;
    heading.focus({ preventScroll: true });
    heading.scrollIntoView({ block: "start" });
  }
}

// The element of a block's HTML, in which there is no markup of authors. Lines run in the direction of their own words.
function blockOf(html) {
  const block = document.createElement("div");
  block.className = "leaf";
  block.innerHTML = html;
  for (const node of block.querySelectorAll("p, li, h1, h2, h3, h4, h5, h6, td, th, blockquote")) node.dir = "auto";
  return block;
}

