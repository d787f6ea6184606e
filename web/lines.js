// A text as blocks, one for each line, in the colours of its authors. A change makes only the blocks of its lines again.
//
// Lines that an input method writes into are lent to the browser. They are one entry of the list then, whose blocks are
// whatever the browser has made of them between the blocks of their neighbours; nobody else draws them or reads others.
import { makeBlock, piecesBetween, textOf } from "./blocks.js";
import { colourOf } from "./colours.js";
import { Groups } from "./groups.js";
import { looksOf } from "./looks.js";

export class Lines {
  constructor(root) {
    this.root = root;
    this.groups = new Groups(root);
    this.lines = [];
    this.lent = null;
  }

  // Everything is made again: another text.
  show(text, runs, marks = []) {
    Object.assign(this, { text, runs, marks, lent: null });
    this.lines = [];
    this.groups.clear();
    this.replace({ first: 0, last: -1, from: 0, to: text.length });
  }

  // The text has changed by a delta. Stretches of lines that do not touch are made apart from each other.
  change(delta, { text, runs, marks }) {
    Object.assign(this, { text, runs, marks });
    for (const stretch of this.stretches(delta).reverse()) this.replace(stretch);
  }

  // The lines that a delta changes: from `first` to `last`, which now have the text from `from` to `to`.
  stretches(delta) {
    const out = [];
    let at = 0, shift = 0, line = 0, start = 0;
    const seek = (unit) => {
      while (line + 1 < this.lines.length && unit > start + this.lines[line].length) start += this.lines[line++].length + 1;
    };
    for (const step of delta) {
      if (step.keep) { at += step.keep; continue; }
      seek(at);
      if (!out.length || line > out[out.length - 1].last) out.push({ first: line, last: line, from: start + shift, to: 0 });
      const stretch = out[out.length - 1];
      if (step.drop) {
        at += step.drop;
        seek(at);
        shift -= step.drop;
      } else shift += step.insert.length;
      stretch.last = line;
      stretch.to = start + this.lines[line].length + shift;
    }
    return out;
  }

  replace({ first, last, from, to }) {
    const made = [], place = { run: 0, unit: 0 };
    for (let at = from; at <= to;) {
      const found = this.text.indexOf("\n", at), end = found < 0 || found > to ? to : found;
      const look = looksOf(this.text.slice(at, end)), pieces = piecesBetween(this.text, this.runs, this.marks, at, end, look.spans, place);
      made.push({ block: makeBlock(pieces, look.name), length: end - at });
      at = end + 1;
    }
    const old = this.lines.slice(first, last + 1), gone = old.flatMap((line) => this.nodesOf(line));
    const [next = null] = this.nodesOf(this.lines[last + 1]);
    if (old.includes(this.lent)) this.lent = null;
    this.lines = [...this.lines.slice(0, first), ...made, ...this.lines.slice(last + 1)];
    this.groups.insert(made.map(({ block }) => block), next, !this.lent);
    this.groups.remove(gone);
  }

  // Authors have other colours now.
  recolour() {
    for (const node of this.root.querySelectorAll(".run")) {
      const colour = colourOf(node.dataset.author);
      if (node.classList.contains(colour)) continue;
      node.className = node.className.replace(/\bcolour-\d+/, colour);
    }
  }

  // Makes the lines of other marks again.
  setMarks(marks) {
    const key = ({ id, from, to, isLit, out, proposed }) => JSON.stringify([id, from, to, Boolean(isLit), out, proposed]);
    const had = new Map(this.marks.map((mark) => [key(mark), mark])), have = new Map(marks.map((mark) => [key(mark), mark]));
    const changed = [...had, ...have].filter(([name]) => !had.has(name) || !have.has(name)).map(([, mark]) => mark);
    this.marks = marks;
    const { length } = this.text;
    for (const { from, to } of changed) if (from < to) this.renew(Math.min(from, length), Math.min(to, length));
  }

  // Draws the lines of a stretch again, but for those that are lent.
  renew(from, to) {
    const first = this.lineAt(from).index, last = this.lineAt(to).index, lent = this.lines.indexOf(this.lent);
    if (lent < first || lent > last) { this.redraw(first, last); return; }
    if (lent < last) this.redraw(lent + 1, last);
    if (first < lent) this.redraw(first, lent - 1);
  }

  redraw(first, last) {
    this.replace({ first, last, from: this.startOf(first), to: this.startOf(last) + this.lines[last].length });
  }

  // ---- lines that are lent to the browser

  // Lends the lines of a stretch, beside those that are lent already.
  lend(from, to) {
    let first = this.lineAt(from).index, last = this.lineAt(to).index;
    if (this.lent) {
      const at = this.lines.indexOf(this.lent);
      [first, last] = [Math.min(first, at), Math.max(last, at)];
    }
    this.merge(first, last);
  }

  // Makes one entry of some, which is lent.
  merge(first, last) {
    const merged = this.lines.slice(first, last + 1);
    this.lent = { block: merged[0].block, length: merged.reduce((sum, { length }) => sum + length + 1, -1) };
    this.lines.splice(first, merged.length, this.lent);
  }

  // The text that the browser has written into the lent lines, which become those of this length. Neighbours whose blocks
  // it has taken away, and one of them where it has left no block at all, are lent as well.
  readLent() {
    const isGone = (at) => at >= 0 && at < this.lines.length && !this.groups.holds(this.lines[at].block);
    for (let at = this.lines.indexOf(this.lent); ; at = this.lines.indexOf(this.lent)) {
      const isEmpty = !this.nodesOf(this.lent).length, isLast = at + 1 === this.lines.length;
      if (isGone(at - 1) || (isEmpty && at > 0)) this.merge(at - 1, at);
      else if (isGone(at + 1) || (isEmpty && !isLast)) this.merge(at, at + 1);
      else return textOf(this.nodesOf(this.lent));
    }
  }

  // What the lent lines are in the text: { from, to }.
  get lentStretch() {
    const from = this.startOf(this.lines.indexOf(this.lent));
    return { from, to: from + this.lent.length };
  }

  // The text has changed in the lent lines, as the browser shows it already.
  wrote(length, { text, runs, marks }) {
    Object.assign(this, { text, runs, marks });
    this.lent.length = length;
  }

  // Draws the lent lines again, after a change that may be in them, too.
  takeBack(delta, state) {
    this.change(delta, state);
    if (!this.lent) return;
    const at = this.lines.indexOf(this.lent);
    this.redraw(at, at);
  }

  // The nodes of a line in the document: one block, or what the browser has made of the lines that are lent.
  nodesOf(line) {
    if (!line) return [];
    if (line !== this.lent) return [line.block];
    const at = this.lines.indexOf(line), end = this.lines[at + 1]?.block ?? null, out = [];
    let node = at ? this.groups.next(this.lines[at - 1].block) : this.groups.first;
    for (; node && node !== end; node = this.groups.next(node)) out.push(node);
    return out;
  }

  // Whether the document still has just these blocks, and whatever is in the place of those that are lent.
  get isWhole() {
    let node = this.groups.first;
    for (const line of this.lines) {
      const nodes = line === this.lent ? this.nodesOf(line) : null, last = nodes ? nodes.at(-1) : line.block;
      if (!last) continue;
      if (node !== (nodes ? nodes[0] : last)) return false;
      node = this.groups.next(last);
    }
    return node === null;
  }

  // ---- places

  // Where a line begins in the text.
  startOf(index) {
    let start = 0;
    for (let at = 0; at < index; at++) start += this.lines[at].length + 1;
    return start;
  }

  lineAt(unit) {
    let start = 0, index = 0;
    while (index + 1 < this.lines.length && unit > start + this.lines[index].length) start += this.lines[index++].length + 1;
    return { index, start };
  }

  // The place in the document of a unit of the text.
  pointOf(unit) {
    const { index, start } = this.lineAt(unit), { block } = this.lines[index];
    const words = document.createTreeWalker(block, NodeFilter.SHOW_TEXT);
    let left = unit - start;
    for (let node; (node = words.nextNode()); left -= node.length) if (left <= node.length) return { node, offset: left };
    return { node: block, offset: 0 };
  }

  // The unit of the text at a place of the document, or null outside.
  unitOf(node, offset) {
    if (node === this.root || this.groups.isGroup(node)) return this.unitAtChild(node, offset);
    const block = this.groups.blockOf(node);
    if (!block) return null;
    let start = 0;
    const line = this.lines.find((one) => {
      if (one === this.lent ? this.nodesOf(one).includes(block) : one.block === block) return true;
      start += one.length + 1;
      return false;
    });
    const range = document.createRange(), isLent = line !== undefined && line === this.lent;
    range.setStart(isLent ? this.nodesOf(line)[0] : block, 0);
    range.setEnd(node, offset);
    if (isLent) return start + textOf(range.cloneContents().childNodes).length;
    return Math.min(start + range.toString().length, this.text.length);
  }

  // The same for a place between lines or groups: where the line behind it begins, or the text ends.
  unitAtChild(node, offset) {
    const child = node.childNodes[offset] ?? (node === this.root ? null : node.nextSibling), block = this.groups.inside(child);
    return block ? this.unitOf(block, 0) : this.text.length;
  }

  // The unit with which the line begins that is at a height of the window.
  unitAt(y) { return this.startOf(this.indexAt(y)); }

  // The line at a height of the window. Lines stand below one another, and so do their groups, of which one that is out of
  // sight can be less high than its lines.
  indexAt(y) {
    let low = 0, high = this.lines.length - 1;
    while (low < high) {
      const middle = (low + high) >> 1;
      const { block } = this.lines[middle], isAbove = (node) => node.getBoundingClientRect().bottom < y;
      if (isAbove(block.closest(".group") ?? block) || isAbove(block)) low = middle + 1; else high = middle;
    }
    return low;
  }

  // Where a line is on the screen.
  boxOf(index) { return this.lines[Math.min(index, this.lines.length - 1)].block.getBoundingClientRect(); }

  // Where a unit is on the screen.
  rectAt(unit) {
    const { node, offset } = this.pointOf(unit), range = document.createRange();
    range.setStart(node, offset);
    range.collapse(true);
    return range.getClientRects()[0] ?? this.lines[this.lineAt(unit).index].block.getBoundingClientRect();
  }
}
