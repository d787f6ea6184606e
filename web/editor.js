// The text that is edited. The browser says what it is about to do with the text, the page does it to its own text, and
// draws the lines that this changes. Only input methods write into the document themselves: the lines that they write into
// are lent to the browser, and read. What others do in other lines is drawn meanwhile. What they do in the lent lines waits
// until the input method ends or rests.
import { add, apply, compose, extent, isEmpty, move, snapped, splice, transform, typed } from "../clients/js/src/delta.js";
import { Drag } from "./drag.js";
import { insertedBy, isComposing, isDeleting, letterOf } from "./input.js";
import { Lines } from "./lines.js";
import { edgeAfter, edgeBefore } from "../clients/js/src/units.js";
import { enter, once, tab } from "./writing.js";

// An input method that does nothing for this long makes room for what others did in its lines.
const REST = 5000;

export class Editor {
  // `author` is a function, `runs` gives the author runs of what the pad shows, and `roomAbove` how many pixels above the
  // text are covered. `onRestStep` ends a step of undo. `onNoText` is called where something without a text was to be inserted, and `onRest` when lent lines
  // are drawn again. Where the editor `suggests`, nothing that is typed changes the text: `onSuggest` gets { from, to, text }.
  constructor(root, { author, runs, roomAbove, onType, onRestStep, onUndo, onRedo, onCaret, onDrawn, onNoText, onRest, onSuggest }) {
    Object.assign(this, { root, author, runs, roomAbove, onType, onRestStep, onUndo, onRedo, onCaret, onDrawn, onNoText, onRest, onSuggest });
    this.suggests = false;
    this.lines = new Lines(root);
    this.text = ""; this.marks = []; this.late = []; this.isComposing = false; this.caret = 0;
    this.place = null; this.resting = null; this.leavesTab = false;
    const on = (kind, act) => root.addEventListener(kind, act);
    on("beforeinput", (event) => this.beforeInput(event));
    on("input", () => this.read());
    on("compositionstart", () => { this.isComposing = true; this.lend(); });
    on("compositionend", () => this.endComposition());
    on("keydown", (event) => this.keyDown(event));
    on("copy", (event) => this.copy(event));
    on("cut", (event) => { if (this.copy(event) && this.isEditable) this.replaceSelection(""); });
    on("click", (event) => { if (event.detail >= 3) this.tripleClicked(); });
    on("focus", () => this.focused());
    this.drag = new Drag(this);
    document.addEventListener("selectionchange", () => this.selectionChange());
  }

  get isEditable() { return this.root.isContentEditable; }
  set isEditable(is) {
    if (is === this.isEditable) return;
    this.root.contentEditable = is ? "true" : "false";
    this.root.setAttribute("aria-readonly", String(!is));
  }

  get drawn() { return { text: this.text, runs: this.runs(), marks: this.marks }; }

  // Another text.
  show(text) {
    Object.assign(this, { text, marks: [], late: [], caret: 0, place: null, isComposing: false });
    this.lines.show(text, this.runs(), []);
    this.onDrawn();
  }

  setMarks(marks) {
    if (this.isWaiting) return;
    const selected = this.lines.lent ? null : this.selection(), had = spot();
    this.marks = marks.map((mark) => ({ ...mark }));
    this.lines.setMarks(this.marks);
    if (selected) this.select(selected.anchor, selected.focus, had);
    this.onDrawn();
  }

  // ---- what the author does

  beforeInput(event) {
    const { inputType } = event;
    if (inputType === "historyUndo" || inputType === "historyRedo") {
      event.preventDefault();
      if (inputType === "historyUndo") this.onUndo(); else this.onRedo();
      return;
    }
    if (event.isComposing) this.isComposing = true; // also after a rest, if the browser goes on without saying so
    if (this.isComposing || isComposing(event)) { this.lend(event); return; }
    event.preventDefault();
    this.endComposition();
    const text = insertedBy(event);
    if (text === null) return;
    if (!text && !isDeleting(event)) { this.onNoText(); return; }
    const { from, to } = this.target(event);
    if (event.inputType === "insertParagraph" && !this.suggests && this.edit(() => enter(this.text, from, to))) return;
    if (text === " " && !this.suggests && this.edit(() => once(this.text, from, to))) return;
    if (from < to || text) this.replace(from, to, text);
  }

  // What an event changes. A browser may name nothing where a deletion joins two lines.
  target(event) {
    const { from, to } = this.named(event) ?? this.selection();
    if (from !== to || !isDeleting(event)) return { from, to };
    if (/Backward$/.test(event.inputType) && this.text[from - 1] === "\n") return { from: from - 1, to };
    if (/Forward$/.test(event.inputType) && this.text[to] === "\n") return { from, to: to + 1 };
    return { from, to };
  }

  // The stretch that an event names, or null.
  named(event) {
    const [range] = event.getTargetRanges();
    return range ? this.stretchOf(range.startContainer, range.startOffset, range.endContainer, range.endOffset) : null;
  }

  replace(from, to, text) {
    if (this.suggests) { this.onSuggest({ from, to, text }); return; }
    this.draw(this.make(splice(from, to - from, text, this.author())));
    this.select(from + text.length);
    this.reveal();
  }

  // Makes the changes [at, dropped, inserted] that `make` answers for the text and the selection, if it answers some.
  edit(make) {
    this.endComposition();
    const selected = this.selection(), made = selected && make(this.text, selected.from, selected.to);
    if (!made || this.suggests) return false;
    this.put(made.changes);
    this.select(made.from, made.to);
    this.reveal();
    return true;
  }

  // Changes that leave the caret with its words, as one step of undo.
  put(changes) {
    const selected = this.selection(), given = [];
    let done = 0;
    for (const [at, dropped, insert] of changes) {
      add(given, { keep: at - done });
      add(given, { drop: dropped });
      add(given, { insert, author: this.author() });
      done = at + dropped;
    }
    this.onRestStep();
    const delta = this.make(given);
    this.onRestStep();
    this.draw(delta);
    if (selected) this.select(move(selected.anchor, delta), move(selected.focus, delta));
  }

  replaceSelection(text) {
    this.endComposition();
    const { from, to } = this.selection();
    this.replace(from, to, text);
  }

  // Words go to another place of the text, as the author's own.
  moveWords({ from, to }, at) {
    if (this.suggests || (at >= from && at <= to)) return;
    const words = this.text.slice(from, to), goal = at < from ? at : at - words.length;
    this.draw(this.make(compose(splice(from, words.length, "", this.author()), splice(goal, 0, words, this.author()))));
    this.select(goal, goal + words.length);
    this.reveal();
  }

  // The author's delta over what is drawn, for the pad. Answers what was made of it.
  make(given) {
    const delta = snapped(given, this.text);
    if (isEmpty(delta)) return delta;
    const [mine, late] = transform(delta, this.late);
    this.late = late;
    this.text = apply(this.text, delta);
    this.moveMarks(delta);
    this.onType(mine);
    return delta;
  }

  // A step of undo, which the pad has made already.
  made(delta) {
    const { from, after } = extent(delta);
    this.text = apply(this.text, delta);
    this.moveMarks(delta);
    this.draw(delta);
    this.select(delta.some((step) => step.insert) ? after : from);
    this.reveal();
  }

  keyDown(event) {
    if (event.key === "Tab") this.tab(event);
    else if (event.key !== "Shift") this.leavesTab = event.key === "Escape";
    if (!(event.ctrlKey || event.metaKey) || event.altKey || !this.isEditable) return;
    const letter = letterOf(event), isRedo = letter === "y" || (letter === "z" && event.shiftKey);
    if (letter !== "z" && !isRedo) return;
    event.preventDefault();
    if (isRedo) this.onRedo(); else this.onUndo();
  }

  // Tab moves items of a list. Behind Escape, and elsewhere, it goes on to what is next on the page.
  tab(event) {
    const isHeld = event.ctrlKey || event.metaKey || event.altKey || event.isComposing;
    if (isHeld || this.leavesTab || !this.isEditable || this.suggests) return;
    if (this.edit((text, from, to) => tab(text, from, to, event.shiftKey))) event.preventDefault();
  }

  copy(event) {
    const selected = this.selection();
    if (!selected || selected.from === selected.to) return false;
    event.preventDefault();
    event.clipboardData.setData("text/plain", this.text.slice(selected.from, selected.to));
    return true;
  }

  // A browser selects a line with the break behind it, and what is typed then would join it to the next line.
  tripleClicked() {
    const { from, to } = this.selection() ?? {};
    if (from < to && this.text[to - 1] === "\n") this.select(from, to - 1);
  }

  // ---- input methods

  // Lends the lines to the browser that it is about to write into: those of the selection, and those that the event names.
  lend(event = null) {
    const places = [this.selection(), event && this.named(event)].filter(Boolean), more = event && isDeleting(event) ? 1 : 0;
    if (!places.length) return;
    const from = Math.min(...places.map((place) => place.from)) - more, to = Math.max(...places.map((place) => place.to)) + more;
    this.lines.lend(Math.max(0, from), Math.min(this.text.length, to));
    this.rest();
  }

  // What the browser has written into the lines that are lent, or into those of the caret if it had said nothing before.
  read() {
    if (!this.lines.lent) this.lend();
    if (!this.lines.lent) return;
    const now = this.lines.readLent(), { from, to } = this.lines.lentStretch, before = this.text.slice(from, to);
    if (now !== before) {
      const caret = this.writtenCaret() ?? from + now.length, delta = typed(before, now, caret - from, this.author());
      if (this.suggests) { this.suggestWritten(delta, from); return; }
      const behind = this.text.length - to;
      this.make(delta.reduce(add, add([], { keep: from })));
      this.lines.wrote(this.text.length - behind - from, this.drawn);
      this.onDrawn();
    }
    if (!this.isComposing) this.takeBack();
  }

  // What an input method has written is suggested, and the lines are drawn again as they were.
  suggestWritten(delta, from) {
    const { keep = 0 } = delta[0] ?? {}, { drop = 0 } = delta.find((step) => step.drop) ?? {}, { insert = "" } = delta.find((step) => step.insert) ?? {};
    this.isComposing = false;
    this.takeBack();
    this.onSuggest({ from: from + keep, to: from + keep + drop, text: insert });
  }

  writtenCaret() {
    const { focusNode, focusOffset } = getSelection();
    return this.root.contains(focusNode) ? this.lines.unitOf(focusNode, focusOffset) : null;
  }

  endComposition() {
    this.isComposing = false;
    if (this.lines.lent) this.read();
  }

  // The lent lines are drawn again, with what others did in them meanwhile.
  takeBack() {
    const caret = this.writtenCaret(), { late } = this;
    clearTimeout(this.resting);
    this.late = [];
    this.text = apply(this.text, late);
    this.moveMarks(late);
    this.draw(late);
    if (caret !== null) this.select(move(caret, late));
    this.onRest();
  }

  // ---- what others do

  // Whether something of others' is not drawn yet, since an input method writes there.
  get isWaiting() { return !isEmpty(this.late); }

  receive(delta) {
    const { lent } = this.lines;
    if (lent && (this.isWaiting || touches(delta, this.lines.lentStretch))) {
      this.late = compose(this.late, delta);
      this.rest();
      return;
    }
    const selected = lent ? null : this.selection(), had = spot();
    this.text = apply(this.text, delta);
    this.moveMarks(delta);
    this.draw(delta);
    if (selected) this.select(move(selected.anchor, delta), move(selected.focus, delta), had);
  }

  // An input method that rests is ended once others wait for it. On phones each word is composed, also one that is left
  // as it is.
  rest() {
    clearTimeout(this.resting);
    if (this.isWaiting) this.resting = setTimeout(() => this.endComposition(), REST);
  }

  moveMarks(delta) {
    for (const mark of [...this.marks, this.drag.dragged].filter(Boolean)) {
      mark.from = move(mark.from, delta, true);
      mark.to = Math.max(mark.from, move(mark.to, delta));
    }
  }

  // If the browser itself has changed the blocks, all of them are made again.
  draw(delta) {
    if (!this.lines.isWhole) this.lines.show(this.text, this.runs(), this.marks);
    else if (this.isComposing) this.lines.change(delta, this.drawn);
    else this.lines.takeBack(delta, this.drawn);
    this.onDrawn();
  }

  // ---- the selection, in units

  // Where the selection is, or null if it is elsewhere. While something else has the keyboard, it is where it was. A window in
  // the background tells of no focus, so a place that was remembered is forgotten here as well.
  selection() {
    const { anchorNode, anchorOffset, focusNode, focusOffset } = getSelection();
    if (document.activeElement === this.root) this.place = null;
    if (this.place) return this.place;
    if (!anchorNode || !this.root.contains(anchorNode) || !this.root.contains(focusNode)) return null;
    return this.stretchOf(anchorNode, anchorOffset, focusNode, focusOffset);
  }

  // Two places of the document in units: { anchor, focus, from, to }. A place inside a character is at its edge.
  stretchOf(anchorNode, anchorOffset, focusNode, focusOffset) {
    const a = this.lines.unitOf(anchorNode, anchorOffset), b = this.lines.unitOf(focusNode, focusOffset);
    const edge = (one, other) => (one > other ? edgeAfter : edgeBefore)(this.text, one);
    return stretch(edge(a, b), edge(b, a));
  }

  // To select words in a document takes the keyboard from a button or a field, which the author may be about to use. So it
  // is done only if the text has the keyboard, and otherwise when the text gets it. Nor is it done where the words still
  // stand that had the selection before: `had`. (Chromium says of a selection whose words are gone that it is in those that
  // came in their place, and forgets so when the line above is drawn. So what it says now is not looked at.)
  select(anchor, focus = anchor, had = null) {
    if (document.activeElement !== this.root) { this.place = stretch(anchor, focus); return; }
    this.place = null;
    const a = this.lines.pointOf(anchor), b = this.lines.pointOf(focus);
    const isAnchored = had?.anchorNode === a.node && had.anchorOffset === a.offset;
    if (isAnchored && had.focusNode === b.node && had.focusOffset === b.offset) return;
    this.lines.groups.keepNear(b.node); // before anything is scrolled there
    getSelection().setBaseAndExtent(a.node, a.offset, b.node, b.offset);
  }

  focused() {
    const { place } = this;
    this.place = null;
    if (place) this.select(place.anchor, place.focus);
  }

  selectionChange() {
    if (document.activeElement !== this.root) return;
    this.lines.groups.keepNear(getSelection().focusNode);
    if (this.isWaiting) return;
    const selected = this.selection();
    if (!selected || selected.focus === this.caret) return;
    this.caret = selected.focus;
    this.onCaret(selected.focus);
  }

  // Scrolls so that the caret can be seen, below the bar.
  reveal() {
    const selected = this.selection();
    if (!selected) return;
    const { top, bottom } = this.lines.rectAt(selected.focus), above = this.roomAbove(), below = innerHeight - 60;
    if (top < above) scrollBy(0, top - above);
    else if (bottom > below) scrollBy(0, bottom - below);
  }
}

// Where the document has the selection.
function spot() {
  const { anchorNode, anchorOffset, focusNode, focusOffset } = getSelection();
  return { anchorNode, anchorOffset, focusNode, focusOffset };
}

function stretch(anchor, focus) { return { anchor, focus, from: Math.min(anchor, focus), to: Math.max(anchor, focus) }; }

// Whether a delta changes something in the lines of a stretch, or joins another line to them.
function touches(delta, { from, to }) {
  let at = 0;
  return delta.some((step) => {
    const start = at;
    at += step.keep ?? step.drop ?? 0;
    return !step.keep && start <= to && at >= from;
  });
}
