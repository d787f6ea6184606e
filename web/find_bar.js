// The bar that finds words in the text that is shown, or in an earlier revision, and replaces them. The browser's own find works
// beside it.
import { findAll, indexFrom } from "./finding.js";
import { $, gather, say } from "./page.js";
import { WORDS } from "./words.js";

const SOON = 120, DRAWN = 400;

export class FindBar {
  // `source` answers { text, lines, editor }: what is searched, the lines that show it, and the editor if it may be changed.
  constructor({ source, onOpen, onClose }) {
    Object.assign(this, { source, onOpen, onClose, found: [], index: 0, said: "" });
    this.soon = gather(() => this.search(), (act) => setTimeout(act, SOON));
    const on = (id, act, kind = "click") => $(id).addEventListener(kind, act);
    const again = () => { this.said = ""; this.search(this.place); };
    on("find-words", again, "input");
    on("find-exact", again, "change");
    on("find-next", () => this.go(1));
    on("find-before", () => this.go(-1));
    on("replace", () => this.replace());
    on("replace-all", () => this.replaceAll());
    on("find-close", () => this.open(false));
    on("find-bar", (event) => this.keyDown(event), "keydown");
    on("find-bar", (event) => event.preventDefault(), "submit");
  }

  get isOpen() { return !$("find-bar").hidden; }
  get current() { return this.found[this.index] ?? null; }

  open(is) {
    const wasOpen = this.isOpen, { editor } = this.source();
    $("find-bar").hidden = !is;
    $("find").setAttribute("aria-expanded", String(is));
    if (is) {
      this.onOpen();
      const selected = editor?.selection(), { text } = this.source();
      this.place = selected?.from ?? 0;
      if (selected && selected.from < selected.to && selected.to - selected.from < 200) $("find-words").value = text.slice(selected.from, selected.to);
      $("find-words").focus();
      $("find-words").select();
      this.search(this.place);
    } else if (wasOpen) this.close();
  }

  // Finds these words, at this place of the text.
  show({ words, at }) {
    this.open(true);
    $("find-words").value = words;
    $("find-exact").checked = false;
    this.search(at);
    this.reveal();
  }

  // The words that were found last are selected in the text.
  close() {
    const { current } = this, { editor } = this.source();
    this.found = [];
    this.draw();
    this.onClose();
    if (current && editor) editor.select(current.from, current.to);
  }

  keyDown(event) {
    if (event.key === "Escape") { event.preventDefault(); this.open(false); }
    if (event.key !== "Enter" || event.target.nodeName !== "INPUT" || event.isComposing) return;
    event.preventDefault();
    if (event.target.id === "replace-words") this.replace(); else this.go(event.shiftKey ? -1 : 1);
  }

  // Another text, or a changed one: what is found stays near where it was.
  changed() { if (this.isOpen) this.soon(); }

  search(place = this.current?.from ?? this.place ?? 0) {
    const { text, editor } = this.source();
    this.found = this.isOpen ? findAll(text, $("find-words").value, $("find-exact").checked) : [];
    this.index = indexFrom(this.found, place);
    for (const id of ["replace", "replace-all"]) $(id).disabled = !editor || !this.found.length;
    $("replace-words").disabled = !editor;
    this.tell();
    this.reveal(place === this.current?.from);
  }

  tell() {
    const { length } = this.found, words = $("find-words").value;
    say($("find-count"), this.said || (length ? WORDS.found(this.index + 1, length) : words ? WORDS.notFound : ""));
  }

  go(by) {
    const { length } = this.found;
    if (!length) return;
    this.said = "";
    this.index = (this.index + by + length) % length;
    this.place = this.current.from;
    this.tell();
    this.reveal();
  }

  // Scrolls to what is found now, unless it is seen.
  reveal(isStill = false) {
    const { current } = this, { lines } = this.source();
    if (current && !isStill) this.scrollTo(lines.rectAt(current.from));
    this.draw();
  }

  scrollTo({ top, bottom }) {
    const above = $("bar").getBoundingClientRect().bottom + 40, below = innerHeight - 80;
    if (top < above || bottom > below) scrollBy(0, top - (above + below) / 2);
  }

  // Marks what is found, without a change of the document.
  draw() {
    if (!globalThis.CSS?.highlights) return;
    const { lines } = this.source(), first = Math.max(0, this.index - DRAWN / 2);
    const rangeOf = ({ from, to }) => {
      const range = document.createRange(), start = lines.pointOf(from), end = lines.pointOf(to);
      range.setStart(start.node, start.offset);
      range.setEnd(end.node, end.offset);
      return range;
    };
    const around = this.found.slice(first, first + DRAWN), now = this.current ? [rangeOf(this.current)] : [];
    CSS.highlights.set("found", new Highlight(...around.map(rangeOf)));
    CSS.highlights.set("found-now", new Highlight(...now));
  }

  // ---- replacing

  replace() {
    const had = this.current?.from;
    this.search(); // others may have typed since the last one
    const { current } = this, { editor } = this.source(), words = $("replace-words").value;
    if (!current || !editor || current.from !== had) return;
    editor.put([[current.from, current.to - current.from, words]]);
    this.search(current.from + words.length);
  }

  // All at once, as one step of undo.
  replaceAll() {
    this.search();
    const { editor } = this.source(), { found } = this, words = $("replace-words").value;
    if (!found.length || !editor) return;
    this.said = WORDS.replaced(found.length); // until something else is asked
    editor.put(found.map(({ from, to }) => [from, to - from, words]));
    this.search(0);
  }
}
