// How the text is seen: as it is written, as minutes, or as both beside each other; and its headings, to jump by.
import { Menu } from "./menu.js";
import { startOfLine } from "./minutes/places.js";
import { MinutesView } from "./minutes/view.js";
import { drawOutline, headingsOf } from "./outline.js";
import { $, gather } from "./page.js";
import { storage } from "./storage.js";
import { WORDS } from "./words.js";

const MODES = ["text", "both", "minutes"], KEY = "view";

export class Views {
  constructor(desk) {
    Object.assign(this, { desk, mode: "text", leader: "text" });
    this.minutes = new MinutesView($("minutes"), {
      source: () => this.source,
      onTick: (at, is) => desk.editor.put([[at, 1, is ? "x" : " "]]),
      onMade: () => { this.made?.(); desk.place(); this.follow(); },
      onFailed: () => { this.made?.(); desk.notice.show(WORDS.noMinutes); },
    });
    this.outline = new Menu("outline", "outline-menu", () => this.drawOutline());
    for (const mode of MODES) $(`view-${mode}`).addEventListener("click", () => this.setMode(mode));
    const kept = storage().getItem(KEY);
    this.begin = MODES.includes(kept) ? kept : "text";
    this.listen();
  }

  // The text and the minutes scroll together, led by the one that the author is at.
  listen() {
    const lead = (id, mode) => {
      for (const kind of ["pointerenter", "focusin", "touchstart", "wheel"]) $(id).addEventListener(kind, () => { this.leader = mode; }, { passive: true });
    };
    lead("paper", "text");
    lead("minutes", "minutes");
    const follow = gather(() => this.follow());
    addEventListener("scroll", () => { if (this.leader === "text") follow(); });
    $("minutes").addEventListener("scroll", () => { if (this.leader === "minutes") follow(); });
  }

  // What is seen: a revision of the history, or the present. A comparison is seen as a text.
  get source() {
    const { past, session } = this.desk;
    return { text: past.shown?.text ?? session.pad?.text ?? "", isPresent: !past.shown };
  }

  start() {
    this.minutes.forget();
    this.setMode(this.begin);
  }

  next() { this.setMode(MODES[(MODES.indexOf(this.mode) + 1) % MODES.length]); }

  setMode(mode) {
    const line = this.desk.isOpen ? this.topLine() : 0;
    Object.assign(this, { mode, begin: mode });
    try { storage().setItem(KEY, mode); } catch { /* it is forgotten */ }
    for (const one of MODES) $(`view-${one}`).setAttribute("aria-pressed", String(one === mode));
    $("desk").dataset.view = mode;
    this.show();
    if (this.desk.isOpen) this.scrollTo(line);
  }

  // Shows what there is to be seen, also when another revision is.
  show() {
    const { past } = this.desk, isCompared = past.compared !== null, mode = isCompared ? "text" : this.mode;
    $("minutes").hidden = mode === "text";
    $("paper").hidden = mode === "minutes";
    this.minutes.setEditable(this.desk.editor.isEditable && !past.shown);
    this.minutes.want(mode !== "text");
    this.desk.place();
  }

  // What is shown has changed.
  changed(delta) { this.minutes.changed(delta); }
  other() {
    this.minutes.changed();
    this.show();
  }

  // Resolves when minutes of the text as it is now are there, to be printed.
  async ready() {
    const { minutes } = this, made = new Promise((done) => { this.made = done; });
    minutes.want(true);
    while (minutes.isStale || minutes.isBusy) await Promise.race([made, new Promise((done) => { setTimeout(done, 50); })]);
    this.made = null;
    minutes.want(this.mode !== "text");
  }

  // ---- scrolling

  get barBottom() { return Math.max(0, $("bar").getBoundingClientRect().bottom) + 10; }

  // The line at the top of what is seen.
  topLine() { return this.mode === "minutes" ? this.minutes.lineAt(this.barBottom) : this.desk.lines.indexAt(this.barBottom); }

  scrollTo(line) {
    if (!line) return;
    const top = this.mode === "minutes" ? this.minutes.topOf(line) : this.desk.lines.boxOf(Math.floor(line)).top;
    scrollBy(0, top - this.barBottom);
  }

  follow() {
    const { minutes, desk } = this, pane = $("minutes");
    if (this.mode !== "both" || !desk.isOpen || !minutes.blocks.length) return;
    const edge = pane.getBoundingClientRect().top + 10;
    if (this.leader === "text") {
      const index = desk.lines.indexAt(this.barBottom), { top, height } = desk.lines.boxOf(index);
      pane.scrollTop += minutes.topOf(index + Math.max(0, this.barBottom - top) / (height || 1)) - edge;
    } else scrollBy(0, desk.lines.boxOf(Math.floor(minutes.lineAt(edge))).top - this.barBottom);
  }

  // ---- the outline

  drawOutline() {
    const headings = headingsOf(this.source.text);
    $("no-headings").hidden = headings.length > 0;
    drawOutline($("headings"), headings, (line) => this.go(line));
  }

  go(line) {
    const { desk } = this;
    this.outline.show(false);
    if (this.mode === "minutes") { this.minutes.focus(line); return; }
    this.leader = "text";
    const root = desk.past.shown ? $("past") : $("text");
    root.focus({ preventScroll: true });
    if (!desk.past.shown) desk.editor.select(startOfLine(this.source.text, line));
    scrollBy(0, desk.lines.boxOf(line).top - this.barBottom - 10);
  }
}
