// Who wrote a character, when, and in which revision: on a card beside it, once the pointer rests there. Whoever has no pointer asks
// by a key, the menu or a tap, and then it is said as well.
import { fullName, hint, named } from "./authors.js";
import { authorAt, characterAt, characterOf, comparedPlace, isAt, rectOf, select, selectedIn, sentPlace } from "./characters.js";
import { colourOf } from "./colours.js";
import { moveStretch } from "../clients/js/src/delta.js";
import { $, element, say } from "./page.js";
import { timeOf } from "./times.js";
import { WORDS } from "./words.js";

const RESTS = 400, GAP = 6, EDGE = 8, BELOW = 60, MARK = "who-wrote";
const WAYS = { ArrowLeft: -1, ArrowRight: 1 };
const frame = () => new Promise((done) => { requestAnimationFrame(done); });

export class WhoWrote {
  // `character` is the stretch that is asked for or shown. `isPointed` says that it is by the pointer.
  constructor(desk) {
    Object.assign(this, { desk, card: $("who-card"), turn: 0, resting: null, character: null, isPointed: false, x: -1, y: -1 });
    for (const id of ["text", "past"]) {
      $(id).addEventListener("keydown", (event) => this.keyDown(event));
      $(id).addEventListener("click", (event) => this.tapped(event));
    }
    addEventListener("pointermove", (event) => this.pointed(event), { passive: true });
    addEventListener("blur", ({ target }) => { if (target === window) this.hide(); });
    // Before others hear of them: a key can ask again.
    for (const kind of ["keydown", "pointerdown", "resize"]) addEventListener(kind, () => this.hide(), { capture: true, passive: true });
    document.addEventListener("scroll", ({ target }) => { if (target === document) this.hide(); }, { passive: true });
  }

  // The lines that are shown, or null while they are not those of the pad.
  get lines() {
    const { lines, past, session: { pad }, isShowing } = this.desk;
    return isShowing && (past.shown || (!lines.lent && lines.text === pad.text)) ? lines : null;
  }

  // A text that is only read has no caret.
  get isRead() { return Boolean(this.desk.past.shown) || !this.desk.editor.isEditable; }

  // ---- by the pointer

  // A browser says also that the pointer has moved where the text has moved below it.
  pointed({ clientX: x, clientY: y, pointerType, buttons, target }) {
    if (pointerType === "touch" || (x === this.x && y === this.y)) return;
    Object.assign(this, { x, y });
    if (this.isPointed) {
      if (this.card.contains(target) || this.isAtPointer) return;
      this.hide();
    }
    clearTimeout(this.resting);
    if (!buttons && target.closest?.(".words")) this.resting = setTimeout(() => this.rest(), RESTS);
  }

  get isAtPointer() {
    const rect = this.lines && this.character && rectOf(this.lines, this.character);
    return Boolean(rect) && isAt(rect, this.x, this.y);
  }

  rest() {
    const { lines } = this, found = lines && characterAt(lines, this.x, this.y);
    if (found) this.tell(found, true);
  }

  tapped({ pointerType, clientX, clientY }) {
    const { lines } = this;
    if (pointerType !== "touch" || !lines || !this.isRead || !getSelection().isCollapsed) return;
    const found = characterAt(lines, clientX, clientY);
    if (found) this.tell(found);
  }

  // ---- by keys and the menu

  // Tells of the first character that is selected, or of the one before the caret.
  async ask() {
    const { desk } = this;
    if (desk.isShowing && desk.views.mode === "minutes") desk.views.setMode("text");
    desk.editor.endComposition();
    const { lines } = this;
    if (!lines) return;
    const { from, to } = this.selection(lines) ?? { from: lines.unitAt(desk.views.barBottom), to: Infinity };
    say($("news"), lines.text ? "" : WORDS.emptyPad);
    if (lines.text) await this.go(characterOf(lines.text, Math.min(from < to ? from : Math.max(0, from - 1), lines.text.length - 1)));
  }

  selection(lines) { return this.desk.past.shown ? selectedIn(lines) : this.desk.editor.selection(); }

  // Where there is no caret, the arrows go from character to character.
  keyDown(event) {
    const by = WAYS[event.key], { lines } = this;
    if (!by || !lines || !this.isRead || event.shiftKey || event.ctrlKey || event.altKey || event.metaKey) return;
    const selected = selectedIn(lines), { from, to } = selected ?? { from: lines.unitAt(this.desk.views.barBottom) };
    const unit = by > 0 ? (selected && from < to ? to : from) : from - 1;
    event.preventDefault();
    if (unit < 0 || unit >= lines.text.length) return;
    const character = characterOf(lines.text, unit);
    select(lines, character);
    this.go(character, RESTS);
  }

  // Scrolls to a character, and tells of it once that is done.
  async go(character, rests = 0) {
    const { lines } = this, { top, bottom } = rectOf(lines, character) ?? lines.rectAt(character.from);
    const above = this.desk.views.barBottom, below = innerHeight - BELOW;
    if (top < above) scrollBy(0, top - above);
    else if (bottom > below) scrollBy(0, bottom - below);
    await frame(); // in which it is told that the page was scrolled
    if (this.lines !== lines) return;
    clearTimeout(this.resting);
    if (rests) this.resting = setTimeout(() => { if (this.lines === lines) this.tell(character); }, rests);
    else await this.tell(character);
  }

  // ---- what is told

  // Asks the server who wrote a character. An older one does not tell, nor does any without a connection: then it is only said whose
  // it is, which the page knows.
  async tell(character, isPointed = false) {
    this.hide();
    const { turn, desk } = this, { history } = desk.past, { author, place } = this.source(character.from);
    Object.assign(this, { character, isPointed });
    const birth = place && (await history.birth(place.rev, place.at).catch(() => null)), who = birth?.author ?? author;
    await desk.displays.ask([who]);
    if (turn !== this.turn || !this.lines) return;
    const parts = birth ? [timeOf(birth.time), WORDS.inRevision(birth.rev)] : place ? [] : [WORDS.notSent];
    this.show(who, parts);
    if (!isPointed) say($("news"), [fullName(who), ...parts].join(", "));
  }

  // Whose a unit is by the runs that are shown, and where the server has it: { rev, at }, or null if it does not have it yet.
  source(unit) {
    const { past: { shown, compared }, session: { pad } } = this.desk, author = authorAt((compared ?? shown ?? pad).runs, unit);
    if (compared) return { author, place: comparedPlace(compared, unit) };
    if (shown) return { author, place: { rev: shown.rev, at: unit } };
    const at = sentPlace(pad, unit);
    return { author, place: at === null ? null : { rev: pad.rev, at } };
  }

  show(who, parts) {
    const { card } = this;
    card.className = colourOf(who);
    card.replaceChildren(element("b", { textContent: named(who), title: hint(who) }), ...parts.map((part) => ` · ${part}`));
    card.hidden = false;
    this.place();
  }

  hide() {
    this.turn++;
    clearTimeout(this.resting);
    Object.assign(this, { character: null, isPointed: false });
    if (this.card.hidden) return;
    this.card.hidden = true;
    globalThis.CSS?.highlights?.delete(MARK);
  }

  // The text of the pad has changed.
  changed(delta) {
    if (!this.character || this.desk.past.shown) return;
    moveStretch(this.character, delta);
    if (this.character.from === this.character.to) this.hide();
  }

  // Puts the card above its character, or below where there is no room. It goes when the text has moved away below the pointer.
  place() {
    const { card, character, lines } = this;
    if (card.hidden) return;
    if (!lines || (this.isPointed && !this.isAtPointer && !card.matches(":hover"))) { this.hide(); return; }
    const rect = rectOf(lines, character) ?? lines.rectAt(character.from), { width, height } = card.getBoundingClientRect();
    const top = rect.top - height - GAP, left = Math.min(rect.left - EDGE, document.documentElement.clientWidth - width - EDGE);
    card.style.top = `${Math.round(top > this.desk.views.barBottom ? top : rect.bottom + GAP)}px`;
    card.style.left = `${Math.round(Math.max(EDGE, left))}px`;
    this.mark(lines, character);
  }

  // Marks the character, without a change of the document.
  mark(lines, { from, to }) {
    if (!globalThis.CSS?.highlights) return;
    const range = document.createRange(), start = lines.pointOf(from), end = lines.pointOf(to);
    range.setStart(start.node, start.offset);
    range.setEnd(end.node, end.offset);
    CSS.highlights.set(MARK, new Highlight(range));
  }
}
