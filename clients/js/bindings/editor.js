// What a binding of an editor needs, whatever the editor is: its text and the pad's, kept equal.
//
// Editors end each line with LF. A pad may have CR LF or CR there, from another client. The editor shows LF, and its places
// are turned into those of the pad.
import { add, apply, compose, isEmpty, move, transform, typed } from "../src/delta.js";

const hasReturns = (text) => text.includes("\r");
const asShown = (text) => (hasReturns(text) ? text.replace(/\r\n?/g, "\n") : text);

// The unit of a text that a place of the editor is, and the reverse.
function unitOf(text, place) {
  if (!hasReturns(text)) return place;
  let at = 0;
  for (let left = place; left > 0; left--) at += text.startsWith("\r\n", at) ? 2 : 1;
  return at;
}
const placeOf = (text, unit) => (hasReturns(text) ? asShown(text.slice(0, unit)).length : unit);

// An author's delta over what an editor shows of a text, as one over the text.
function inUnits(shown, text, author) {
  const out = [];
  let place = 0, at = 0;
  for (const { keep = 0, drop = 0, insert } of shown) {
    if (insert) { add(out, { insert, author }); continue; }
    place += keep + drop;
    const to = unitOf(text, place);
    add(out, keep ? { keep: to - at } : { drop: to - at });
    at = to;
  }
  return out;
}

export class Binding {
  // `draw` changes what the editor shows by a delta over it, and `setEditable` is told whether the author may type.
  constructor(session, { draw, setEditable }) {
    const { pad } = session, here = (act) => (...given) => { if (session.pad === pad) act(...given); };
    Object.assign(this, { session, pad, draw, setEditable, text: pad.text, waiting: null, isTyping: false });
    this.ends = [
      session.on("change", here((delta) => { if (!this.isTyping) this.take(delta); })),
      session.on("reread", here(() => this.redraw())),
      session.on("rights", here(() => this.allow())), session.on("over", () => this.allow()),
    ];
    this.allow();
  }

  end() { for (const end of this.ends.splice(0)) end(); }
  allow() { this.setEditable(this.session.mayWrite && !this.session.isOver); }

  // What the editor has to show.
  get shown() { return asShown(this.text); }

  // ---- what others do

  take(delta) {
    if (this.waiting) this.waiting = compose(this.waiting, delta);
    else this.become(apply(this.text, delta), delta);
  }

  redraw() {
    if (this.waiting) this.waiting = [];
    this.become(this.pad.text);
  }

  // The editor's text is another one. Without a delta, it is one change.
  become(text, delta = null) {
    const before = this.text, isSame = delta && !hasReturns(before) && !hasReturns(text);
    this.text = text;
    const change = isSame ? delta : typed(asShown(before), this.shown, this.shown.length);
    if (!isEmpty(change)) this.draw(change);
  }

  // An input method composes, and nothing may be drawn. What others do waits until `release`.
  hold() { this.waiting ??= []; }
  release() {
    const { waiting } = this;
    this.waiting = null;
    if (waiting) this.take(waiting);
  }

  // ---- what the author does

  // What the editor shows has become another text by a delta.
  typed(shown) {
    const change = inUnits(shown, this.text, this.session.me), { waiting } = this, [mine, theirs] = transform(change, waiting ?? []);
    this.text = apply(this.text, change);
    if (waiting) this.waiting = theirs;
    this.isTyping = true;
    try { this.pad.type(mine); } finally { this.isTyping = false; }
    if (!this.waiting && this.text !== this.pad.text) this.redraw(); // half a character was typed
  }

  caretAt(place) { this.session.moveCaret(move(unitOf(this.text, place), this.waiting ?? [])); }
  // Where a unit of the pad is in the editor, as long as nothing waits.
  placeOf(unit) { return placeOf(this.text, unit); }
}
