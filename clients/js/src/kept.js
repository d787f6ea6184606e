// Words of the author that were not taken. They are kept, each once, until the author has copied or dismissed them.
import { move } from "./delta.js";

export class KeptWords {
  constructor(onChange = () => {}) {
    this.onChange = onChange;
    Object.assign(this, { pieces: [], isCopied: false });
  }

  // Words that stood at a place of what is shown. If the last ones stood there, too, these go on with them.
  add(words, at = null) {
    const last = this.pieces[this.pieces.length - 1];
    if (last && at !== null && last.at === at) last.words += words;
    else if (words.trim() || at !== null) this.pieces.push({ at, words });
    this.isCopied &&= !words.trim();
    this.onChange();
  }

  // Words that an earlier page had kept.
  addMissing(list) { for (const words of list) if (!this.pieces.some((piece) => piece.words === words)) this.add(words); }

  // Another text is shown, in which they have no place.
  leave() { for (const piece of this.pieces) piece.at = null; }

  // What is shown has changed.
  move(delta) {
    for (const piece of this.pieces) if (piece.at !== null) piece.at = move(piece.at, delta);
  }

  // The words of those that would be lost now.
  get waiting() { return this.areWaiting ? this.pieces.map(({ words }) => words) : []; }

  get text() { return this.pieces.map(({ words }) => words).filter((words) => words.trim()).join("\n"); }

  // Whether they would be lost now.
  get areWaiting() { return !this.isCopied && this.text !== ""; }
  copied() {
    this.isCopied = true;
    this.onChange();
  }
  clear() {
    Object.assign(this, { pieces: [], isCopied: false });
    this.onChange();
  }
}
