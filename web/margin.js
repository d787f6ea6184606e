// The comments beside their words.
import { named } from "./authors.js";
import { cardOf } from "./cards.js";
import { colourOf } from "./colours.js";
import { WORDS } from "./words.js";
import { $, say } from "./page.js";

// A page with thousands of cards is slow. So it has those that are nearest to what is on the screen, until the author wants all.
const MOST_CARDS = 300, GAP = 10;

export class Margin {
  constructor(root) {
    this.root = root;
    this.forget();
    $("all-comments").addEventListener("click", () => { this.most = Infinity; this.again(); });
  }

  // Draws the cards of threads over a text. Where nothing differs they stay, so that a pressed button is not lost. `deeds` are what
  // may be done (cards.js), and `seen` answers which unit of the text is on the screen.
  draw(threads, text, deeds, seen) {
    this.again = () => this.draw(threads, text, deeds, seen);
    const shown = this.nearest([...threads].sort((a, b) => a.from - b.from), seen);
    const key = ({ id, author, text: words, isResolved, from, to, replies = [] }) => // an unsent one has another id
      [id, author, named(author), colourOf(author), words, isResolved, text.slice(from, to), replies.map(key)];
    const keys = JSON.stringify([Object.keys(deeds), shown.map(key)]);
    if (keys === this.keys) return;
    this.keys = keys;
    const active = document.activeElement?.closest?.(".card")?.id;
    this.cards = new Map(shown.map((thread) => [thread.id, cardOf(thread, text, deeds)]));
    this.root.replaceChildren(...this.cards.values());
    if (active) document.getElementById(active)?.focus();
  }

  // Of comments in the order of the text, as many as are drawn: around the card that has the keyboard, or around a unit.
  nearest(comments, seen) {
    this.isCut = comments.length > this.most;
    $("fewer").hidden = !this.isCut;
    if (!this.isCut) return comments;
    say($("some-comments"), WORDS.someComments(this.most, comments.length));
    say($("all-comments"), WORDS.allComments(comments.length));
    const held = document.activeElement?.closest?.(".card")?.id, focused = comments.findIndex(({ id }) => id === held);
    const unit = focused < 0 ? seen() : 0, next = focused < 0 ? comments.findIndex(({ from }) => from >= unit) : focused;
    const middle = next < 0 ? comments.length : next, first = Math.max(0, Math.min(middle - this.most / 2, comments.length - this.most));
    return comments.slice(first, first + this.most);
  }

  // Forgets the cards: those of another pad have the same ids.
  forget() {
    this.cards = new Map();
    this.keys = "";
    this.isCut = false;
    this.most = MOST_CARDS;
    this.root.replaceChildren();
  }

  // Puts each card beside its words, or below the card before it. Narrow pages list them under the text.
  place(comments, rectAt) {
    const home = this.root.getBoundingClientRect(), isListed = getComputedStyle(this.root).position === "static";
    const wanted = isListed ? [] : comments.filter(({ id }) => this.cards.has(id)).sort((a, b) => a.from - b.from)
      .map(({ id, from }) => ({ card: this.cards.get(id), top: rectAt(from).top - home.top }));
    const heights = wanted.map(({ card }) => card.offsetHeight);
    let free = 0;
    wanted.forEach(({ card, top }, k) => {
      const at = `${Math.round(Math.max(free, top))}px`;
      if (card.style.top !== at) card.style.top = at;
      free = parseInt(at, 10) + heights[k] + GAP;
    });
    const height = isListed ? "" : `${free}px`;
    if (this.root.style.minHeight !== height) this.root.style.minHeight = height;
  }

  light(id) {
    for (const [other, card] of this.cards) card.classList.toggle("is-lit", other === id);
  }
}

