// Below the text: who wrote how much of it, and who wrote the words at the caret.
import { authorNow, hint, named } from "./authors.js";
import { colourOf } from "./colours.js";
import { $, element, say } from "./page.js";
import { WORDS } from "./words.js";

// How long a caret stays before it is said whose words are there.
const CARET_RESTS = 600;

export class Legend {
  constructor() { Object.assign(this, { key: null, resting: null }); }

  // What was drawn of another pad can look the same by its key.
  forget() { this.key = null; clearTimeout(this.resting); say($("writer"), ""); }

  draw({ text, runs }) {
    const sizes = new Map(), whole = text.length;
    for (const [author, units] of runs) sizes.set(authorNow(author), (sizes.get(authorNow(author)) ?? 0) + units);
    const list = [...sizes].sort((a, b) => b[1] - a[1]).map(([author, units]) => [author, colourOf(author), Math.round((100 * units) / whole)]);
    const key = JSON.stringify(list.map(([author, ...rest]) => [named(author), ...rest]));
    if (key === this.key) return;
    this.key = key;
    $("authors").replaceChildren(...list.map(([author, className, percent]) =>
      element("li", { className, textContent: WORDS.share(named(author), percent), title: hint(author) })));
    if (!list.length) $("authors").append(element("li", { className: "quiet", textContent: WORDS.emptyPad }));
  }

  // Colour alone does not say to everybody who wrote the words at the caret. It is said where the caret rests.
  sayWriter(runs, at) {
    let end = 0;
    clearTimeout(this.resting);
    const found = runs.find(([, units]) => (end += units) >= at);
    if (found) this.resting = setTimeout(() => say($("writer"), WORDS.atCaret(named(found[0]))), CARET_RESTS);
  }
}
