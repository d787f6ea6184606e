// What others write is told to who does not see it, but not each letter: every few seconds at most, with who wrote.
import { named } from "./authors.js";
import { $, say } from "./page.js";
import { WORDS } from "./words.js";

const EVERY = 6000;

export class Told {
  constructor() { this.forget(); }

  forget() {
    clearTimeout(this.timer);
    Object.assign(this, { authors: new Set(), timer: null });
  }

  // Others have changed the text.
  received(delta, me) {
    for (const { insert, author } of delta) if (insert && author !== me) this.authors.add(author);
    if (!this.authors.size) return;
    this.timer ??= setTimeout(() => {
      say($("news"), WORDS.wrote([...this.authors].map(named).join(", ")));
      this.forget();
    }, EVERY);
  }
}
