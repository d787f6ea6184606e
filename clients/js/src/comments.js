// The comments of the pad, and where their words are in what this page shows.
import { moveStretch } from "./delta.js";
import { unit } from "./units.js";

export const idOf = (name) => `comment-${name.join("-")}`;

// The comments of an answer, placed in the text of that revision.
export function placed(comments, text) {
  return comments.map(({ name, author, at, len, text: words, resolved }) => {
    const from = unit(text, at);
    return { id: idOf(name), name, author, text: words, isResolved: resolved, from, to: unit(text, len, from) };
  });
}

// The same, placed in what the page shows. The page has held that revision lately.
export function placedNow(comments, pad, rev) {
  return placed(comments, pad.baseAt(rev)).map((comment) => {
    const from = pad.carried(comment.from, rev, true);
    return { ...comment, from, to: Math.max(from, pad.carried(comment.to, rev)) };
  });
}

export class Comments {
  // `unsent` are those that the server does not have yet.
  constructor(pad, unsent, onChange) {
    Object.assign(this, { pad, unsent, onChange, list: [], rev: 0, isStale: false });
    this.asked = null; // the stretch that the author is about to comment on
  }

  // All that are shown.
  get all() { return [...this.list, ...this.unsent.list]; }

  // Asks for the comments of the revision that the page has. They are moved by what came meanwhile.
  async read() {
    const { pad } = this, { rev } = pad;
    this.isStale = false;
    const reply = await pad.call({ do: "comments", rev });
    if (pad.baseAt(rev) === null) { this.isStale = true; return; }
    Object.assign(this, { list: placedNow(reply.comments, pad, rev), rev });
    this.onChange();
  }

  // Where text came beside erased characters, only the server knows whether it is within a comment.
  async readMoved() { if (this.list.length && this.rev < this.pad.rev) await this.read(); }

  // A comment was made that had not been sent.
  made({ author, text, from, to }, name) {
    const id = idOf(name);
    if (!this.list.some((one) => one.id === id)) this.list.push({ id, name, author, text, isResolved: false, from, to });
    this.onChange();
  }

  move(delta) {
    for (const comment of this.all) moveStretch(comment, delta);
    if (this.asked) moveStretch(this.asked, delta);
  }
}
