// Comments that address an author by @NAME, and that this browser has not shown to that author yet.
import { addressed } from "../clients/js/src/threads.js";
import { SEEN, storage } from "./storage.js";

export class Mentions {
  constructor(session) { this.session = session; }

  get key() { return `${SEEN}@${this.session.name} ${this.session.pad.name}`; }

  get seen() {
    try { return JSON.parse(storage().getItem(this.key)) ?? []; } catch { return []; }
  }

  // Those of others that are open and new.
  get news() {
    const { comments, name, me } = this.session, { seen } = this;
    return comments.list.filter(({ id, author, text, isResolved }) => !isResolved && author !== me && addressed(text).includes(name) && !seen.includes(id));
  }

  note(comments) {
    try { storage().setItem(this.key, JSON.stringify([...this.seen, ...comments.map(({ id }) => id)])); } catch { /* it is told again */ }
  }
}
