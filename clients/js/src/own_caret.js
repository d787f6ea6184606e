// Where the author's caret is, and telling others of it: at most once a second, and once what is typed before it is sent.
import { move } from "./delta.js";
import { count, edgeBefore } from "./units.js";

const EVERY = 1000;

export class OwnCaret {
  constructor(session) { Object.assign(this, { session, at: null, isNew: false, time: -Infinity, timer: null }); }

  // Another text is shown: the caret is nowhere yet.
  forget() { Object.assign(this, { at: null, isNew: true }); }

  moveTo(at) {
    this.at = at;
    this.isNew = true;
    this.send();
  }

  // What is shown has changed.
  move(delta) { if (this.at !== null) this.at = move(this.at, delta); }

  send() {
    const { session } = this, { clock, pad } = session, left = this.time + EVERY - clock.now();
    if (!pad || !this.isNew || this.at === null || !session.presence.others.length) return;
    if (session.isLost || pad.isUnsent) return;
    if (left > 0) {
      this.timer ??= clock.after(left, () => { this.timer = null; this.send(); });
      return;
    }
    this.isNew = false;
    this.time = clock.now();
    const at = edgeBefore(pad.base, Math.min(this.at, pad.base.length));
    pad.call({ do: "caret", rev: pad.rev, at: count(pad.base, 0, at) }).catch(() => {});
  }
}
