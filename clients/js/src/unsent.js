// Comments that the server does not have yet. Each moves with its words, and is sent once these are: one after the other,
// again after a broken connection, and only if it was not made.
import { clock as realClock, pause } from "./clock.js";
import { moveStretch } from "./delta.js";
import { Refused } from "./errors.js";
import { LIMITS } from "./limits.js";
import { whenGone } from "./resume.js";
import { count, edgeAfter, edgeBefore, movedBy } from "./units.js";

const LOOK = 50, LAST_TRY = 10000;
// Nothing is selected: what the server would say of a comment whose words are gone.
const EMPTY = { ok: false, code: 322, error: "Empty" };

// What was refused while a comment was looked for is tried again later.
function onlyRefused(error) {
  if (!(error instanceof Refused)) throw error;
  return false;
}

// Whether two stretches are the same words. Where erased words stood is not known for sure.
const areSame = (one, other) => one.from === one.to || other.from === other.to || (one.from < other.to && other.from < one.to);

export class UnsentComments {
  // `onMade` gets a comment that was made, with its name. `onRefused` gets the reply to one that was not taken, with its text,
  // and tells whether it is to be tried again.
  constructor(pad, { onMade, onRefused, clock = realClock }) {
    Object.assign(this, { pad, onMade, onRefused, clock, list: [], number: 0, turn: 0 });
  }

  // Resolves to the comment once it is made, and fails with the reply if it is refused. `sent` tells when another page has
  // sent it, if it has.
  add(from, to, text, sent = null) {
    const id = `unsent-${++this.number}`, author = this.pad.me;
    const comment = { id, author, text, from, to, isResolved: false, isUnsent: true, sent };
    const made = new Promise((done, failed) => { Object.assign(comment, { done, failed }); });
    made.catch(() => {}); // `onRefused` has told it
    this.list.push(comment);
    this.pad.keep();
    this.wake?.();
    return made;
  }

  // What is shown has changed.
  move(delta) { for (const comment of this.list) moveStretch(comment, delta); }

  // Gives up all: their texts, for the author to keep.
  giveUp() { return this.list.splice(0).map(({ text }) => text); }

  stop() {
    this.turn++;
    this.wake?.();
  }

  // Sends what there is and what comes, until `stop` or a lost connection.
  async run() {
    const turn = ++this.turn, { pad } = this;
    for (let wait = 1000; this.turn === turn; ) {
      const [comment] = this.list;
      pad.hurry(Boolean(comment));
      if (!comment) await new Promise((done) => { this.wake = done; });
      else if (pad.isUnsent) await pause(LOOK, this.clock);
      else if (await this.send(comment, turn).catch(onlyRefused)) wait = 1000;
      else {
        await pause(wait, this.clock);
        wait = Math.min(2 * wait, LAST_TRY);
      }
    }
  }

  // Sends a comment, if it was not made already. Resolves to whether there is no reason to pause.
  async send(comment, turn) {
    const { pad } = this;
    if (comment.sent && (await this.wasMade(comment, turn))) return true;
    if (pad.isUnsent) return true;
    if (comment.from >= comment.to) return this.refuse(comment, new Refused(EMPTY));
    const { base, rev } = pad, from = edgeBefore(base, comment.from), to = edgeAfter(base, comment.to);
    const place = { at: count(base, 0, from), len: count(base, from, to) };
    comment.sent = { rev, visit: pad.visit, ...place };
    await pad.kept();
    if (this.turn !== turn) return true;
    try {
      this.made(comment, (await pad.call({ do: "comment", rev, ...place, text: comment.text })).name);
      return true;
    } catch (error) {
      if (!(error instanceof Refused)) throw error;
      comment.sent = null;
      return this.refuse(comment, error);
    }
  }

  // The answer to a comment was lost. Once nothing more can come of the connection, the comment is among those of this
  // author since, with this text and on these words, or it was not made.
  async wasMade(comment, turn) {
    const { pad } = this, found = await whenGone(pad, comment.sent.visit, () => this.find(comment, turn), () => this.turn === turn);
    if (this.turn !== turn) return true;
    if (found) this.made(comment, found.name);
    else comment.sent = null;
    return Boolean(found);
  }

  // It is on the words for which it was sent at the revision that it made, which may be fewer by then.
  async find({ text, sent }, turn) {
    const { pad } = this;
    for (const { name, rev } of await this.madeSince(sent.rev)) {
      const { comments } = await pad.call({ do: "comments", rev }), made = comments.find((one) => one.name.join() === name.join());
      if (made?.text !== text) continue;
      const { changes } = await pad.call({ do: "changes", rev: sent.rev, to: rev }), from = movedBy(changes, sent.at, true);
      if (this.turn !== turn) return null;
      const to = Math.max(from, movedBy(changes, sent.at + sent.len));
      if (areSame({ from, to }, { from: made.at, to: made.at + made.len })) return made;
    }
    return null;
  }

  // The comments that this author has made after a revision: { name, rev }.
  async madeSince(rev) {
    const { pad } = this, made = [];
    for (let from = rev + 1, { now } = pad; from <= now; from += LIMITS.entries) {
      const reply = await pad.call({ do: "entries", from, count: LIMITS.entries });
      made.push(...reply.entries.filter(({ kind, author }) => kind === "comment" && pad.names.includes(author)));
      now = reply.now;
    }
    return made;
  }

  made(comment, name) {
    this.remove(comment);
    this.onMade(comment, name);
    comment.done(name);
  }

  refuse(comment, error) {
    if (this.onRefused(error.reply, comment.text)) return false;
    this.remove(comment);
    comment.failed(error);
    return true;
  }

  remove(comment) {
    this.list = this.list.filter((one) => one !== comment);
    this.pad.keep();
  }
}
