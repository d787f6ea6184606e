// What is not sent of a pad is kept in a store as it is typed, so that another page can go on with it when this one is gone:
// a note with the changes over a revision (`Pad.draft`), comments, and words that were not taken. The text of an earlier
// revision is kept beside it, and the note has what has changed since, so that a letter typed into a large pad writes little.
//
// A store has, each with a promise:
//
//     put(note, text)    writes a note, and the text { rev, base, runs } if it is given: both or none, and what is put first
//                        before what is put then. Fails with Taken if another page has taken the note.
//     take(name, pad)    the notes of this author's pad with something unsent that belong to no page any more, each with its
//                        `text`, the last one last. They belong to this page then.
//     open(id)           one note with its text, which belongs to this page then; null if another page has it
//     release(id)        the note belongs to no page any more
//     drop(id)           removes a note
//
// and `newId()`. What is put may be read later, and is never changed.
import { clock as realClock, pause } from "./clock.js";
import { apply, applyRuns, compose, isEmpty } from "./delta.js";
import { NOT_JOINED, PASSING } from "./connection.js";
import { Lost, LostRevisions, Misfit, PadClosed, Refused, Taken } from "./errors.js";
import { Pad } from "./sync.js";
import { UnsentComments } from "./unsent.js";

const TEXT_EVERY = 5000, MOST_STEPS = 200, MOST_WRITES = 4, LOOK = 50, AGAIN = 5000;

// Nothing is kept.
const NOTHING = async () => {};
const NOWHERE = { newId: () => "", put: NOTHING, take: async () => [], open: async () => null, release: NOTHING, drop: NOTHING };

// What is kept of one pad. `more` answers what there is beside the pad: { name, right, comments, kept }.
export class Draft {
  constructor({ store, clock = realClock, more, onTaken = () => {} }, note = null) {
    Object.assign(this, { store, clock, more, onTaken, pad: null, id: note?.id ?? store.newId() });
    // The revision whose text is kept, if any is, and what has changed since.
    Object.assign(this, { over: note?.over ?? null, since: note?.since ?? [], isTextDue: false, isOver: false, isKept: null });
    Object.assign(this, { writes: [], next: null, timer: null });
  }

  // Writes what there is as it is now. Resolves once that has ended. Of what changes at once only the last is written, and so it
  // is while some writes are under way.
  keep() {
    this.next ??= this.write();
    return this.next;
  }

  async write() {
    await (this.writes.length < MOST_WRITES ? null : this.writes[0]);
    this.next = null;
    const write = this.put();
    this.writes.push(write);
    await write;
    this.writes = this.writes.filter((one) => one !== write);
  }

  async put() {
    const { pad } = this;
    if (this.isOver || !pad) return;
    const isTextDue = this.over === null || this.since.length > MOST_STEPS || (this.isTextDue && !isEmpty(this.since));
    const text = isTextDue ? { rev: pad.rev, base: pad.base, runs: pad.baseRuns } : null;
    if (text) Object.assign(this, { over: pad.rev, since: [], isTextDue: false });
    const { id, over, since } = this, more = this.more(), isUnsent = pad.isUnsent || more.comments.length > 0 || more.kept.length > 0;
    try {
      await this.store.put({ id, pad: pad.name, over, since, ...pad.draft, ...more, isUnsent }, text);
      this.isKept = true;
    } catch (error) {
      this.isKept = false;
      if (text) this.over = null;
      if (!(error instanceof Taken) || this.isOver) return;
      this.stop();
      this.onTaken(error);
    }
  }

  // The text of the pad's revision has changed.
  moved(delta) {
    this.since = compose(this.since, delta);
    this.timer ??= this.clock.after(TEXT_EVERY, () => {
      Object.assign(this, { timer: null, isTextDue: true });
      this.keep();
    });
  }

  // The pad is left: the last text stays, to be shown without a connection.
  async end() {
    this.isTextDue = true;
    await this.keep();
    await this.release();
  }

  async release() {
    this.stop();
    await Promise.all(this.writes);
    await this.store.release(this.id).catch(() => {});
  }

  // What is not sent is given up.
  async drop() {
    this.stop();
    await Promise.all(this.writes);
    await this.store.drop(this.id).catch(() => {});
  }

  stop() {
    this.isOver = true;
    this.clock.cancel(this.timer);
  }
}

// A pad goes on with a note.
export function adopt(pad, { text, since, me, names, rev, mark, flight, pending, visit, sentIn, madeAt, lastMade = null }) {
  const draft = { me, names, rev, mark, flight, pending, visit, sentIn, madeAt, lastMade };
  pad.adopt(apply(text.base, since), applyRuns(text.runs, since), draft);
}

// The words of a note, to be copied.
export function wordsOf({ flight, pending, comments, kept }) {
  const inserted = compose(flight ?? [], pending).map((step) => step.insert ?? "");
  return [...inserted, ...comments.map(({ text }) => text), ...kept].filter((words) => words.trim());
}

// The drafts of a session's pads.
export class Drafts {
  constructor(session, store) {
    Object.assign(this, { session, store: store ?? NOWHERE, draft: null, others: [], refused: [], turn: 0 });
  }

  // The notes of a pad that belong to no page, or to this one from before. A store that fails has none.
  async take(pad) {
    const notes = await this.store.take(this.session.name, pad).catch(() => []);
    const used = [this.draft, ...this.others.map(({ draft }) => draft)].map((draft) => draft?.id);
    return notes.filter(({ id }) => !used.includes(id));
  }
  // Notes that were taken for a pad that is not opened after all.
  async release(notes) { for (const { id } of notes) await this.store.release(id).catch(() => {}); }

  // The words of what is not sent of a pad that cannot be opened. It is kept until the author has dismissed them.
  async wordsOf(pad) {
    this.refused = await this.take(pad);
    return this.refused.flatMap(wordsOf);
  }
  async dropRefused() { for (const { id } of this.refused.splice(0)) await this.store.drop(id).catch(() => {}); }

  // A pad is open, which goes on with a note, if there is one. The other notes of it are sent later.
  follow(pad, note = null, others = []) {
    const { session } = this, { clock } = session;
    const more = () => ({
      name: session.name, right: session.right, kept: session.kept.waiting,
      comments: session.comments.unsent.list.map(({ from, to, text, sent }) => ({ from, to, text, sent })),
    });
    this.draft = new Draft({ store: this.store, clock, more, onTaken: (error) => session.endWith(error) }, note);
    this.others = [];
    this.addOthers(others);
    this.draft.pad = pad;
    this.draft.keep();
  }

  addOthers(notes) { this.others.push(...notes.map((one) => new Other(this, one))); }

  keep() { return this.draft?.keep(); }
  moved(delta) { this.draft?.moved(delta); }
  // Whether what is typed outlives this page: not known before the first write.
  get areKept() { return this.draft?.isKept === true && this.store !== NOWHERE; }

  // Shows a pad as it was kept, before a log-in, for the author whose it is. Resolves to the pad, or to null if another page has
  // it. What is typed is sent once this author has logged in again.
  async openKept(id) {
    const { session } = this, note = await this.store.open(id).catch(() => null);
    if (!note) return null;
    if (session.login) session.logOut(); // what is kept is sent by nobody but its author
    Object.assign(session, { me: note.me, isLost: true });
    const pad = session.padOf(note.pad, note.visit);
    adopt(pad, note);
    session.follow(pad, note);
    return pad;
  }

  async logInAgain(token) {
    const { session } = this, { pad } = session;
    await session.logIn(session.isGuest ? null : session.name, token);
    const { wire } = session;
    try {
      this.addOthers(await this.take(pad.name));
      if (wire === session.wire) await session.rejoin(pad); // over another connection, that is done where it was made
    } catch (error) {
      if (error instanceof Lost) return; // it is tried again
      if (error instanceof PadClosed) { session.shut(); return; } // so is this, now and then
      session.hangUp();
      session.isLost = true;
      throw error;
    } finally { session.onState(); }
  }

  // The pad is left. Where `isLost`, what is not sent is given up.
  async leave(isLost = false) {
    const { draft, others } = this;
    Object.assign(this, { draft: null, others: [] });
    if (isLost) await draft?.drop(); else await draft?.end();
    for (const other of others) await other.draft.release();
  }

  // Sends what other pages had not sent of the pad, one note after the other, each from a pad of its own that nobody sees.
  async sendOthers(pad) {
    const turn = ++this.turn, goesOn = () => turn === this.turn;
    while (this.others.length && goesOn()) {
      const [other] = this.others, words = await other.send(pad.visit, goesOn);
      if (!goesOn()) return;
      if (!words) { await pause(AGAIN, this.session.clock); continue; } // the server has no room just now
      this.others.shift();
      for (const lost of words) this.session.kept.add(lost);
      if (words.length) this.session.tell("returned");
      await other.draft.drop();
    }
  }

  // The connection is lost, or the pad is left.
  stop() { this.turn++; }
}

// A note that is sent beside the pad that is open.
class Other {
  constructor({ session, store }, note) {
    const { ask, clock, pace } = session, said = [];
    const comments = () => this.unsent.list.map(({ from, to, text, sent }) => ({ from, to, text, sent }));
    const more = () => ({ name: session.name, right: note.right, kept: note.kept, comments: comments() });
    Object.assign(this, { session, note, said, draft: new Draft({ store, clock, more }, note) });
    this.pad = new Pad({
      name: note.pad, me: note.me, ask, clock, pace, keep: () => this.draft.keep(),
      onBase: (delta) => this.draft.moved(delta), onShow: (delta) => this.unsent.move(delta),
    });
    this.unsent = new UnsentComments(this.pad, { clock, onMade: () => {}, onRefused: ({ code }, text) => PASSING.includes(code) || !said.push(text) });
    adopt(this.pad, note);
    for (const { from, to, text, sent } of note.comments) this.unsent.add(from, to, text, sent);
    this.draft.pad = this.pad;
  }

  // Resolves to the words that could not be sent; to null if the connection or the visit has ended, the pad was left, or the server
  // has no room for a while, before all was sent.
  async send(visit, goesOn) {
    const { pad, unsent, note, said, session: { me, clock } } = this;
    try {
      await pad.resume(visit, me);
      const runs = [pad.run(), unsent.run()];
      for (const run of runs) run.catch(() => {});
      while ((pad.isUnsent || unsent.list.length) && goesOn()) await Promise.race([pause(LOOK, clock), ...runs]);
      return goesOn() ? [...note.kept, ...said] : null;
    } catch (error) {
      if ([NOT_JOINED, ...PASSING].includes(error.reply?.code) || ![Refused, Misfit, LostRevisions].some((kind) => error instanceof kind)) return null;
      return [pad.unsentWords, ...unsent.giveUp(), ...note.kept, ...said].filter((words) => words.trim());
    } finally {
      pad.stop();
      unsent.stop();
    }
  }
}
