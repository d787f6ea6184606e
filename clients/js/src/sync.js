// One pad as a page edits it, without any display.
//
// `base` is the text of revision `rev`, as the server has it. `flight` is the one edit that was sent and is not answered, a
// delta over base. `pending` is what was typed since, a delta over base and flight. `text` is what the page shows: base,
// then flight, then pending.
//
// The answer to an edit says that it is revision n. Others made the revisions between. The page asks for their changes, C,
// and transforms flight over C; where both insert at one place, flight's text comes first. Why the result is the server's
// text at n, character by character: the server puts an insertion of an older revision directly after the character that
// stood before it, and before all that came there since. In C that character is kept or dropped, and everything that came
// after it stands behind it. The transform puts flight's text right there, before C's next insertion.
//
// While an edit is in flight, base does not move. If it did, and another author erased the character before flight's text,
// the place would be known only by a neighbour, and a later insertion could land on its wrong side. So what a wait brings
// meanwhile is held back, and used only if it ends exactly at revision n - 1.
//
// Everything in `pending` is typed under one name, `me`, which may be another one after a reconnection.
import { apply, applyRuns, authored, compose, isEmpty, move, restoring, snapped, splice, split, transform, typed } from "./delta.js";
import { clock as realClock, pause } from "./clock.js";
import { Lost, Refused, refused } from "./errors.js";
import { LIMITS } from "./limits.js";
import { entryOf, resume } from "./resume.js";
import { Undo } from "./undo.js";
import { deltaOf, partsOf } from "./units.js";

export const PACE = { gather: 500, rest: 100, wait: 25 };
const NOTHING = () => {};
// How long an edit waits at most until it is kept.
const PATIENCE = 3000;
const TRAIL = 8, UNMARKED = { rev: 0, name: [], author: "" };

export class Pad {
  // `ask` sends a request and resolves to its reply. `me` is the author as others see it, `name@origin`. `onReceive` gets
  // others' changes over what is shown, `onShow` these and the author's own, and `onMove` is told when `rev` has moved.
  // `onBase` gets each change of `base`. `keep` is called when what is not sent has changed, and an edit goes only when what
  // it answers is done: an edit of which no other page could know would be made twice if this page ended.
  // An edit goes at most each `gather` milliseconds, and changes are asked for at most each `rest` milliseconds.
  constructor({ name, me, ask, clock = realClock, onReceive = NOTHING, onShow = NOTHING, onMove = NOTHING, onBase = NOTHING, keep = NOTHING, pace = PACE }) {
    Object.assign(this, { name, me, ask, clock, onReceive, onShow, onMove, onBase, keep, pace });
    this.base = ""; this.baseRuns = []; this.rev = 0; this.now = 0;
    this.flight = null; this.pending = [];
    this.sentIn = 0; this.madeAt = 0; // the visit in which flight was sent, and the revision that it is by its answer
    this.lastMade = null; // the name of the last operation that was answered in the visit
    this.text = ""; this.runs = [];
    this.trail = [];
    this.mark = UNMARKED;
    this.names = [me];
    this.isUnfit = false; // the server has another text than the page
    this.isAdopted = false; // what another page had not sent is here, and the server was not asked about it yet
    this.steps = new Undo(me, clock); // of the author's own changes
    this.turn = 0; this.wake = null; this.sentAt = -Infinity; this.askedAt = -Infinity; this.isHurried = false;
  }

  get isUnsent() { return this.isUnfit || this.flight !== null || !isEmpty(this.pending); }

  async call(request) {
    const reply = await this.ask({ ...request, pad: this.name });
    if (!reply.ok) throw refused(reply);
    this.now = Math.max(this.now, reply.now);
    return reply;
  }

  changes(more) { return this.call({ do: "changes", rev: this.rev, ...more }); }

  // The whole text with its authors, in one answer. Returns words that were shown and are not known to be made.
  async load() {
    const { changes, to } = await this.call({ do: "changes", rev: 0 }), delta = deltaOf(changes, "");
    const words = this.unsentWords;
    this.base = this.text = apply("", delta);
    this.baseRuns = this.runs = applyRuns([], delta);
    this.rev = to;
    Object.assign(this, { flight: null, pending: [], madeAt: 0, trail: [], mark: UNMARKED, isUnfit: false, isAdopted: false });
    this.steps = new Undo(this.me, this.clock);
    this.keep();
    return words;
  }

  // What another page needs, beside `base` and `baseRuns`, to go on where this one ends; and to go on from there. The server
  // has to be asked then what it has of it (`resume`). What was pending is one step of undo.
  get draft() {
    const { me, names, rev, mark, flight, pending, visit, sentIn, madeAt, lastMade } = this;
    return { me, names, rev, mark, flight, pending, visit, sentIn, madeAt, lastMade };
  }
  adopt(base, baseRuns, draft) {
    const { me, flight, pending } = draft, text = apply(base, flight ?? []), runs = applyRuns(baseRuns, flight ?? []);
    Object.assign(this, draft, { base, baseRuns, trail: [], isUnfit: false, isAdopted: true });
    this.now = this.rev;
    this.text = apply(text, pending);
    this.runs = applyRuns(runs, pending);
    this.steps = new Undo(me, this.clock);
    if (!isEmpty(pending)) this.steps.typed(pending, text, runs);
  }

  // Remembers what made `rev`, by which the page knows after a reconnection whether the server still has its past.
  async readMark() {
    const { rev } = this;
    if (rev <= this.mark.rev) return;
    const { name, author } = await entryOf(this, rev);
    if (rev > this.mark.rev) this.mark = { rev, name, author };
  }

  // The author inserts a text, erases, or both, at places of what is shown, in units.
  insert(at, text) { this.replace(at, 0, text); }
  erase(at, units) { this.replace(at, units, ""); }
  replace(at, units, text) {
    if (!(at >= 0 && units >= 0 && at + units <= this.text.length)) throw new RangeError(`${units} units at ${at} of ${this.text.length}`);
    this.type(splice(at, units, text, this.me));
  }

  // What is shown becomes another text, by one change. `end` is where the caret is in it, which says which of several equal
  // letters was typed.
  setText(text, end = text.length) { this.type(typed(this.text, text, end, this.me)); }

  // The author changed what is shown. A step of undo is not remembered again. Where that was half a character, what is shown
  // is put right.
  type(given, isRemembered = true, tag = null) {
    const whole = snapped(given, this.text), delta = authored(whole, this.me), before = this.text;
    if (isEmpty(delta)) return;
    if (isRemembered) this.steps.typed(delta, before, this.runs, tag);
    this.pending = compose(this.pending, delta);
    this.show(delta);
    this.keep();
    if (whole !== given) this.correct(apply(before, given));
    this.wake?.();
  }

  // The display has drawn another text.
  correct(drawn) { if (drawn !== this.text) this.onReceive(typed(drawn, this.text, this.text.length, this.me)); }

  show(delta) {
    this.text = apply(this.text, delta);
    this.runs = applyRuns(this.runs, delta);
    this.onShow(delta);
  }

  // Other authors whose words the next step would bring back, as the author's own.
  ownersOfStep(isRedo = false) { return this.steps.owners(isRedo).filter((author) => !this.names.includes(author)); }

  // Undoes or redoes the author's last change: the delta over what is shown, or null.
  undo() { return this.step(this.steps.undo(this.text, this.runs)); }
  redo() { return this.step(this.steps.redo(this.text, this.runs)); }
  get canUndo() { return this.steps.canUndo; }
  get canRedo() { return this.steps.canRedo; }
  step(delta) {
    if (delta) this.type(delta, false);
    return delta;
  }

  receive(delta) {
    if (isEmpty(delta)) return;
    this.show(delta);
    this.steps.received(delta);
    this.onReceive(delta);
  }

  // Base moves by a delta to a revision.
  moveBase(delta, rev) {
    this.trail.push({ rev: this.rev, base: this.base, delta });
    if (this.trail.length > TRAIL) this.trail.shift();
    this.base = apply(this.base, delta);
    this.baseRuns = applyRuns(this.baseRuns, delta);
    this.rev = rev;
    this.now = Math.max(this.now, rev);
    this.onBase(delta);
  }

  // Nothing is in flight: others' changes lead from `rev` to another revision.
  advance({ changes, to, notes }) {
    if (to === this.rev) return;
    const theirs = deltaOf(changes, this.base), [pending, shown] = transform(this.pending, theirs), from = this.rev;
    this.moveBase(theirs, to);
    this.pending = pending;
    this.receive(shown);
    this.onMove({ from, to, notes, isOwn: false });
  }

  // The flight is revision n; `theirs` is what others changed from `rev` to n - 1.
  land(theirs, n, notes) {
    const [mine, over] = transform(this.flight, theirs), [pending, shown] = transform(this.pending, over), from = this.rev;
    this.moveBase(compose(theirs, mine), n);
    Object.assign(this, { flight: null, madeAt: 0, pending });
    this.receive(shown);
    this.keep();
    this.onMove({ from, to: n, notes, isOwn: true });
  }

  async landAt(n, held) {
    if (n === this.rev + 1) { this.land([], n, 0); return; }
    const told = held?.to === n - 1 ? held : await this.changes({ to: n - 1 });
    if (this.madeAt === n) this.land(deltaOf(told.changes, this.base), n, told.notes);
  }

  // Sends as much of what is pending as one edit can take, and learns which revision that makes.
  async send() {
    [this.flight, this.pending] = split(this.pending, this.base, LIMITS.parts, LIMITS.edit);
    this.sentIn = this.visit;
    this.sentAt = this.clock.now();
    const parts = partsOf(this.flight, this.base), { rev, turn } = this;
    await this.kept();
    if (this.turn !== turn) throw new Lost("stopped");
    const kind = parts[0].text === undefined ? "delete" : "insert";
    try {
      const { now, name } = await this.call(parts.length === 1 ? { do: kind, rev, ...parts[0] } : { do: "edit", rev, parts });
      this.madeAt = now;
      this.mark = { rev: now, name, author: this.me };
    } catch (error) {
      if (error instanceof Refused) this.unsend();
      throw error;
    }
  }

  // Waits until what is not sent is kept, but not for long.
  async kept() {
    let timer;
    const late = new Promise((done) => { timer = this.clock.after(PATIENCE, done); });
    await Promise.race([this.keep(), late]);
    this.clock.cancel(timer);
  }

  unsend() {
    this.pending = compose(this.flight, this.pending);
    this.flight = null;
    this.keep();
  }

  // Sends what is typed and takes what others do, until `stop` or a lost connection. A refusal is thrown, too.
  async run() {
    const turn = ++this.turn;
    while (this.turn === turn) {
      if (this.madeAt) await this.landAt(this.madeAt);
      else if (this.untilDue() <= 0) await this.send();
      else await this.follow(turn);
    }
  }

  stop() {
    this.turn++;
    this.wake?.();
  }

  // Milliseconds until what is pending should be sent.
  untilDue() {
    if (isEmpty(this.pending)) return Infinity;
    return this.isHurried ? 0 : this.sentAt + this.pace.gather - this.clock.now();
  }

  // Resolves when something is due, or the turn is over.
  due(turn) {
    return new Promise((done) => {
      let timer;
      this.wake = () => {
        this.clock.cancel(timer);
        const left = this.untilDue();
        if (left <= 0 || this.turn !== turn) done(null);
        else if (left < Infinity) timer = this.clock.after(left, this.wake);
      };
      this.wake();
    });
  }

  // Waits for others' changes. When something of the author's is due first, it is sent at the same revision. The server
  // then ends the wait, and what the wait brought is held back until the edit is answered. A refusal of one of the two is
  // thrown when both are answered.
  async follow(turn) {
    const due = this.due(turn), rest = this.askedAt + this.pace.rest - this.clock.now();
    if (rest > 0) await Promise.race([due, pause(rest, this.clock)]);
    if (this.turn !== turn || this.untilDue() <= 0) return;
    this.askedAt = this.clock.now();
    const told = this.changes({ wait: this.pace.wait });
    let first = await Promise.race([told, due]);
    while (!first && this.turn === turn && isEmpty(this.pending)) first = await Promise.race([told, this.due(turn)]);
    if (first || this.turn !== turn) {
      const reply = await told;
      if (this.turn === turn) this.advance(reply);
      return;
    }
    const [held, sent] = await Promise.allSettled([told, this.send()]);
    if (sent.reason ?? held.reason) throw sent.reason ?? held.reason;
    if (this.turn === turn) await this.landAt(this.madeAt, held.value);
  }

  // After a new connection, over which the author has this name: finds out what the server has, and takes what came since.
  // `isMade` tells whether the old visit, which has ended, has made more than was answered, or is null if that is not known.
  resume(visit, me = this.me, isMade = null) { return resume(this, visit, me, isMade); }
  begin(visit) { Object.assign(this, { visit, lastMade: null }); }

  // The server has another number, or the author another name: what is not sent yet will be under that one.
  takeName(me) {
    if (me === this.me) return;
    this.me = me;
    this.names.push(me);
    this.pending = authored(this.pending, me);
    this.runs = applyRuns(this.baseRuns, compose(this.flight ?? [], this.pending));
  }

  // Sends what is pending at once, from now on or no longer.
  hurry(isHurried) {
    this.isHurried = isHurried;
    this.wake?.();
  }

  // What was typed and is not known to be made.
  get unsentWords() {
    const delta = this.madeAt ? this.pending : compose(this.flight ?? [], this.pending);
    return delta.map((step) => step.insert ?? "").filter((text) => text.trim()).join("\n");
  }

  // Takes back what cannot be sent. Returns what it inserted, for the author to keep: words, and where they stood in what is
  // shown now.
  giveUp() {
    const { base, baseRuns, flight, pending } = this, pieces = insertedBy(pending);
    const back = restoring(pending, apply(base, flight ?? []), applyRuns(baseRuns, flight ?? []));
    this.pending = [];
    if (pending.some((step) => step.drop)) this.steps = new Undo(this.me, this.clock); // an undo would bring back once more what comes back here
    this.receive(back);
    this.keep();
    return pieces;
  }

  // Where a unit of base is in what is shown; and where a unit of an earlier revision's base is, if it is still known.
  shown(position, after = false) { return move(move(position, this.flight ?? [], after), this.pending, after); }
  carried(position, rev, after = false) {
    const steps = this.trail.filter((step) => step.rev >= rev);
    return this.shown(steps.reduce((at, { delta }) => move(at, delta, after), position), after);
  }

  // A delta over the text of an earlier revision, as one over what is shown; null if that text is no longer known.
  carriedDelta(delta, rev) {
    if (this.baseAt(rev) === null) return null;
    const steps = this.trail.filter((step) => step.rev >= rev).map((step) => step.delta);
    return [...steps, this.flight ?? [], this.pending].reduce((carried, step) => transform(carried, step)[0], delta);
  }

  // The text of a revision that the page held lately, or null.
  baseAt(rev) { return rev === this.rev ? this.base : this.trail.find((step) => step.rev === rev)?.base ?? null; }
}

// The insertions of a delta: words, and their place in the text without the delta.
function insertedBy(delta) {
  const pieces = [];
  let at = 0;
  for (const step of delta) {
    if (step.insert) pieces.push({ at, words: step.insert });
    else at += step.keep ?? step.drop;
  }
  return pieces;
}
