// An author's own changes, to be undone and redone. A step can have a tag, which stays with it. Each step is a delta over the text that is shown once all steps above
// it are made, so what others change is carried down through the steps. Words that a step brings back are noted with whose
// they were; they come back as the author's own.
import { compose, extent, isEmpty, restoring, transform } from "./delta.js";

const MOST_STEPS = 500, BURST = 1000;

export class Undo {
  constructor(author, clock) {
    this.author = author;
    this.clock = clock;
    this.undos = [];
    this.redos = [];
    this.typedAt = -Infinity;
    this.caret = null;
  }

  // The author changed this text with its author runs. What is typed on at once, without a new line, is one step.
  typed(delta, text, runs = this.own(text), tag = null) {
    const back = restoring(delta, text, runs), { from, before, after } = extent(delta);
    const now = this.clock.now(), goesOn = now - this.typedAt < BURST && (from === this.caret || before === this.caret);
    const startsLine = delta.some((step) => step.insert?.includes("\n"));
    if (goesOn && !startsLine && this.undos.length) this.undos.push(compose(back, this.undos.pop()));
    else this.push(this.undos, tagged(back, tag));
    this.redos = [];
    this.typedAt = now;
    this.caret = startsLine ? null : after;
  }

  // What is typed next is another step, though it follows at once.
  rest() { this.caret = null; }

  push(steps, delta) {
    steps.push(delta);
    if (steps.length > MOST_STEPS) steps.shift();
  }

  own(text) { return [[this.author, text.length]]; }

  // The delta over this text that takes back the last change, or null; the change itself can then be made again.
  step(text, runs, from, to) {
    this.caret = null;
    while (from.length) {
      const delta = from.pop();
      if (isEmpty(delta)) continue;
      this.push(to, tagged(restoring(delta, text, runs), delta.tag));
      return delta;
    }
    return null;
  }

  // Whose words the next step would bring back.
  owners(isRedo) {
    const next = (isRedo ? this.redos : this.undos).findLast((delta) => !isEmpty(delta)) ?? [];
    return [...new Set(next.filter((step) => step.insert).map((step) => step.author))];
  }
  get canUndo() { return this.undos.some((delta) => !isEmpty(delta)); }
  get canRedo() { return this.redos.some((delta) => !isEmpty(delta)); }
  undo(text, runs = this.own(text)) { return this.step(text, runs, this.undos, this.redos); }
  redo(text, runs = this.own(text)) { return this.step(text, runs, this.redos, this.undos); }

  // Others changed the text.
  received(delta) {
    this.caret = null;
    this.undos = carried(this.undos, delta);
    this.redos = carried(this.redos, delta);
  }
}

const tagged = (delta, tag) => (tag ? Object.assign(delta, { tag }) : delta);

function carried(steps, delta) {
  const out = new Array(steps.length);
  let theirs = delta;
  for (let at = steps.length - 1; at >= 0; at--) {
    [out[at], theirs] = transform(steps[at], theirs);
    tagged(out[at], steps[at].tag);
  }
  return out;
}
