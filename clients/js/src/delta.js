// Changes of a text. A delta is a list of steps over a text, from its start: { keep: n } keeps n units, { drop: n } drops
// n, and { insert: text, author } inserts. Units are JavaScript's (UTF-16); units.js turns them into the server's
// characters. What is left at the end is kept. A drop and an insertion beside it stay in their order: it says on which
// side of the dropped characters the insertion stands.
//
// A delta that the page sends changes whole characters: `snapped` sees to it, and everything else keeps it so.
import { edgeAfter, edgeBefore, hasPairs, isInside, wellFormed } from "./units.js";

const size = (step) => step.keep ?? step.drop ?? step.insert.length;
const isInsertion = (step) => step.insert !== undefined;

export const isEmpty = (delta) => delta.length === 0;

// Adds a step at the end, joined with the last one if both do the same.
export function add(delta, step) {
  if (size(step) === 0) return delta;
  const last = delta[delta.length - 1];
  if (last?.keep && step.keep) last.keep += step.keep;
  else if (last?.drop && step.drop) last.drop += step.drop;
  else if (last?.insert && step.insert && last.author === step.author) last.insert += step.insert;
  else delta.push({ ...step });
  return delta;
}

export function trim(delta) {
  while (delta.length && delta[delta.length - 1].keep) delta.pop();
  return delta;
}

// One change: after `at` units, `dropped` units go and a text comes.
export function splice(at, dropped, insert, author) {
  const delta = add(add([], { keep: at }), { drop: dropped });
  return trim(add(delta, { insert, author }));
}

export function apply(text, delta) {
  const out = [];
  let at = 0;
  for (const step of delta) {
    if (isInsertion(step)) { out.push(step.insert); continue; }
    if (step.keep) out.push(text.slice(at, at + step.keep));
    at += size(step);
  }
  out.push(text.slice(at));
  return out.join("");
}

// The same for author runs, [[author, units], ..].
export function applyRuns(runs, delta) {
  const out = [];
  const put = (author, units) => {
    const last = out[out.length - 1];
    if (last && last[0] === author) last[1] += units;
    else if (units) out.push([author, units]);
  };
  let run = 0, used = 0;
  const pass = (units, kept) => {
    while (units > 0 && run < runs.length) {
      const [author, length] = runs[run], step = Math.min(units, length - used);
      if (kept) put(author, step);
      units -= step;
      used += step;
      if (used === length) { run++; used = 0; }
    }
  };
  for (const step of delta) {
    if (isInsertion(step)) put(step.author, step.insert.length);
    else pass(size(step), step.keep !== undefined);
  }
  pass(Infinity, true);
  return out;
}

// Reads a delta in pieces. Behind its end it keeps everything.
class Reader {
  constructor(delta) { this.delta = delta; this.at = 0; this.used = 0; }
  get step() { return this.delta[this.at]; }
  get ended() { return this.at >= this.delta.length; }
  get inserts() { return !this.ended && isInsertion(this.step); }
  get drops() { return !this.ended && this.step.drop !== undefined; }
  get left() { return this.ended ? Infinity : size(this.step) - this.used; }
  takeInsertion() { return this.delta[this.at++]; }
  pass(units) {
    if (this.ended) return;
    this.used += units;
    if (this.used === size(this.step)) { this.at++; this.used = 0; }
  }
}

// Two deltas over one text: mine over what theirs leads to, and theirs over what mine leads to. If both insert at one
// place, mine comes first. That is the server's rule for an insertion at an older revision: it goes directly after the
// character before it, and before everything that was inserted there since.
export function transform(mine, theirs) {
  const left = new Reader(mine), right = new Reader(theirs), mineAfter = [], theirsAfter = [];
  while (!left.ended || !right.ended) {
    if (left.inserts) {
      const step = left.takeInsertion();
      add(mineAfter, step);
      add(theirsAfter, { keep: step.insert.length });
      continue;
    }
    if (right.inserts) {
      const step = right.takeInsertion();
      add(theirsAfter, step);
      add(mineAfter, { keep: step.insert.length });
      continue;
    }
    const units = Math.min(left.left, right.left);
    if (!right.drops) add(mineAfter, left.drops ? { drop: units } : { keep: units });
    if (!left.drops) add(theirsAfter, right.drops ? { drop: units } : { keep: units });
    left.pass(units);
    right.pass(units);
  }
  return [trim(mineAfter), trim(theirsAfter)];
}

// First one delta, then another over what it leads to.
export function compose(first, second) {
  const out = [], reader = new Reader(second);
  const put = (step) => {
    for (let from = 0; from < size(step);) {
      if (reader.inserts) { add(out, reader.takeInsertion()); continue; }
      const units = Math.min(size(step) - from, reader.left);
      if (step.keep) add(out, reader.drops ? { drop: units } : { keep: units });
      else if (!reader.drops) add(out, { insert: step.insert.slice(from, from + units), author: step.author });
      reader.pass(units);
      from += units;
    }
  };
  for (const step of first) {
    if (step.drop) add(out, step);
    else put(step);
  }
  while (!reader.ended) {
    if (reader.inserts) { add(out, reader.takeInsertion()); continue; }
    const units = reader.left;
    add(out, reader.drops ? { drop: units } : { keep: units });
    reader.pass(units);
  }
  return trim(out);
}

// What undoes a delta over a text with these author runs. What it dropped comes back with its authors.
export function restoring(delta, text, runs) {
  const out = [];
  let at = 0, run = 0, end = runs.length ? runs[0][1] : 0;
  for (const step of delta) {
    if (isInsertion(step)) { add(out, { drop: step.insert.length }); continue; }
    const to = at + size(step);
    if (step.keep) { add(out, step); at = to; continue; }
    while (at < to) {
      while (end <= at && run + 1 < runs.length) end += runs[++run][1];
      const stop = end > at ? Math.min(to, end) : to;
      add(out, { insert: text.slice(at, stop), author: runs[run]?.[0] });
      at = stop;
    }
  }
  return trim(out);
}

// The same, where what was dropped comes back as this author's words.
export const invert = (delta, text, author) => restoring(delta, text, [[author, text.length]]);

// A delta in which one author inserts everything.
export function authored(delta, author) {
  const out = [];
  for (const step of delta) add(out, isInsertion(step) ? { ...step, author } : step);
  return out;
}

// A delta over a text of whole characters, as one that leaves no half of a character: what drops a half drops the whole
// character, what inserts inside of a character inserts before it, and a half that is inserted becomes U+FFFD.
export function snapped(delta, text) {
  const isWhole = !hasPairs(text) && delta.every((step) => !isInsertion(step) || wellFormed(step.insert) === step.insert);
  if (isWhole) return delta;
  const out = [];
  let at = 0, done = 0;
  const keepUntil = (place) => {
    add(out, { keep: Math.max(0, place - done) });
    done = Math.max(done, place);
  };
  for (const step of delta) {
    if (step.keep) { at += step.keep; continue; }
    keepUntil(edgeBefore(text, at));
    if (isInsertion(step)) { add(out, { insert: wellFormed(step.insert), author: step.author }); continue; }
    at += step.drop;
    const end = Math.max(done, edgeAfter(text, at));
    add(out, { drop: end - done });
    done = end;
  }
  return trim(out);
}

// Where a position is after a delta. What is inserted at the position comes behind it, or before it with `after`.
export function move(position, delta, after = false) {
  let at = 0, to = 0;
  for (const step of delta) {
    if (isInsertion(step)) {
      if (at === position && !after) return to;
      to += step.insert.length;
      continue;
    }
    const units = Math.min(size(step), position - at);
    at += units;
    if (step.keep) to += units;
    if (units < size(step)) return to;
  }
  return to + (position - at);
}

// Moves a stretch { from, to }: what is inserted at one of its ends is outside of it.
export function moveStretch(stretch, delta) {
  stretch.from = move(stretch.from, delta, true);
  stretch.to = Math.max(stretch.from, move(stretch.to, delta));
}

// The stretch that a delta changes: from `from` on, the text up to `before` became that up to `after`.
export function extent(delta) {
  let at = 0, to = 0, from = null, before = 0, after = 0;
  for (const step of delta) {
    if (step.keep) { at += step.keep; to += step.keep; continue; }
    from ??= to;
    if (step.drop) at += step.drop;
    else to += step.insert.length;
    before = at;
    after = to;
  }
  return { from: from ?? 0, before, after };
}

// The first part of a delta over a text, of so many insertions and drops and so many units in them, and the rest over what
// it leads to. It cuts between characters. `mostUnits` is at least 2, a character's.
export function split(delta, text, mostParts, mostUnits) {
  const first = [], rest = [];
  let parts = 0, units = 0, at = 0, isFull = false;
  for (const step of delta) {
    if (isFull) { add(rest, step); continue; }
    if (step.keep) { add(first, step); add(rest, step); at += step.keep; continue; }
    const words = step.insert ?? text.slice(at, at + step.drop), most = Math.min(size(step), mostUnits - units);
    const taken = parts < mostParts ? edgeBefore(words, most) : 0;
    parts++;
    units += taken;
    isFull = taken < size(step);
    if (step.drop) {
      add(first, { drop: taken });
      add(rest, { drop: step.drop - taken });
      at += step.drop;
    } else {
      add(first, { insert: words.slice(0, taken), author: step.author });
      add(rest, { keep: taken });
      add(rest, { insert: words.slice(taken), author: step.author });
    }
  }
  return [trim(first), trim(rest)];
}

// The one change that leads from a text to another, as typing makes it. `end` is where the caret is in the new text: it
// says which of several equal letters was typed. No character is split.
export function typed(before, now, end, author) {
  const most = Math.min(before.length, now.length), tail = now.length - end;
  const same = (back) => before[before.length - 1 - back] === now[now.length - 1 - back];
  let back = 0;
  while (back < most && back < tail && same(back)) back++;
  let front = 0;
  while (front < most - back && before[front] === now[front]) front++;
  while (back < most - front && same(back)) back++;
  if (isInside(now, front) || isInside(before, front)) front--;
  if (back > 0 && (isInside(now, now.length - back) || isInside(before, before.length - back))) back--;
  return splice(front, before.length - front - back, now.slice(front, now.length - back), author);
}
