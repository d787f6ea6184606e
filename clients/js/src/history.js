// Earlier revisions of a pad: their texts, who made them and when, and what differs between two of them.
import { apply, applyRuns, invert } from "./delta.js";
import { LIMITS } from "./limits.js";
import { count, deltaOf, edgeBefore } from "./units.js";

const MOST_KEPT = 40, NEAR = 400, NOT_REQUEST = 102;

export class History {
  // Of a pad that is open.
  constructor(pad) { Object.assign(this, { pad, texts: new Map(), entries: new Map(), times: new Map(), lastBirth: null }); }

  // The text and the author runs of a revision.
  async at(rev) {
    let known = this.texts.get(rev);
    if (!known) {
      const earlier = [...this.texts.values()].filter((one) => one.rev < rev && one.rev > rev - NEAR);
      const near = earlier.sort((a, b) => b.rev - a.rev)[0];
      const from = near ?? { rev: 0, text: "", runs: [] };
      const { changes } = await this.pad.call({ do: "changes", rev: from.rev, to: rev }), delta = deltaOf(changes, from.text);
      known = { rev, text: apply(from.text, delta), runs: applyRuns(from.runs, delta) };
    }
    this.texts.delete(rev);
    this.texts.set(rev, known);
    if (this.texts.size > MOST_KEPT) this.texts.delete(this.texts.keys().next().value);
    return known;
  }

  // Who made a revision, and how: { author, kind }, or null for revision 0. A server of today tells the time in the same answer; an
  // older one does not look at `times`.
  async entry(rev) {
    if (rev === 0) return null;
    if (!this.entries.has(rev)) {
      const { entries } = await this.pad.call({ do: "entries", from: firstAround(rev), count: LIMITS.entries, times: true });
      for (const entry of entries) {
        this.entries.set(entry.rev, entry);
        if (entry.at !== undefined) this.times.set(entry.rev, entry.at);
      }
    }
    return this.entries.get(rev) ?? null;
  }

  // When the server heard of a revision, in milliseconds since 1970, or null for revision 0, and where the server does not tell.
  async time(rev) {
    if (!(await this.entry(rev))) return null;
    if (!this.times.has(rev)) await this.askTimes(rev);
    return this.times.get(rev) ?? null;
  }

  async askTimes(rev) {
    const from = firstAround(rev);
    try {
      const { times } = await this.pad.call({ do: "times", from, step: 1, count: LIMITS.entries });
      times.forEach((time, k) => this.times.set(from + k, time));
    } catch (error) { if (error.code !== NOT_REQUEST) throw error; }
  }

  // Who wrote the character at a place of a revision, by which revision, and when: { author, rev, time }. The last answer is kept.
  async birth(rev, at) {
    const text = rev === this.pad.rev ? this.pad.base : (await this.at(rev)).text, place = count(text, 0, edgeBefore(text, at));
    if (this.lastBirth?.rev !== rev || this.lastBirth.place !== place) {
      const { author, rev: born, at: time } = await this.pad.call({ do: "birth", rev, at: place });
      this.lastBirth = { rev, place, answer: { author, rev: born, time } };
    }
    return this.lastBirth.answer;
  }

  // The named revisions, in the order in which they were named: { rev, author, time, text }, whose author is one of this server.
  async marks() {
    return (await this.pad.call({ do: "marks" })).marks.map(({ rev, author, at: time, text }) => ({ rev, author, time, text }));
  }

  // Names a revision.
  async mark(rev, text) { await this.pad.call({ do: "mark", rev, text }); }

  // The times of revisions 1, 1 + step, 1 + 2 * step and so on, so many of them at most.
  async timesBy(step, count) { return (await this.pad.call({ do: "times", from: 1, step, count })).times; }

  // The last revision that is not later than a moment.
  async revAt(time) { return (await this.pad.call({ do: "times", at: [time] })).revs[0]; }

  // The delta that leads from revision `to` back to the text of `rev`. What was erased in between comes back as words of
  // `author`.
  async back(rev, to, author) {
    const old = await this.at(rev), { changes } = await this.pad.call({ do: "changes", rev, to });
    return invert(deltaOf(changes, old.text), old.text, author);
  }

  // Two revisions in one text, with runs [author, units, kind] whose kind is "insert", "drop" or undefined.
  async compare(from, to) {
    const old = await this.at(from), { changes } = await this.pad.call({ do: "changes", rev: from, to });
    return { from, to, ...merged(old, changes) };
  }
}

// Where a list of entries begins that has a revision in its middle.
const firstAround = (rev) => Math.max(1, rev - LIMITS.entries / 2);

export function merged({ text, runs }, changes) {
  const out = { text: "", runs: [], inserted: 0, dropped: 0 };
  const put = (words, author, kind) => {
    out.text += words;
    out.runs.push([author, words.length, kind]);
    if (kind === "insert") out.inserted += words.length;
    if (kind === "drop") out.dropped += words.length;
  };
  let at = 0, run = 0, end = runs[0]?.[1] ?? 0;
  const old = (units, kind) => {
    for (const to = at + units; at < to;) {
      while (end <= at) end += runs[++run][1];
      const stop = Math.min(to, end);
      put(text.slice(at, stop), runs[run][0], kind);
      at = stop;
    }
  };
  for (const step of deltaOf(changes, text)) {
    if (step.insert) put(step.insert, step.author, "insert");
    else old(step.keep ?? step.drop, step.drop && "drop");
  }
  old(text.length - at);
  return out;
}
