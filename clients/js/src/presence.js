// Who is on the pad, and where their carets are in what this page shows. The answers to `who` say where carets were at a
// revision; between two answers they move with the text, and are behind what their authors write. `moves` counts how often
// an author has moved the caret itself.
import { move } from "./delta.js";
import { unit } from "./units.js";

export class Presence {
  constructor(pad, { onChange, onCome, onGo }) {
    Object.assign(this, { pad, onChange, onCome, onGo });
    this.people = [];
    this.held = null;
  }

  get others() { return this.people.filter((person) => !person.isMe); }

  // An answer to `who`. If it is of a revision that the page has not reached, its carets wait.
  take(reply) {
    const known = new Map(this.people.map((person) => [person.visit, person])), isFirst = !this.people.length;
    this.people = reply.who.map(({ author, visit }) => {
      const { at = null, told = null, moves = 0 } = known.get(visit) ?? {};
      return { author, visit, isMe: visit === this.pad.visit, at, told, moves };
    });
    this.held = reply;
    this.place();
    if (!isFirst) this.announce(known);
    this.onChange();
  }

  // Others that came or went; a second window of one author is no news.
  announce(known) {
    const before = new Set([...known.values()].filter(({ isMe }) => !isMe).map(({ author }) => author));
    const now = new Set(this.others.map(({ author }) => author));
    for (const author of now) if (!before.has(author)) this.onCome(author);
    for (const author of before) if (!now.has(author)) this.onGo(author);
  }

  // Puts the carets of the last answer where they belong, once the page has that revision.
  place() {
    const { held, pad } = this;
    if (!held || held.now > pad.rev) return;
    this.held = null;
    const base = pad.baseAt(held.now);
    if (base === null) return;
    for (const { visit, caret } of held.who) {
      const person = this.people.find((one) => one.visit === visit);
      if (!person) continue;
      const at = pad.carried(unit(base, caret), held.now);
      if (at !== person.told) this.put(person, at);
      person.told = at;
    }
  }

  put(person, at) {
    if (at !== person.at) person.moves++;
    person.at = at;
  }

  // Others have changed what is shown. Where one writes at its caret, the caret is behind what came, before `who` says so.
  wrote(delta) {
    let at = 0;
    for (const { keep = 0, insert = "", author } of delta) {
      const writer = insert && this.others.find((person) => person.author === author && person.at === at);
      at += keep + insert.length;
      if (writer) this.put(writer, at);
    }
  }

  // The page has reached another revision.
  reach() {
    if (!this.held) return;
    this.place();
    this.onChange();
  }

  // What is shown has changed.
  move(delta) {
    for (const person of this.people) {
      if (person.at !== null) person.at = move(person.at, delta);
      if (person.told !== null) person.told = move(person.told, delta);
    }
  }
}
