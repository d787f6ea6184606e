// The browsers of a storm's authors: each has a disk for drafts. A browser can be killed, and its author opens the pad again a
// while later, also without a connection.
import { wordsOf } from "../../clients/js/src/drafts.js";
import { Disk } from "./memory_store.mjs";

const SECOND = 1000;
// A pad cannot be opened now, since it is crowded or closed.
const NOT_NOW = [313, 330];

export class Browsers {
  constructor({ world, deeds, dice, modules, names, prepare }) {
    Object.assign(this, { world, deeds, dice, prepare, dead: [], seen: { killed: 0, kept: 0, away: 0 } });
    const delay = () => (dice(8) ? 1 + dice(12) : dice(1400));
    this.disks = new Map(names.map((name) => [name, new Disk(world.clock, delay, modules.Taken)]));
  }

  // Another window can have taken the note: nothing is opened then.
  async open(name, pad, note) {
    const page = await this.world.page(name, pad, { store: this.disks.get(name).window(), note });
    if (note && !page.session.pad) { this.world.kill(page); return false; }
    this.prepare(Object.assign(page, { isAway: Boolean(note), isLoggingIn: false }));
    return true;
  }

  notes(name) { return [...this.disks.get(name).notes.values()]; }

  // What is kept of the page's pad has to be there in the end; what was typed a moment ago may be lost.
  kill(page) {
    const { session, store } = page, { name, pad } = session;
    if (!pad || page.isSwitching || page.isLoggingIn) return;
    for (const note of this.notes(name)) if (note.owner === store.window && note.isUnsent) this.seen.kept += this.deeds.keep(wordsOf(note).join(""));
    this.seen.killed++;
    this.deeds.forget(session);
    this.world.kill(page, this.dice(20) * SECOND, this.dice(2) === 0);
    this.deeds.remove(page);
    this.dead.push({ name, pad: pad.name, at: this.world.clock.now() + this.dice(8) * SECOND });
  }

  // Authors whose browsers were killed come back, if the server answers, or to what is kept.
  async comeBack() {
    for (const one of [...this.dead]) {
      const { name, pad, at } = one, note = this.notes(name).find((known) => known.pad === pad && !this.disks.get(name).alive.has(known.owner));
      if (at > this.world.clock.now()) continue;
      const isAway = note && this.dice(3) === 0;
      try { if (!(await this.open(name, pad, isAway ? note.id : undefined))) continue; } catch (error) {
        if (error.name !== "Lost" && !NOT_NOW.includes(error.code)) throw error;
        continue;
      }
      if (isAway) this.seen.away++;
      this.dead.splice(this.dead.indexOf(one), 1);
    }
  }

  // Pages that were opened without a connection log in now and then.
  logIn() {
    for (const page of this.deeds.pages) {
      if (!page.isAway || page.isLoggingIn || !page.session.pad || this.dice(3)) continue;
      page.isLoggingIn = true;
      page.session.logInAgain(`t${page.session.name}`).then(() => { page.isAway = false; }, (error) => {
        if (error.name !== "Lost" && !NOT_NOW.includes(error.code)) page.faults.push(error);
      }).then(() => { page.isLoggingIn = false; });
    }
  }

  get areBack() { return !this.dead.length && this.deeds.pages.every(({ isAway }) => !isAway); }

  // Pads of which something belongs to no page that could still be sent.
  get left() {
    const isUnsent = ({ flight, pending, comments }) => flight || pending.length || comments.length;
    return [...this.disks].flatMap(([name, { alive }]) => this.notes(name)
      .filter((note) => isUnsent(note) && !(alive.has(note.owner) && this.isUsed(note.id))).map(({ pad }) => ({ name, pad })));
  }
  isUsed(id) { return this.deeds.pages.some(({ session: { drafts } }) => [drafts.draft, ...drafts.others.map(({ draft }) => draft)].some((one) => one?.id === id)); }
}
