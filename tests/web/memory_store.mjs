// A browser's disk for drafts (clients/js/src/drafts.js), in memory and in simulated time: a write takes a while, and is lost if
// its window ends before. Windows of one browser share a disk.
import { Taken } from "../../clients/js/src/errors.js";

export class Disk {
  // `delay` answers how many milliseconds a write takes, and `Gone` is what is thrown where another window has a note.
  constructor(clock, delay = () => 5, Gone = Taken) {
    Object.assign(this, { clock, delay, Gone, notes: new Map(), texts: new Map(), alive: new Set(), made: 0, last: 0 });
  }

  window() {
    const store = new MemoryStore(this, ++this.made);
    this.alive.add(store.window);
    return store;
  }

  // What is asked first is done first.
  later(act) {
    this.last = Math.max(this.last, this.clock.now() + this.delay());
    return new Promise((done, failed) => {
      this.clock.after(this.last - this.clock.now(), () => { try { done(act()); } catch (error) { failed(error); } });
    });
  }
}

class MemoryStore {
  constructor(disk, window) { Object.assign(this, { disk, window, ids: 0, written: new Set() }); }

  get isAlive() { return this.disk.alive.has(this.window); }
  // The window ends: what is not written is lost.
  end() { this.disk.alive.delete(this.window); }
  newId() { return `${this.window}-${++this.ids}`; }

  put(given, givenText) {
    const note = structuredClone({ ...given, owner: this.window }), text = structuredClone(givenText);
    return this.disk.later(() => {
      const { notes, texts } = this.disk, known = notes.get(note.id);
      if (!this.isAlive) return;
      if (known ? known.owner !== this.window : this.written.has(note.id)) throw new this.disk.Gone(note.id);
      this.written.add(note.id);
      notes.set(note.id, note);
      if (text) texts.set(note.id, text);
    });
  }

  // Of this window all notes are free: it asks where it has no pad open.
  isFree({ owner }) { return owner === this.window || !this.disk.alive.has(owner); }

  release(id) {
    return this.disk.later(() => {
      const note = this.disk.notes.get(id);
      if (this.isAlive && note?.owner === this.window) note.owner = 0;
    });
  }

  own(note) {
    note.owner = this.window;
    this.written.add(note.id);
    return structuredClone({ ...note, text: this.disk.texts.get(note.id) });
  }

  take(name, pad) {
    return this.disk.later(() => {
      const free = [...this.disk.notes.values()].filter((note) => note.name === name && note.pad === pad && this.isFree(note));
      return free.filter(({ isUnsent }) => isUnsent).map((note) => this.own(note));
    });
  }

  open(id) {
    return this.disk.later(() => {
      const note = this.disk.notes.get(id);
      return note && this.isFree(note) ? this.own(note) : null;
    });
  }

  drop(id) {
    return this.disk.later(() => {
      this.disk.notes.delete(id);
      this.disk.texts.delete(id);
    });
  }
}
