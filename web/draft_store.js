// Where the browser keeps drafts (drafts.js of the library) and the last texts of pads: its IndexedDB. A note belongs to a
// window; one whose window is gone, or that a window has released, can be taken by another one.
import { Taken } from "../clients/js/src/errors.js";
import { pause } from "../clients/js/src/clock.js";

const NAME = "pads", NOTES = "notes", TEXTS = "texts", MOST = 30;
// How long other windows are waited for, where the browser has no locks.
const ANSWER = 300;

const result = (request) => new Promise((done, failed) => {
  request.onsuccess = () => done(request.result);
  request.onerror = () => failed(request.error);
});
const ended = (transaction) => new Promise((done, failed) => {
  transaction.oncomplete = done;
  transaction.onabort = () => failed(transaction.error ?? new Error("aborted"));
});

function opened() {
  const request = indexedDB.open(NAME, 1);
  request.onupgradeneeded = () => {
    for (const name of [NOTES, TEXTS]) request.result.createObjectStore(name, { keyPath: "id" });
  };
  return result(request);
}

export class DraftStore {
  constructor() {
    const random = crypto.getRandomValues(new Uint32Array(2));
    Object.assign(this, { window: `window ${random.join("-")}`, ids: 0, written: new Set(), base: null, letGo: () => {}, wasAsleep: false });
    this.live();
    // A page that the browser puts aside does nothing, and another window may take its notes.
    addEventListener("pagehide", (event) => { if (event.persisted) this.letGo(); });
    addEventListener("pageshow", (event) => { if (event.persisted) this.wake(); });
    document.addEventListener("resume", () => { this.wasAsleep = true; });
  }

  wake() {
    this.wasAsleep = true;
    this.live();
  }

  // As long as this window is there, it holds a lock, or answers others.
  live() {
    if (navigator.locks) {
      navigator.locks.request(this.window, () => new Promise((done) => { this.letGo = done; })).catch(() => {});
      return;
    }
    const channel = new BroadcastChannel(NAME);
    channel.onmessage = ({ data }) => { if (data === "who") channel.postMessage(this.window); };
    this.letGo = () => channel.close();
  }

  async living() {
    if (navigator.locks) return new Set((await navigator.locks.query()).held.map(({ name }) => name));
    const here = new Set([this.window]), channel = new BroadcastChannel(NAME);
    channel.onmessage = ({ data }) => here.add(data);
    channel.postMessage("who");
    await pause(ANSWER);
    channel.close();
    return here;
  }

  newId() { return `${this.window} ${++this.ids}`; }

  // Runs an act over both stores, at once or not at all.
  async change(act) {
    this.base ??= opened();
    const transaction = (await this.base).transaction([NOTES, TEXTS], "readwrite", { durability: "relaxed" }), end = ended(transaction);
    end.catch(() => {});
    const out = await act(transaction.objectStore(NOTES), transaction.objectStore(TEXTS), transaction);
    await end;
    return out;
  }

  // What is committed at once is written also if the window ends now. Where the window was asleep, another one may have taken
  // the note, and that is looked at first.
  async put(note, text) {
    await this.change(async (notes, texts, transaction) => {
      const known = this.wasAsleep ? await result(notes.get(note.id)) : null;
      if (this.wasAsleep && (known ? known.owner !== this.window : this.written.has(note.id))) throw new Taken(note.id);
      notes.put({ ...note, owner: this.window, time: Date.now() });
      if (text) texts.put({ id: note.id, ...text });
      transaction.commit();
      this.written.add(note.id);
    });
    if (text) this.tidy(note).catch(() => {});
  }

  // What is kept of pads without anything unsent: the last text of each, and of so many pads.
  async tidy({ id, name, pad }) {
    const living = await this.living();
    await this.change(async (notes, texts) => {
      const saved = (await result(notes.getAll())).filter((note) => !note.isUnsent && note.id !== id && this.isFree(note, living));
      saved.sort((a, b) => b.time - a.time);
      const gone = saved.filter((note, k) => k >= MOST || (note.name === name && note.pad === pad));
      for (const note of gone) { notes.delete(note.id); texts.delete(note.id); }
    });
  }

  // Of this window all notes are free but that of the pad that is open, for which nobody asks.
  isFree({ owner }, living) { return owner === this.window || !living.has(owner); }

  // The free notes that pass, with their texts. They belong to this window then.
  async own(passes) {
    const living = await this.living();
    return this.change(async (notes, texts) => {
      const free = (await result(notes.getAll())).filter((note) => passes(note) && this.isFree(note, living)), out = [];
      for (const note of free.sort((a, b) => a.time - b.time)) {
        this.written.add(note.id);
        notes.put({ ...note, owner: this.window });
        out.push({ ...note, text: await result(texts.get(note.id)) });
      }
      return out.filter(({ text, over }) => text?.rev === over);
    });
  }

  take(name, pad) { return this.own((note) => note.name === name && note.pad === pad && note.isUnsent); }
  async open(id) { return (await this.own((note) => note.id === id))[0] ?? null; }

  release(id) {
    return this.change((notes) => {
      const known = notes.get(id);
      known.onsuccess = () => { if (known.result?.owner === this.window) notes.put({ ...known.result, owner: "" }); };
    });
  }

  drop(id) { return this.change((notes, texts) => { notes.delete(id); texts.delete(id); }); }

  // What is kept: the last note of each author's pad, newest first, and whether another window has it.
  async list() {
    const living = await this.living(), last = new Map();
    const all = await this.change((notes) => result(notes.getAll()));
    for (const note of all.sort((a, b) => a.isUnsent - b.isUnsent || a.time - b.time)) last.set(`${note.name} ${note.pad}`, note);
    return [...last.values()].sort((a, b) => b.time - a.time).map((note) => ({ ...note, isElsewhere: !this.isFree(note, living) }));
  }

  // Removes all notes of an author but those of other windows that are still there.
  async forget(name) {
    const living = await this.living();
    await this.change(async (notes, texts) => {
      for (const note of await result(notes.getAll())) {
        if (note.name === name && this.isFree(note, living)) { notes.delete(note.id); texts.delete(note.id); }
      }
    });
  }
}
