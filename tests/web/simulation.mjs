// Several pages type at random into one pad of the model, over connections that keep their order, delay, and break. Time
// is simulated, so a round of minutes takes milliseconds.
//
// tests/clients/simulation.py plays the same rounds with the library for Python, request by request. So what happens depends
// on the number of a round alone, and not on how a language orders what happens at one moment: each connection has dice of its
// own, and moments are multiples of 1/1024 ms, which add up exactly and hardly ever meet.
import { dice as makeDice } from "./dice.mjs";
import { ModelPad } from "./model.mjs";
import { SimulatedClock } from "./simulated_clock.mjs";

// The shortest time, and a time of so many milliseconds at most.
const MOMENT = 1 / 1024;
const upTo = (dice, milliseconds) => dice(milliseconds * 1024) * MOMENT;
const LETTERS = ["a", "b", "c", "d", "\n", "é", "🙂", "👩‍🚀", "語"];

// A request with its fields in the order of their names.
const sorted = (value) => JSON.stringify(value, (_, one) => (one === null || typeof one !== "object" || Array.isArray(one) ? one
  : Object.fromEntries(Object.entries(one).sort(([a], [b]) => (a < b ? -1 : 1)))));

// What was just done has its consequences, at the same moment.
const consequences = () => new Promise((done) => { setImmediate(done); });

// One connection to the model. Each direction delays at random and keeps its order.
class Connection {
  constructor(clock, dice, model, page, seen) {
    Object.assign(this, { clock, dice, model, page, seen });
    this.inbox = []; this.isBroken = false; this.isCut = false; this.lastIn = 0; this.lastOut = 0;
    this.failures = new Set();
  }
  ask = (request) => new Promise((done, failed) => {
    if (this.isBroken) { failed(new Error("lost")); return; }
    this.failures.add(failed);
    this.page.asked.push([this.clock.now(), sorted(request)]);
    const line = { request: structuredClone(request), done: (reply) => { this.failures.delete(failed); done(reply); } };
    this.lastIn = Math.max(this.lastIn + MOMENT, this.clock.now() + 1 + upTo(this.dice, 200));
    this.clock.after(this.lastIn - this.clock.now(), () => { if (!this.isCut) { this.inbox.push(line); this.serve(); } });
  });
  // Answers lines in order. A wait is over when the pad moves, when another line is there, or after its time.
  serve(isTimeOver = false) {
    while (this.inbox.length) {
      const { request, done } = this.inbox[0];
      if (request.wait && this.model.now === request.rev && this.inbox.length === 1 && !isTimeOver && !this.isBroken) {
        const line = this.inbox[0];
        this.clock.after(request.wait * 1000, () => { if (this.inbox[0] === line) this.serve(true); });
        return;
      }
      this.inbox.shift();
      if (["insert", "delete", "edit"].includes(request.do)) this.seen.edits++;
      const before = this.model.now, reply = structuredClone(this.model.reply(this.page.author, request));
      this.lastOut = Math.max(this.lastOut + MOMENT, this.clock.now() + 1 + upTo(this.dice, 200));
      this.clock.after(this.lastOut - this.clock.now(), () => { if (!this.isBroken) done(reply); });
      if (this.model.now > before) for (const other of this.seen.connections) if (other !== this) other.serve();
    }
  }
  // The page sees the end at once. Lines on their way may be lost, or still be served.
  break() {
    this.isBroken = true;
    this.isCut = this.dice(2) === 0;
    for (const failed of this.failures) failed(new Error("lost"));
  }
}

// One round: the pages, what they type, and what has to hold.
class Round {
  constructor(number, { Pad, History, delta }, Model) {
    Object.assign(this, { number, Pad, History, delta, dice: makeDice(number), clock: new SimulatedClock(), model: new Model(), pages: [] });
    this.seen = { edits: 0, checks: 0, breaks: 0, undone: 0, restored: 0, typed: 0, connections: [] };
    this.insertsOnly = this.dice(3) === 0;
  }

  found(text) { return Object.assign(new Error(`round ${this.number}: ${text}`), { isFound: true }); }
  fault(text) { throw this.found(text); }

  // What a page believes of its revision is what the model has there, with the same authors.
  check({ pad }) {
    const { model, delta: { apply } } = this;
    this.seen.checks++;
    if (pad.base !== model.text(pad.rev)) this.fault(`revision ${pad.rev}: ${JSON.stringify([pad.base, model.text(pad.rev)])}`);
    let at = 0;
    const authors = pad.baseRuns.flatMap(([author, units]) => Array.from(pad.base.slice(at, (at += units)), () => author)).join();
    if (authors !== model.authors(pad.rev)) this.fault(`the authors of revision ${pad.rev}`);
    if (apply(apply(pad.base, pad.flight ?? []), pad.pending) !== pad.text) this.fault("what is shown");
  }

  connect(page) {
    const dice = makeDice(10000 * this.number + 100 * page.number + ++page.connections);
    page.connection = new Connection(this.clock, dice, this.model, page, this.seen);
    this.seen.connections.push(page.connection);
  }

  // Now and then a page is another window of the first author.
  addPage(k) {
    const { clock, dice } = this, page = { author: dice(4) || this.insertsOnly ? `u${k}@1` : "u0@1", shown: "", failure: null, number: k, connections: 0, asked: [] };
    this.connect(page);
    page.pad = new this.Pad({
      name: "p", me: page.author, clock, ask: (request) => page.connection.ask(request),
      pace: { gather: [20, 500][dice(2)], rest: [0, 100][dice(2)], wait: 25 },
      onReceive: (delta) => { page.shown = this.delta.apply(page.shown, delta); },
      onMove: () => this.check(page),
    });
    page.history = new this.History(page.pad);
    this.pages.push(page);
    this.keepGoing(page).catch((error) => { page.failure ??= error.reply || error.constructor.name === "Misfit" ? this.found(error.message) : error; });
  }

  async keepGoing(page) {
    for (let isNew = true; ; isNew = false) {
      try {
        if (!isNew) await page.pad.resume(undefined);
        await page.pad.run();
        return;
      } catch (error) {
        if (error.message !== "lost") throw error;
        // Lines that are still on their way are served before the page looks whether its edit was made.
        await new Promise((done) => { this.clock.after(500, done); });
        this.connect(page);
      }
    }
  }

  typeAt(page) {
    const { dice } = this, spots = [0];
    for (const character of page.pad.text) spots.push(spots[spots.length - 1] + character.length);
    const from = dice(spots.length), to = this.insertsOnly || dice(3) ? from : Math.min(spots.length - 1, from + dice(6));
    let text = "";
    if (from === to || dice(2)) for (let k = dice(4); k >= 0; k--) text += LETTERS[dice(LETTERS.length)];
    this.seen.typed += Array.from(text).length;
    const delta = this.delta.splice(spots[from], spots[to] - spots[from], text, page.author);
    page.shown = this.delta.apply(page.shown, delta);
    page.pad.type(delta);
  }

  undoAt(page, isRedo) {
    const delta = isRedo ? page.pad.redo() : page.pad.undo();
    if (!delta) return;
    this.seen.undone++;
    page.shown = this.delta.apply(page.shown, delta);
  }

  // The page goes back to an earlier revision. Where nothing is typed meanwhile, it has the text of that revision then.
  async restoreAt(page) {
    const { pad } = page, rev = this.dice(pad.rev + 1), from = pad.rev;
    let delta;
    await consequences();
    try {
      delta = pad.carriedDelta(await page.history.back(rev, from, page.author), from);
    } catch (error) {
      if (error.message !== "lost") page.failure = error;
      return;
    }
    if (!delta) return;
    this.seen.restored++;
    const isStill = pad.rev === from && !pad.isUnsent;
    page.shown = this.delta.apply(page.shown, delta);
    pad.type(delta);
    if (isStill && pad.text !== this.model.text(rev)) page.failure ??= this.found(`revision ${rev} again: ${JSON.stringify([pad.text, this.model.text(rev)])}`);
  }

  async advanceTo(time) {
    let isReached = false;
    await consequences();
    this.clock.after(time - this.clock.now(), () => { isReached = true; });
    while (!isReached) {
      await this.clock.step();
      for (const { failure } of this.pages) if (failure) throw failure;
    }
  }

  async play(breaks) {
    const { dice, pages, clock } = this;
    for (let k = 2 + dice(3); k > 0; k--) this.addPage(k);
    for (let step = 0; step < 50; step++) {
      for (const page of pages) {
        if (dice(3) === 0) this.typeAt(page);
        if (!this.insertsOnly && dice(20) === 0) this.undoAt(page, dice(3) === 0);
        if (!this.insertsOnly && dice(40) === 0) this.restoreAt(page);
        if (breaks && dice(60) === 0) { this.seen.breaks++; page.connection.break(); }
        if (dice(80) === 0) this.model.remark("u9@1");
      }
      await this.advanceTo(clock.now() + upTo(dice, 300));
    }
    for (let tries = 0; tries < 100 && pages.some(({ pad }) => pad.isUnsent || pad.rev !== this.model.now); tries++) {
      await this.advanceTo(clock.now() + 1000);
    }
    this.checkEnd();
    return this.seen;
  }

  // All pages show the model's text. Where nothing is erased, each typed character was made once.
  checkEnd() {
    const end = this.model.text(this.model.now), made = this.model.order().length;
    for (const { pad, shown } of this.pages) {
      if (pad.text !== end || shown !== end) this.fault(`at the end: ${JSON.stringify([pad.text, shown, end])}`);
      pad.stop();
    }
    if (this.insertsOnly && made !== this.seen.typed) this.fault(`${this.seen.typed} characters were typed, and ${made} were made`);
    this.seen.end = end;
    this.seen.pages = this.pages;
  }
}

export const round = (number, modules, Model = ModelPad, breaks = true) => new Round(number, modules, Model).play(breaks);
