// Six pages of four authors on three pads, before a model of a server that is killed and started, over a network that
// delays, holds, loses and ends connections: one round, at random with a seed, in simulated time. In each third round the
// server is of an earlier version, which does not know `instead`.
import { Browsers } from "./browsers.mjs";
import { Deeds } from "./deeds.mjs";
import { dice as makeDice } from "./dice.mjs";
import { World } from "./world.mjs";

const SECOND = 1000, STEPS = 110, PADS = ["p0", "p1", "p2"], AUTHORS = ["ann", "bob", "cyd", "dan"];
// Six pages and two visits of connections that broke have room on a pad.
const PRESENT = 8;

export const KINDS = {
  strict: "nothing is undone or restored", full: "with undone changes and restored revisions",
  numbers: "the server's number changes", restored: "the server's store is restored from an older copy",
};

export class Storm {
  // `modules` has the Session, the History, the LIMITS and the deltas of some copy of the library.
  constructor(number, modules) {
    const dice = makeDice(number), most = [4, 11, 40, 10000][dice(4)], kind = Object.keys(KINDS)[number % 4];
    modules.LIMITS.edit = most;
    const isOld = number % 3 === 0;
    this.world = new World({ seed: number, Kind: modules.Session, most, present: PRESENT, isOld, delay: () => 1 + dice(150) });
    const pause = (milliseconds) => new Promise((done) => { this.world.clock.after(milliseconds, done); });
    this.deeds = new Deeds({ dice, modules, padNames: PADS, isFull: kind === "full" || kind === "numbers", pause });
    Object.assign(this, { number, dice, kind, failure: null, stores: new Set(), missing: [] }); // pads that were restored; authors whose page ended
    this.browsers = new Browsers({ world: this.world, deeds: this.deeds, dice, modules, names: AUTHORS, prepare: (page) => this.prepare(page) });
    this.seen = { edits: 0, cuts: 0, breaks: 0, held: 0, kills: 0, numbers: 0, stores: 0, over: 0 };
    this.world.network.served = (request) => { if (["insert", "delete", "edit"].includes(request.do)) this.seen.edits++; };
  }

  fault(text) { this.deeds.fault(text); }

  async play() {
    try {
      await this.start();
      for (let step = 0; step < STEPS; step++) await this.step();
      await this.calm();
      this.compare();
    } catch (error) {
      error.message = `round ${this.number} (${this.kind}): ${error.message}`;
      throw error;
    } finally { this.world.end(); }
    return { ...this.seen, ...this.deeds.seen, ...this.browsers.seen };
  }

  async start() {
    const { world } = this, owner = await world.page("ann", null, { store: this.browsers.disks.get("ann").window() });
    for (const pad of PADS) {
      await world.clock.finish(owner.session.create(pad));
      for (const name of AUTHORS.slice(1)) await world.clock.finish(owner.session.grant(name, "write"));
    }
    owner.shown = "";
    this.prepare(owner);
    for (const name of ["bob", "cyd", "dan", "ann", "bob"]) await this.addPage(name);
  }

  addPage(name, pad = PADS[this.dice(PADS.length)]) { return this.browsers.open(name, pad); }

  prepare(page) {
    page.session.on("revision", () => this.check(page));
    this.deeds.add(page);
  }

  // The page believes of each revision what the model has, with the same authors.
  check(page) {
    const { pad } = page.session, model = this.world.model(pad.name), { rev } = pad;
    if (this.stores.has(pad.name) && this.world.network.of(page)?.isEnded) return; // it is told of the old past, and then of the end
    let at = 0;
    const authors = pad.baseRuns.flatMap(([author, units]) => Array.from(pad.base.slice(at, (at += units)), () => author)).join();
    const isSame = pad.base === model.text(rev) && authors === model.authors(rev);
    if (isSame) return;
    const text = pad.base === model.text(rev) ? "the authors" : JSON.stringify([pad.base, model.text(rev)]);
    this.failure ??= Object.assign(new Error(`revision ${rev} of ${pad.name}: ${text}`), { isFound: true });
  }

  async step() {
    for (const page of [...this.deeds.pages]) {
      this.deeds.act(page);
      this.deeds.look(page);
      if (page.session.isOver) this.end(page);
    }
    this.disturb();
    await this.browsers.comeBack();
    this.browsers.logIn();
    await this.advance(this.dice(1000));
  }

  async advance(milliseconds) {
    await this.world.advance(milliseconds);
    if (this.failure) throw this.failure;
  }

  // ---- what the world does

  disturb() {
    const { dice, world } = this, { network, pages } = world, page = pages[dice(pages.length)];
    if (!page) return;
    const connection = network.of(page);
    const deed = dice(14);
    if (deed === 0 && connection) { this.seen.held++; connection.hold(dice(120) * SECOND); }
    if (deed === 1 && connection) { this.seen.breaks++; connection.break(dice(120) * SECOND, false); }
    if (deed === 2 && connection) { this.seen.cuts++; connection.break(dice(30) * SECOND, true); }
    if (deed === 3 && dice(4) === 0) this.killServer();
    if (deed === 4 && dice(4) === 0 && !network.isSilent) {
      network.isSilent = true;
      world.clock.after(dice(15) * SECOND, () => { network.isSilent = false; });
    }
    if (deed === 5) page.session.hurry?.();
    if (deed === 6 && dice(2)) this.browsers.kill(page);
  }

  killServer() {
    const { dice, kind, world } = this, { network, server } = world;
    if (network.isDown) return;
    this.seen.kills++;
    network.kill(() => dice(2) === 0);
    if (kind === "restored" && dice(2)) this.restoreStore();
    const isRenumbered = kind === "numbers" && dice(2) === 0;
    if (isRenumbered) this.seen.numbers++;
    world.clock.after(dice(8) * SECOND, () => network.start(isRenumbered ? server.replica + 1 : server.replica));
  }

  // A pad is as it was, and somebody else has typed on it since.
  restoreStore() {
    const { dice, world } = this, name = PADS[dice(PADS.length)], model = world.model(name), { now } = model;
    if (now < 4) return;
    this.seen.stores++;
    this.stores.add(name);
    model.restore(now - 1 - dice(3));
    for (let k = dice(8); k > 0; k--) {
      const at = dice(model.at(model.now).length + 1);
      model.edit(`zed@${model.replica}`, model.now, [{ at, text: this.deeds.characters(1 + dice(3)) }]);
    }
  }

  // A page is over: that may be only where a store was restored. Its author loads it again in the end.
  end(page) {
    const { session } = page, [fault] = page.faults;
    if (fault?.constructor.name !== "LostRevisions") this.fault(`a page is over: ${fault?.stack}`);
    if (!this.stores.has(session.pad.name)) this.fault("a page has lost revisions that the server has");
    this.seen.over++;
    session.logOut();
    page.store.end();
    this.world.pages.splice(this.world.pages.indexOf(page), 1);
    this.deeds.remove(page);
    this.missing.push(session.name);
  }

  // ---- the end of a round

  isCalm({ session, isSwitching, wantsPad }) {
    const { pad } = session;
    return !isSwitching && !wantsPad && pad && session.state === "saved" && pad.rev === this.world.model(pad.name).now;
  }

  // Nothing is disturbed any more: everything is sent, everybody has it, and nothing is left of connections that broke.
  async calm() {
    await this.rest();
    await this.advance(120 * SECOND);
    for (const name of this.missing) await this.addPage(name);
    for (const { name, pad } of this.browsers.left) await this.addPage(name, pad);
    await this.rest();
    await this.advance(25 * SECOND); // comments are read again
    for (const page of this.deeds.pages) this.deeds.look(page);
    const late = this.deeds.pages.find((page) => !this.isCalm(page));
    if (late) this.fault(`a page of ${late.session.name} does not end: ${late.session.state} ${late.session.pad?.name} ${late.isSwitching}`);
  }

  // Until all pages are calm, or it takes too long.
  async rest() {
    const { browsers } = this, isOver = () => browsers.areBack && this.deeds.pages.every((page) => this.isCalm(page));
    for (let tries = 0; tries < 400 && !isOver(); tries++) {
      await browsers.comeBack();
      browsers.logIn();
      for (const page of [...this.deeds.pages]) {
        this.deeds.look(page);
        if (page.session.isOver) this.end(page);
      }
      await this.advance(SECOND);
    }
  }

  compare() {
    const { deeds, world } = this, isLost = (pad) => this.stores.has(pad);
    for (const page of deeds.pages) {
      const model = world.model(page.session.pad.name), { now } = model;
      deeds.comparePage(page, { text: model.text(now), runs: model.runs(now), comments: model.comments(now) });
      if (page.rereads && this.kind !== "restored") this.fault("a page was read again");
    }
    deeds.compareLetters(new Map(PADS.map((pad) => [pad, world.text(pad)])), isLost);
    deeds.compareComments(new Map(PADS.map((pad) => [pad, world.model(pad).remarks.map(({ text }) => text)])), isLost);
    if (this.browsers.left.length) this.fault(`something is not sent: ${JSON.stringify(this.browsers.left)}`);
    this.comparePresence();
  }

  // Each page is on the pad that is open in it, and on no other one.
  comparePresence() {
    for (const pad of PADS) {
      const want = this.deeds.pages.filter(({ session }) => session.pad.name === pad).map(({ session }) => session.me).sort().join();
      const here = this.world.present(pad).sort().join();
      if (here !== want) this.fault(`on ${pad} are ${here}, and not ${want}`);
    }
  }
}

export const storm = (number, modules) => new Storm(number, modules).play();
