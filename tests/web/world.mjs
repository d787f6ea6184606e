// Pages before a model of a server, over a simulated network and in simulated time.
import { dice as makeDice } from "./dice.mjs";
import { ModelServer } from "./model_server.mjs";
import { Network } from "./network.mjs";
import { openPage } from "./pages.mjs";
import { SimulatedClock } from "./simulated_clock.mjs";

const PAD = "p";

// The author's words that were not taken, as a page keeps them; and whether all pages show what the model has.
export const kept = ({ session }) => session.kept?.text ?? "";
export const agree = (world) => world.pages.every(({ shown, session }) => shown === world.text() && session.pad.text === shown);

export class World {
  constructor({ seed = 1, delay = 20, Kind, ...server } = {}) {
    this.clock = new SimulatedClock();
    this.dice = makeDice(seed);
    this.server = new ModelServer(server);
    this.network = new Network(this.clock, this.server, typeof delay === "function" ? delay : () => delay);
    this.Kind = Kind;
    this.pages = [];
  }

  // A page of an author, which opens a pad if one is named.
  async page(name, pad = PAD, { how = "join", pace, store, note } = {}) {
    const random = () => this.dice(1000) / 1000, { clock, network: { open }, Kind } = this;
    const page = await clock.finish(openPage({ open, name, token: `t${name}`, pad, how, pace, clock, random, store, note, Kind }));
    this.pages.push(Object.assign(page, { store }));
    return page;
  }

  // Pages of these authors on a new pad with a text, on which all may write. The text is the first one's.
  async open(text, ...names) {
    const pages = [await this.page(names[0], PAD, { how: "create" })];
    for (const name of names.slice(1)) {
      if (name !== names[0]) await this.clock.finish(pages[0].session.grant(name, "write"));
      pages.push(await this.page(name));
    }
    if (text) pages[0].type(0, 0, text);
    await this.settle();
    return pages;
  }

  // A page ends as if its browser were killed. What it sent may still arrive so many milliseconds later.
  kill(page, milliseconds = 0, isLost = false) {
    this.network.of(page)?.break(milliseconds, isLost);
    page.store?.end();
    page.session.logOut();
    this.pages = this.pages.filter((one) => one !== page);
  }

  model(pad = PAD) { return this.server.rooms.get(pad).pad; }
  text(pad = PAD) { return this.model(pad).text(this.model(pad).now); }
  // Who is on a pad, by the server.
  present(pad = PAD) { return [...this.server.rooms.get(pad).present.values()].map(({ author }) => author); }

  // What follows at once from what was done is done before.
  async advance(milliseconds) {
    await new Promise((done) => { setImmediate(done); });
    return this.clock.advance(milliseconds);
  }
  until(what, milliseconds = 60000) { return this.clock.until(what, milliseconds); }

  // Everything is sent, and everybody has the newest revision.
  settle(milliseconds = 120000) {
    return this.until(() => this.pages.every(({ session }) => {
      return !session.pad || session.isOver || (session.state === "saved" && session.pad.rev === this.model(session.pad.name).now);
    }), milliseconds);
  }

  end() { for (const { session } of this.pages) session.logOut(); }
}
