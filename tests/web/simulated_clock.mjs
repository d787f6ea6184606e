// A clock that goes on when it is told to, so that minutes take milliseconds.
export class SimulatedClock {
  constructor() { this.time = 0; this.events = new Map(); this.next = 1; }
  now = () => this.time;
  after = (milliseconds, act) => {
    const id = this.next++;
    this.events.set(id, { at: this.time + milliseconds, id, act });
    return id;
  };
  cancel = (id) => { this.events.delete(id); };

  // Does what is due first, and everything that follows from it at once.
  async step() {
    let first = null;
    for (const event of this.events.values()) if (!first || event.at < first.at) first = event;
    this.events.delete(first.id);
    this.time = first.at;
    first.act();
    await new Promise((done) => setImmediate(done));
  }

  async advance(milliseconds) {
    let isReached = false;
    this.after(milliseconds, () => { isReached = true; });
    while (!isReached) await this.step();
  }

  // Goes on until a promise is settled, and then is that promise.
  async finish(promise) {
    let isSettled = false;
    const end = () => { isSettled = true; };
    promise.then(end, end);
    await new Promise((done) => setImmediate(done));
    while (!isSettled) await this.step();
    return promise;
  }

  // Goes on until something holds, for so many milliseconds at most. Resolves to whether it holds.
  async until(what, milliseconds) {
    for (const end = this.time + milliseconds; this.time < end && !what(); ) await this.advance(50);
    return Boolean(what());
  }
}
