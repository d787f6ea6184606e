// A proxy over TCP that can delay, hold and cut the connections that go through it, and refuse new ones.
import net from "node:net";

// One connection. Each direction keeps its order.
class Link {
  constructor(proxy, client) {
    Object.assign(this, { proxy, client, server: net.connect(proxy.port, "127.0.0.1"), heldUntil: 0, isCut: false, isLost: false });
    this.pass(this.client, this.server);
    this.pass(this.server, this.client);
  }

  pass(from, to) {
    const queue = [];
    let isBusy = false;
    const next = () => {
      if (isBusy || !queue.length) return;
      isBusy = true;
      const wait = Math.max(0, Math.max(queue[0].at, this.heldUntil) - Date.now());
      setTimeout(() => {
        isBusy = false;
        if (Date.now() >= this.heldUntil) queue.shift().act();
        next();
      }, wait);
    };
    const put = (act) => { queue.push({ at: Date.now() + this.proxy.delay(), act }); next(); };
    from.setNoDelay(true);
    from.on("data", (data) => put(() => { if (!to.destroyed && !this.isLost) to.write(data); }));
    from.on("error", () => {});
    from.on("close", () => {
      if (from === this.server) this.proxy.links.delete(this);
      if (!this.isLost) put(() => to.end());
    });
  }

  hold(milliseconds) { this.heldUntil = Math.max(this.heldUntil, Date.now() + milliseconds); }

  // The page sees the end at once. What it sent is lost, or arrives later; then the server sees the end.
  cut(milliseconds, isLost) {
    Object.assign(this, { isCut: true, isLost });
    if (isLost) setTimeout(() => this.server.destroy(), milliseconds);
    else this.hold(milliseconds);
    this.client.destroy();
  }
}

export class RoughProxy {
  // In front of a port. `delay` is how many milliseconds a piece takes.
  constructor(port, delay) {
    Object.assign(this, { port, delay, links: new Set(), isSilent: false });
    this.server = net.createServer((client) => {
      if (this.isSilent) { client.on("error", () => {}); setTimeout(() => client.destroy(), 20000); return; }
      this.links.add(new Link(this, client));
    });
  }

  listen() { return new Promise((done) => { this.server.listen(0, "127.0.0.1", () => done(this.server.address().port)); }); }

  // The newest connection, which is the page's.
  get link() { return [...this.links].filter(({ isCut }) => !isCut).pop() ?? null; }
}
