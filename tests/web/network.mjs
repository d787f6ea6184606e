// A network between pages and a model of a server, in simulated time. Each connection keeps the order of its lines. It can
// delay them, hold them, lose them, and end for one side long before the other side hears of it.

// One direction of a connection: what was put into it happens in its order, each some time later.
class Way {
  constructor(clock, delay) { Object.assign(this, { clock, delay, queue: [], heldUntil: 0, isCut: false, timer: null }); }

  put(act) {
    if (this.isCut) return;
    this.queue.push({ at: this.clock.now() + this.delay(), act });
    this.pump();
  }

  hold(until) {
    this.heldUntil = Math.max(this.heldUntil, until);
    this.pump();
  }

  // What is under way is lost.
  clear() { this.queue = []; }

  // That, and what comes later.
  cut() {
    this.isCut = true;
    this.clear();
  }

  pump() {
    this.clock.cancel(this.timer);
    if (!this.queue.length) return;
    this.timer = this.clock.after(Math.max(0, Math.max(this.queue[0].at, this.heldUntil) - this.clock.now()), () => {
      this.queue.shift()?.act();
      this.pump();
    });
  }
}

class Connection {
  constructor(network) {
    const { clock, delay } = network;
    Object.assign(this, { network, handlers: {}, session: null, inbox: [], isClosed: false, isEnded: false });
    this.up = new Way(clock, delay);
    this.down = new Way(clock, delay);
    network.connections.add(this);
  }

  // ---- the page's end

  listen(handlers) {
    this.handlers = handlers;
    this.up.put(() => this.accept());
  }

  send(line) {
    this.network.sent.push(JSON.parse(line));
    this.up.put(() => { this.inbox.push(line); this.serve(); });
  }

  // What was sent still arrives, and then the end of it.
  close() {
    if (this.isClosed) return;
    this.isClosed = true;
    this.up.put(() => this.end());
    this.network.clock.after(1, () => this.handlers.onclose());
  }

  // ---- the server's end

  accept() {
    const { network } = this;
    if (network.isSilent) return;
    if (network.isDown) { this.shut(); return; }
    this.session = network.server.connect();
    this.down.put(() => { if (!this.isClosed) this.handlers.onopen(); });
  }

  // Answers lines in order. A wait is over when the pad moves, when another line is there, or after its time.
  serve(isTimeOver = false) {
    const { network, session, inbox } = this, { server } = network;
    while (inbox.length && session && !this.isEnded) {
      const request = JSON.parse(inbox[0]);
      if (request.wait && server.nowOf(session, request.pad) === request.rev && inbox.length === 1 && !isTimeOver) {
        const line = inbox[0];
        network.clock.after(request.wait * 1000, () => { if (inbox[0] === line) this.serve(true); });
        return;
      }
      const line = inbox.shift(), before = server.rooms.get(request.pad)?.pad.now, reply = JSON.stringify(server.reply(session, line));
      this.down.put(() => { if (!this.isClosed) this.handlers.onmessage({ data: reply }); });
      network.served(request, JSON.parse(reply));
      if (server.rooms.get(request.pad)?.pad.now !== before) network.wake(this);
    }
  }

  // The server's side is over.
  end() {
    if (this.session) this.network.server.end(this.session);
    this.isEnded = true;
    this.network.connections.delete(this);
  }

  // The server's side is over, and the page hears of it. Replies that are under way may be lost.
  shut(areRepliesLost = false) {
    this.end();
    this.up.cut();
    if (areRepliesLost) this.down.clear();
    this.down.put(() => { if (!this.isClosed) { this.isClosed = true; this.handlers.onclose(); } });
  }

  // ---- what happens to it

  hold(milliseconds) {
    const until = this.network.clock.now() + milliseconds;
    this.up.hold(until);
    this.down.hold(until);
  }

  // The page sees the end at once. What it sent is lost, or arrives after so many milliseconds; the server sees the end then.
  break(milliseconds, isLost) {
    const { clock } = this.network;
    if (this.isClosed) return;
    if (isLost) {
      this.up.cut();
      clock.after(milliseconds, () => this.end());
    } else {
      this.up.hold(clock.now() + milliseconds);
      this.up.put(() => this.end());
    }
    this.isClosed = true;
    this.down.cut();
    clock.after(1, () => this.handlers.onclose());
  }
}

export class Network {
  constructor(clock, server, delay = () => 20) {
    Object.assign(this, { clock, server, delay, connections: new Set(), sent: [], isDown: false, isSilent: false });
    this.served = () => {}; // told of each request and its reply, when the server answers it
  }

  open = () => new Connection(this);

  // The pad has moved: waits are over.
  wake(but) { for (const connection of this.connections) if (connection !== but) connection.serve(); }

  // The connection of a page.
  of({ session }) { return session.wire?.channel ?? null; }

  // The server is killed. Its connections end, and it answers again when it is started.
  kill(areRepliesLost = () => false) {
    this.isDown = true;
    for (const connection of [...this.connections]) connection.shut(areRepliesLost());
  }
  start(replica) {
    this.server.restart(replica);
    this.isDown = false;
  }
}
