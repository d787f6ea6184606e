// A connection: each message is one request or one reply, and replies come in the order of the requests.
import { clock as realClock } from "./clock.js";
import { Lost } from "./errors.js";

// Milliseconds after which a connection is given up: while it is opened; when a request is not answered; and when one is not
// answered whose answer may be large. A request counts from when those before it are answered, since a large answer to
// one of these may still be coming. A wait is answered once anything more is sent.
const OPENING = 10000, ANSWER = 15000, LARGE_ANSWER = 120000;
const LARGE = ["text", "runs", "comments"];

// Opens a browser's WebSocket. Anything with the same three handlers and two methods can stand in for it.
export const webSocket = (url) => () => {
  const socket = new WebSocket(url);
  const listen = (handlers) => Object.assign(socket, handlers);
  return { socket, listen, send: (text) => socket.send(text), close: () => socket.close() };
};

const isLarge = (request) => LARGE.includes(request.do) || (request.do === "changes" && request.rev === 0);

export class Wire {
  constructor(open, { onDown = () => {}, clock = realClock } = {}) {
    Object.assign(this, { open, onDown, clock, waiting: [], channel: null, timer: null, isUp: false, farewell: null });
    this.giveUp = () => {}; // ends an attempt to connect
  }

  connect() {
    return new Promise((opened, failed) => {
      const channel = this.open(), isOver = () => this.channel !== channel;
      this.channel = channel;
      let cause;
      const notConnected = () => failed(new Lost(cause ? `not connected: ${cause.message}` : "not connected", { cause }));
      this.giveUp = () => {
        notConnected();
        if (!isOver() && !this.isUp) this.close();
      };
      const timer = this.clock.after(OPENING, this.giveUp);
      channel.listen({
        onopen: () => {
          this.clock.cancel(timer);
          if (isOver()) return;
          this.isUp = true;
          opened();
        },
        onmessage: ({ data }) => { if (!isOver()) this.answer(JSON.parse(data)); },
        // A browser does not tell a page why.
        onerror: (error) => { if (error?.message) cause = error; },
        onclose: () => {
          this.clock.cancel(timer);
          notConnected();
          if (!isOver()) this.drop();
        },
      });
    });
  }

  answer(reply) {
    const waiting = this.waiting.shift();
    if (!waiting) { this.farewell = reply; return; }
    const [next] = this.waiting;
    if (next) next.from = this.clock.now();
    this.watch();
    waiting.done(reply);
  }

  ask = (request) => new Promise((done, failed) => {
    if (!this.isUp) { failed(new Lost("not connected", { reply: this.farewell })); return; }
    const from = this.clock.now(), wait = request.wait ?? 0;
    this.waiting.push({ done, failed, from, wait: 1000 * wait, most: isLarge(request) ? LARGE_ANSWER : ANSWER });
    this.watch();
    this.channel.send(JSON.stringify(request));
  });

  // Gives the connection up when the first request that waits should have been answered.
  watch() {
    const [first, second] = this.waiting;
    this.clock.cancel(this.timer);
    if (!first) return;
    let due = first.from;
    if (first.wait) due = second ? Math.max(due, second.from) : due + first.wait;
    this.timer = this.clock.after(Math.max(0, due + first.most - this.clock.now()), () => this.drop());
  }

  // The connection is over: what waits fails, and `onDown` is told.
  drop() {
    const wasUp = this.isUp;
    this.close();
    if (wasUp) this.onDown();
  }

  close() {
    const { channel } = this;
    this.channel = null;
    this.isUp = false;
    this.clock.cancel(this.timer);
    channel?.close();
    for (const { failed } of this.waiting.splice(0)) failed(new Lost("the connection ended", { reply: this.farewell }));
  }
}
