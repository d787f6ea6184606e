// An author's connection: logs in, and connects again when the connection is lost. What uses it says what to do then.
import { clock as realClock, pause } from "./clock.js";
import { Lost, PadClosed, Refused, refused } from "./errors.js";
import { Wire } from "./wire.js";

// Milliseconds between two attempts, at first, at most, and to join a pad that is closed; and how long another connection is waited for.
const FIRST_PAUSE = 300, LAST_PAUSE = 5000, CLOSED_PAUSE = 30000, LONGEST = 10000, LOOK = 20;
// Refusals that pass: out of memory, a full disk, too many clients. When a pad is joined again, also that it is crowded: the
// visits of connections that broke may still be counted.
export const PASSING = [900, 901, 902];
const CROWDED = 313, HAVE_SESSION = 202;
// There is no visit. Where somebody else has ended it, by closing the pad, this connection can never join that pad again; another one
// can, once the pad is open.
export const NOT_JOINED = 310;

const NOTHING = () => {}, NOBODY = async () => null;

export class Connection {
  // `random` is from 0 to 1: pauses differ, so that not all pages come back at once. `user` resolves to the author, such as
  // `ann@1`, as whom a proxy has logged in whoever connects, or to null.
  constructor({ open, clock = realClock, random = Math.random, user = NOBODY }) {
    Object.assign(this, { open, clock, random, user, wire: null, login: null, me: "", isUser: false, isLost: false, isOver: false, endedBy: null });
    this.hurry = NOTHING;
  }

  // What has to stop when the connection is lost, what has to be done when it is there again, and what is told.
  stop() {}
  async goOn() {}
  onState() {}
  onOver() {}

  ask = (request) => (this.wire ? this.wire.ask(request) : Promise.reject(new Lost("not connected")));

  async call(request) {
    const reply = await this.ask(request);
    if (!reply.ok) throw refused(reply);
    return reply;
  }

  async connect() {
    let isLoggedIn = false; // what ends before that has failed, and whoever asked is told
    const wire = new Wire(this.open, { clock: this.clock, onDown: () => { if (isLoggedIn && wire === this.wire) this.down(); } });
    this.wire?.close();
    this.wire = wire;
    await wire.connect();
    try {
      this.me = await this.greet(wire);
      isLoggedIn = true;
    } catch (error) {
      if (wire === this.wire) this.wire = null;
      wire.close();
      throw error;
    }
  }

  // Resolves to the author as whom the connection is logged in. Where a proxy has done that, it has to be the same author, each time.
  async greet(wire) {
    const { name, token } = this.login, reply = await wire.ask(name === null ? { do: "guest", token } : { do: "hello", name, token });
    const isUser = reply.code === HAVE_SESSION;
    const author = isUser ? await this.user() : reply.author;
    if (!(reply.ok || (isUser && author?.split("@")[0] === this.login?.name))) throw new Refused(reply);
    this.isUser = isUser;
    return author;
  }

  // As a guest, whose name the server makes from the secrets of the link and of the guest, with a point between them.
  logInAsGuest(token) { return this.logIn(null, token); }

  async logIn(name, token) {
    const login = { name, token };
    this.login = login;
    try { await this.connect(); } catch (error) {
      if (this.login === login) this.login = null;
      throw error;
    }
    this.isLost = false;
  }

  logOut() { this.hangUp(); }

  // Ends the connection, and makes no other one.
  hangUp() {
    this.login = null;
    this.stop();
    this.hurry();
    this.wire?.close();
    this.wire = null;
  }

  // Ends the connection for another one, and waits for that, so many milliseconds at most.
  async renew(most = LONGEST) {
    const { clock } = this, end = clock.now() + most;
    this.wire?.drop();
    this.hurry();
    while (this.isLost && this.login && clock.now() < end) await pause(LOOK, clock);
  }

  down() {
    if (!this.login || this.isLost) return;
    this.isLost = true;
    this.stop();
    this.onState();
    this.reconnect();
  }

  rest(milliseconds) {
    return new Promise((done) => {
      const timer = this.clock.after(milliseconds, done);
      this.hurry = () => { this.clock.cancel(timer); done(); };
    });
  }

  // Tries again until it works, with growing pauses. `hurry` ends a pause, or an attempt to connect that hangs.
  async reconnect() {
    const { login } = this;
    for (let wait = FIRST_PAUSE, isHurried = false; this.login === login; ) {
      if (!isHurried) await this.rest(wait * (0.8 + 0.4 * this.random()));
      if (this.login !== login) return;
      isHurried = false;
      this.hurry = () => {
        isHurried = !this.wire?.isUp;
        if (isHurried) this.wire?.giveUp();
      };
      try {
        await this.connect();
        await this.goOn();
        this.isLost = false;
        this.hurry = NOTHING;
        this.onState();
        return;
      } catch (error) {
        this.wire?.close();
        wait = error instanceof PadClosed ? CLOSED_PAUSE : Math.min(wait * 1.7, LAST_PAUSE);
        if ([Lost, PadClosed].some((kind) => error instanceof kind) || [...PASSING, CROWDED, NOT_JOINED].includes(error.reply?.code)) continue;
        this.endWith(error);
        return;
      }
    }
  }

  // The session cannot go on: the account, the right or the pad is gone, or the page has a fault.
  endWith(error) {
    this.login = null;
    Object.assign(this, { isOver: true, endedBy: error });
    this.stop();
    this.wire?.close();
    this.wire = null;
    this.onOver(error);
  }
}
