// Says in the foot on how many machines what is saved is kept. The server is asked after each log-in and each reconnection, and
// once a minute. One that does not say, as an older one does not, gets no sign.
import { $, say } from "./page.js";
import { WORDS } from "./words.js";

const EVERY = 60_000, COUNTS = [0, 1, 2];

export class Machines {
  constructor(session) { Object.assign(this, { session, isIn: false, count: null, known: null, turn: 0, timer: null }); }

  logIn() {
    Object.assign(this, { isIn: true, known: null });
    this.ask();
  }

  // Asks again once the connection is back. Until then nothing is shown: another server may answer next.
  follow() {
    const { login, isLost } = this.session, isIn = Boolean(login) && !isLost;
    if (isIn === this.isIn) return;
    this.isIn = isIn;
    if (isIn) this.ask(); else this.show(null);
  }

  async ask() {
    const turn = ++this.turn, count = await asked();
    if (turn !== this.turn || !this.isIn) return;
    this.show(count);
    this.timer = setTimeout(() => this.ask(), EVERY);
  }

  show(count) {
    clearTimeout(this.timer);
    this.count = count;
    this.draw();
    if (count === null) return;
    if (this.known !== null && count < this.known) say($("news"), WORDS.machines(count));
    this.known = count;
  }

  // A screen reader is told of it only when it has become worse.
  draw() {
    const { count } = this, node = $("machines");
    say(node, count === null ? "" : WORDS.machines(count));
    node.title = count === null ? "" : WORDS.machinesHint(count);
  }
}

// On how many machines the server keeps what it has answered, or null if it does not say.
async function asked() {
  try {
    const response = await fetch("/kept", { cache: "no-store" });
    const { machines } = response.ok ? await response.json() : {};
    return COUNTS.includes(machines) ? machines : null;
  } catch { return null; }
}
