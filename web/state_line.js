// The line that says how the pad is: saved, being saved, or why it is not.
import { $, say } from "./page.js";
import { timeOf } from "./times.js";
import { WORDS, refusal } from "./words.js";

const BAD = ["over", "lost", "held"];

export class StateLine {
  constructor(session) { Object.assign(this, { session, wasBad: false }); }

  draw() {
    const { state } = this.session, isBad = BAD.includes(state), text = this.textOf(state);
    say($("state"), text);
    $("state").className = isBad ? "is-bad" : `is-${state}`;
    document.body.classList.toggle("is-offline", this.session.isOver || this.session.isLost);
    this.announce(state, text);
  }

  textOf(state) {
    const { heldBy, isClosed, mayWrite, right } = this.session, { closed } = WORDS;
    const held = heldBy && WORDS.held(refusal(heldBy)), lost = this.lostText(mayWrite);
    return { over: WORDS.over, lost, closed, held, saving: WORDS.saving, saved: isClosed ? closed : mayWrite ? WORDS.saved : WORDS.reading(right) }[state];
  }

  // What is typed outlives the page only if the browser keeps it.
  lostText(mayWrite) {
    const { drafts, isAway, keptAt } = this.session;
    if (isAway) return WORDS.away(timeOf(keptAt));
    if (!mayWrite) return WORDS.lostReading;
    return drafts.areKept ? WORDS.lostKept : WORDS.lost;
  }

  // What a screen reader says of it: that something is wrong, and that it is right again. Each letter is saved, and to hear
  // so each time would drown everything else.
  announce(state, text) {
    const isBad = BAD.includes(state);
    if (isBad || (this.wasBad && state === "saved")) say($("news"), text);
    if (isBad || state === "saved") this.wasBad = isBad;
  }
}
