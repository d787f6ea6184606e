// Pages without a display: a session of the page's modules, and what its editor would show.
import { pause } from "../../clients/js/src/clock.js";
import { apply, splice } from "../../clients/js/src/delta.js";
import { Session } from "../../clients/js/src/session.js";
import { count } from "../../clients/js/src/units.js";

export async function until(what, milliseconds = 20000) {
  for (const end = Date.now() + milliseconds; Date.now() < end;) {
    if (await what()) return true;
    await pause(20);
  }
  return false;
}

// Prints each check, and counts them.
export class Tally {
  constructor() { this.passed = 0; this.failed = 0; }
  tell = (name, isPassed, said = "") => {
    if (isPassed) this.passed++; else this.failed++;
    console.log(`${isPassed ? "ok    " : "FAILED"} ${name}${said && `: ${said}`}`);
  };
  // Runs tests one after the other. What one throws is a failure of it.
  async run(tests) {
    for (const test of tests) {
      try { await test(); } catch (error) { this.tell(test.name, false, error.stack); }
    }
    this.end();
  }
  end() {
    console.log(`${this.passed} passed, ${this.failed} failed`);
    process.exit(this.failed ? 1 : 0);
  }
}

// Logs in over a connection that `open` opens, and creates or joins a pad; or shows a note of the store without a log-in. The
// session can be of another copy of the library, and run by another clock and other random numbers.
export async function openPage({ open, name, token, pad, how, pace, clock, random, store, note, Kind = Session }) {
  const out = { shown: "", faults: [], refusals: [], said: [], rereads: 0 };
  const session = new Kind({ open, pace, clock, random, store });
  session.on("receive", (delta) => { out.shown = apply(out.shown, delta); });
  session.on("over", (error) => out.faults.push(error));
  session.on("refused", (reply, kept) => out.refusals.push([reply.code, kept]));
  session.on("reread", () => { out.rereads++; out.shown = session.pad.text; });
  session.on("come", (author) => out.said.push(`${author} came`));
  session.on("go", (author) => out.said.push(`${author} went`));
  out.session = session;
  if (note) await session.openKept(note);
  else await session.logIn(name, token);
  if (pad && !note) await session[how](pad);
  out.shown = session.pad?.text ?? "";
  out.type = (at, dropped, text) => {
    const delta = splice(at, dropped, text, session.me);
    out.shown = apply(out.shown, delta);
    session.pad.type(delta);
  };
  return out;
}

// A connection that can be told to break right behind an edit: the server gets the edit, and its answer is lost.
export const fragile = (open, stats) => () => {
  const channel = open(), { send } = channel;
  channel.send = (text) => {
    send(text);
    if (!channel.breaksBehindEdit || !/^\{"do":"(insert|delete|edit)"/.test(text)) return;
    stats.lost++;
    channel.socket.destroy();
  };
  return channel;
};

// The spots between the characters of a text, in units.
export function spotsOf(text) {
  const spots = [0];
  for (const character of text) spots.push(spots[spots.length - 1] + character.length);
  return spots;
}

// Characters that were not used before, every third of them beyond 16 bits.
export function freshCharacters() {
  let next = 0;
  return () => String.fromCodePoint(next % 3 ? 0x4e00 + next++ : 0x20000 + next++);
}

// Who wrote what a page shows, as `runs` answers it.
export function runsOf({ session: { pad } }) {
  let at = 0;
  return pad.runs.map(([author, units]) => [author, count(pad.text, at, (at += units))]);
}

// The comments that a page shows, as `comments` answers them.
export function commentsOf({ session: { pad, comments } }) {
  return comments.list.map(({ name, author, text, isResolved, from, to }) => (
    { at: count(pad.text, 0, from), author, len: count(pad.text, from, to), name, resolved: isResolved, text }
  ));
}

// All pages have sent what was typed, and have the newest revision that any of them knows.
export function areSettled(pages) {
  const now = Math.max(...pages.map(({ session }) => session.pad.now));
  return pages.every(({ session }) => session.state === "saved" && session.pad.rev === now);
}
