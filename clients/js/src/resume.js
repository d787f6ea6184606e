// What a page finds out after a broken connection, before it goes on: whether the server still has the text that the page
// shows, and whether the edit that was not answered was made.
import { apply, move, transform } from "./delta.js";
import { pause } from "./clock.js";
import { Lost, LostRevisions, Misfit } from "./errors.js";
import { LIMITS } from "./limits.js";
import { deltaOf, unit } from "./units.js";

const EDITS = ["insert", "delete", "edit"], FIRST_LOOK = 100, LAST_LOOK = 2000;

// Where the pad is stopped meanwhile, as when this connection is lost, too, it ends: another one goes on with the pad.
export async function resume(pad, visit, me, isMade) {
  pad.stop();
  const { turn } = pad, goOn = () => { if (pad.turn !== turn) throw new Lost("stopped"); };
  await compare(pad);
  goOn();
  await settle(pad, { visit, me, isMade, goOn });
  goOn();
  pad.begin(visit);
  pad.takeName(me);
  const told = await pad.changes();
  goOn();
  pad.advance(told);
}

// Compares the operation that the page remembers, and the whole text. If a revision that the page cannot name has another
// text, its past is another one, too.
async function compare(pad) {
  const { mark, rev, base } = pad, { now } = await pad.call({ do: "revs" });
  if (now < Math.max(rev, mark.rev)) throw new LostRevisions(pad.name);
  if (mark.rev > 0 && !isSame(mark, await entryOf(pad, mark.rev))) throw new LostRevisions(pad.name);
  const { text } = await pad.call({ do: "text", rev });
  if (text === base) return;
  throw mark.rev >= rev ? new Misfit(`revision ${rev} has another text`) : new LostRevisions(pad.name);
}

// What made a revision.
export async function entryOf(pad, rev) { return (await pad.call({ do: "entries", from: rev, count: 1 })).entries[0]; }

const isSame = (mark, entry) => mark.author === entry?.author && mark.name.join() === entry.name.join();

// Decides about the edit that was not answered. If the server tells that nothing more was made, it is sent again. Otherwise it
// is looked for: where the server cannot tell, the old connection can still deliver it, however late, so it is sent again
// only when its visit is gone. To erase words twice does no harm.
async function settle(pad, { visit, me, isMade, goOn }) {
  if (!pad.flight) return;
  if (pad.madeAt) { await pad.landAt(pad.madeAt); return; }
  if (isMade === false || !pad.flight.some((step) => step.insert)) { pad.unsend(); return; }
  const search = { from: pad.rev + 1, mine: [pad.visit, pad.sentIn, visit], names: [...pad.names, me], isMade, goOn };
  await whenGone(pad, pad.sentIn, () => find(pad, search), () => { goOn(); return true; });
  goOn();
  if (pad.flight) pad.unsend();
}

// Looks at something until it is found, or until nothing more can come of a visit. What it made before it went is there
// when the last look is taken. Resolves to what was found, also if `goesOn` ends it.
export async function whenGone(pad, visit, look, goesOn = () => true) {
  for (let wait = FIRST_LOOK; goesOn(); wait = Math.min(wait * 1.5, LAST_LOOK)) {
    const { who } = await pad.call({ do: "who" }), isGone = !who.some((one) => one.visit === visit);
    const found = await look();
    if (found || isGone) return found;
    await pause(wait, pad.clock);
  }
  return null;
}

// Looks for the revision that the flight made: one of this author that changes just what the flight changes there. Earlier
// searches have looked at the revisions before `search.from`.
async function find(pad, search) {
  for (let { now } = pad; search.from <= now; ) {
    const reply = await pad.call({ do: "entries", from: search.from, count: LIMITS.entries });
    search.goOn();
    for (const entry of reply.entries) {
      search.from = entry.rev + 1;
      if (!pad.names.includes(entry.author) || !EDITS.includes(entry.kind)) continue;
      if (await isFlight(pad, entry.rev, search)) return true;
    }
    now = reply.now;
  }
  return false;
}

async function isFlight(pad, rev, search) {
  const before = await pad.changes({ to: rev - 1 }), made = await pad.call({ do: "changes", rev: rev - 1, to: rev });
  search.goOn();
  const theirs = deltaOf(before.changes, pad.base), text = apply(pad.base, theirs), [mine] = transform(pad.flight, theirs);
  const result = apply(text, mine);
  if (result !== apply(text, deltaOf(made.changes, text))) return false;
  if (!search.isMade && await isOfOtherWindow(pad, { rev, text: result, ends: endsOf(mine) }, search)) return false;
  search.goOn();
  pad.land(theirs, rev, before.notes);
  return true;
}

// The server does not tell which window of an author made an edit. If another window of this author has its caret directly
// behind the words, as it has where it typed them, the words are taken for that window's, and the flight is sent.
async function isOfOtherWindow(pad, { rev, text, ends }, { mine, names }) {
  const { who, now } = await pad.call({ do: "who" });
  const others = who.filter(({ author, visit }) => names.includes(author) && !mine.includes(visit));
  if (!others.length) return false;
  const since = deltaOf((await pad.call({ do: "changes", rev, to: now })).changes, text), shown = apply(text, since);
  const places = ends.map((end) => move(end, since));
  return others.some(({ caret }) => places.includes(unit(shown, caret)));
}

// Where the insertions of a delta end in what it leads to.
function endsOf(delta) {
  const ends = [];
  let at = 0;
  for (const step of delta) {
    at += step.keep ?? step.insert?.length ?? 0;
    if (step.insert) ends.push(at);
  }
  return ends;
}
