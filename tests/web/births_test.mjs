// Who wrote a character, and when, and what revisions are called: what is asked of a server, of today or older, and which character
// is meant.
//
//     node tests/web/births_test.mjs
//
// The last line is `N passed, M failed`.
import { authorAt, characterOf, comparedPlace, sentPlace, sourceOf } from "../../web/characters.js";
import { apply, compose, splice } from "../../clients/js/src/delta.js";
import { History, merged } from "../../clients/js/src/history.js";
import { Pad } from "../../clients/js/src/sync.js";
import { dice as makeDice } from "./dice.mjs";

let passed = 0, failed = 0;

function tell(name, have, want) {
  const [a, b] = [JSON.stringify(have), JSON.stringify(want)];
  if (a === b) passed++; else failed++;
  console.log(a === b ? `ok     ${name}` : `FAILED ${name}: ${a}, not ${b}`);
}

// A pad of four revisions, each made a second after the one before it, at a server that knows these requests.
function serverOf(...knows) {
  const asked = [], made = [1, 2, 3, 4];
  const call = async (request) => {
    asked.push(request);
    if (!knows.includes(request.do)) throw Object.assign(new Error(request.do), { code: 102 });
    if (request.do === "entries") return { entries: made.map((rev) => ({ rev, author: "a@1", kind: "insert", ...(knows.includes("entries with times") && request.times ? { at: 1000 * rev } : null) })) };
    if (request.do === "mark") return {};
    if (request.do === "marks") return { marks: [{ at: 5000, author: "a", rev: 2, text: "Draft" }], now: 4 };
    if (request.do === "birth") return { author: "a@1", rev: request.at + 1, at: 1000 * (request.at + 1), now: 4 };
    return { times: made.slice(request.from - 1).map((rev) => 1000 * rev) };
  };
  return { asked, call };
}

async function timesOfRevisions() {
  const due = [null, "insert", 2000, 4000, null], around = { from: 1, count: 100 };
  const told = async (past) => [await past.time(0), (await past.entry(2)).kind, await past.time(2), await past.time(4), await past.time(9)];
  const today = serverOf("entries", "entries with times", "times"), older = serverOf("entries", "times"), oldest = serverOf("entries");
  const entries = { do: "entries", ...around, times: true }, times = { do: "times", from: 1, step: 1, count: 100 };
  tell("who made a revision and when is one request", [await told(new History({ name: "p", call: today.call })), today.asked], [due, [entries, entries]]);
  tell("before an older server they are two", [await told(new History({ name: "p", call: older.call })), older.asked], [due, [entries, times, entries]]);
  tell("and one that has no times is asked for nothing else", await told(new History({ name: "p", call: oldest.call })), [null, "insert", null, null, null]);
}

async function births() {
  const { asked, call } = serverOf("birth"), past = new History({ name: "p", rev: 7, base: "a🙂bc", call });
  const told = [await past.birth(7, 3), await past.birth(7, 3), await past.birth(7, 1), await past.birth(7, 2)];
  tell("a birth is asked for by characters, and the last one is kept", [told.map(({ rev, time, author }) => [rev, time, author]), asked.map(({ rev, at }) => [rev, at])],
    [[[3, 3000, "a@1"], [3, 3000, "a@1"], [2, 2000, "a@1"], [2, 2000, "a@1"]], [[7, 2], [7, 1]]]);
  const none = await new History({ name: "p", rev: 7, base: "abc", call: serverOf().call }).birth(7, 0).catch(({ code }) => code);
  tell("an older server refuses it", none, 102);
}

async function names() {
  const { asked, call } = serverOf("mark", "marks"), past = new History({ name: "p", call });
  await past.mark(2, "Draft");
  tell("a revision is named, and the names are told", [await past.marks(), asked], [[{ rev: 2, author: "a", time: 5000, text: "Draft" }], [{ do: "mark", rev: 2, text: "Draft" }, { do: "marks" }]]);
  const none = await new History({ name: "p", call: serverOf().call }).marks().catch(({ code }) => code);
  tell("an older server has no names", none, 102);
}

// A random delta that inserts capital letters.
function capitals(dice, length) {
  let delta = [], size = length;
  for (let k = dice(4); k >= 0; k--) {
    const at = dice(size + 1), dropped = Math.min(dice(4), size - at), text = "ABCDEF".slice(0, dice(4));
    delta = compose(delta, splice(at, dropped, text, "a"));
    size += text.length - dropped;
  }
  return delta;
}

// Where the characters of a text come from, beside where they are by their own names.
function sources() {
  const dice = makeDice(8), broken = { kept: 0, made: 0 };
  for (let round = 0; round < 3000; round++) {
    const text = "abcdefghijkl".slice(0, dice(13)), delta = capitals(dice, text.length);
    [...apply(text, delta)].forEach((letter, at) => {
      const from = sourceOf(at, delta);
      if (letter === letter.toUpperCase()) broken.made += from !== null; else broken.kept += text[from] !== letter;
    });
  }
  tell("each character behind a delta is found before it, in 3,000 rounds", broken, { kept: 0, made: 0 });
  const pad = new Pad({ name: "p", me: "a@1", ask: () => new Promise(() => {}) });
  Object.assign(pad, { base: "one two", text: "one two" });
  pad.type(splice(4, 0, "X", "a"));
  [pad.flight, pad.pending] = [pad.pending, []];
  pad.type(splice(0, 2, "Y", "a"));
  tell("what is typed and not answered is not at the server yet", [pad.text, [0, 1, 2, 3, 4].map((at) => sentPlace(pad, at))], ["Ye Xtwo", [null, 2, 3, null, 4]]);
}

// Where the characters of a text are, and in which of two compared revisions.
function characters() {
  const text = "ab\ne\u0301👩‍🚀🙂\n", ends = [...text].map((_, unit) => unit).flatMap((unit) => { const { from, to } = characterOf(text, unit); return from === unit ? [[from, to]] : []; });
  tell("letters with accents and emoji of several parts are one character", ends, [[0, 1], [1, 2], [2, 3], [3, 5], [5, 10]]);
  tell("wherever one asks in them, and at the end", [4, 6, 9, 10, 11, 12].map((unit) => Object.values(characterOf(text, unit))), [[3, 5], [5, 10], [5, 10], [10, 12], [10, 12], [12, 13]]);
  const long = "x".repeat(500) + "🙂".repeat(200);
  tell("also in a long line", [characterOf(long, 63), characterOf(long, 501), characterOf(long, 899)].map(({ from, to }) => [from, to]), [[63, 64], [500, 502], [898, 900]]);
  tell("a character is of its run's author", [0, 1, 2, 3].map((unit) => authorAt([["a@1", 1], ["b@1", 2]], unit)), ["a@1", "b@1", "b@1", ""]);
  const compared = { from: 3, to: 8, ...merged({ text: "one two", runs: [["a@1", 7]] }, [["keep", 2], ["drop", 3], ["insert", "XY", "c@1"], ["keep", 2]]) };
  const places = [...compared.text].map((letter, unit) => [letter, ...Object.values(comparedPlace(compared, unit))].join(" "));
  tell("in a comparison, what went is of the earlier revision, and all else of the later", places,
    ["o 8 0", "n 8 1", "e 3 2", "  3 3", "t 3 4", "X 8 2", "Y 8 3", "w 8 4", "o 8 5"]);
  tell("and nothing is behind the end", comparedPlace(compared, 9), null);
}

await timesOfRevisions();
await births();
await names();
sources();
characters();
console.log(`${passed} passed, ${failed} failed`);
process.exit(failed ? 1 : 0);
