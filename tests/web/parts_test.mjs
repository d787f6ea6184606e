// The parts of the page that need neither a server nor a display:
//
//     node tests/web/parts_test.mjs
//
// The last line is `N passed, M failed`.
import fs from "node:fs";
import path from "node:path";
import { fileURLToPath } from "node:url";
import { Displays, fullName, hint, named, setDisplays, setOrigin } from "../../web/authors.js";
import { authorsOf, colourOf, giveColours } from "../../web/colours.js";
import { apply, applyRuns, compose, invert, move, snapped, splice, split, transform, typed } from "../../clients/js/src/delta.js";
import { toMarkdown } from "../../web/exports.js";
import { isGuest, isLink, newSecret } from "../../clients/js/src/guests.js";
import { History, merged } from "../../clients/js/src/history.js";
import { letterOf } from "../../web/input.js";
import { authorsIn, rightOf } from "../../clients/js/src/rights.js";
import { Undo } from "../../clients/js/src/undo.js";
import { count, deltaOf, partsOf, unit } from "../../clients/js/src/units.js";
import { linkOf } from "../../web/log_in_link.js";
import { found } from "../../web/pad_list.js";
import { linesWith } from "../../web/pad_search.js";
import { LABELS, LANGUAGES, REFUSALS, WORDS, speak, spoken } from "../../web/words.js";
import { dice as makeDice } from "./dice.mjs";

const TOP = path.join(path.dirname(fileURLToPath(import.meta.url)), "..", "..");
const WEB = path.join(TOP, "web"), LIBRARY = "clients/js/src";
let passed = 0, failed = 0;

function tell(name, have, want) {
  const [a, b] = [JSON.stringify(have), JSON.stringify(want)];
  if (a === b) passed++; else failed++;
  console.log(a === b ? `ok     ${name}` : `FAILED ${name}: ${a}, not ${b}`);
}

function padList() {
  const listed = Array.from({ length: 1200 }, (_, number) => ({ name: `p${number}` }));
  const seen = (letters) => { const { shown, count } = found(listed, letters); return [shown.length, shown[0]?.name ?? null, shown.at(-1)?.name ?? null, count]; };
  tell("of many pads the first 500 are shown", seen(""), [500, "p0", "p499", 1200]);
  tell("a search finds those behind them too", seen("P119"), [11, "p119", "p1199", 11]);
  tell("a search that finds none shows none", seen("q"), [0, null, null, 0]);
}

function randomDelta(dice, length, author) {
  let delta = [], size = length;
  for (let k = dice(4); k >= 0; k--) {
    const at = dice(size + 1), dropped = Math.min(dice(4), size - at), text = "abcdef".slice(0, dice(4));
    delta = compose(delta, splice(at, dropped, text, author));
    size += text.length - dropped;
  }
  return delta;
}

// Deltas with places and halves anywhere, over texts with characters of two units.
function wholeCharacters() {
  const dice = makeDice(5), broken = { snapped: 0, split: 0, same: 0, typed: 0 }, isWhole = (text) => !/[\ud800-\udfff]/u.test(text);
  const random = () => Array.from({ length: dice(8) }, () => ["x", "🙂", "語", "🙃"][dice(4)]).join("");
  for (let round = 0; round < 5000; round++) {
    const text = random(), size = text.length, delta = [];
    for (let at = 0; at < size; ) {
      const units = Math.min(1 + dice(3), size - at);
      if (!dice(3)) delta.push({ insert: ["a", "🙂", "\ud83d", "\ude42"][dice(4)], author: "a" });
      delta.push(dice(2) ? { keep: units } : { drop: units });
      at += units;
    }
    const whole = snapped(delta, text), next = apply(text, whole);
    if (!isWhole(next) || whole.some((step) => step.insert && !isWhole(step.insert))) broken.snapped++;
    if (JSON.stringify(snapped(whole, text)) !== JSON.stringify(whole)) broken.same++;
    const [first, rest] = split(whole, text, 1 + dice(3), 2 + dice(4)), between = apply(text, first);
    if (!isWhole(between) || apply(between, rest) !== next) broken.split++;
    const other = random(), change = typed(text, other, other.length, "a");
    if (apply(text, change) !== other || snapped(change, text) !== change && JSON.stringify(snapped(change, text)) !== JSON.stringify(change)) broken.typed++;
  }
  tell("no delta leaves half a character in 5,000 rounds", broken, { snapped: 0, split: 0, same: 0, typed: 0 });
  tell("a drop is cut between characters", split(splice(0, 4, "", "a"), "🙂🙂", 16, 3), [[{ drop: 2 }], [{ drop: 2 }]]);
  tell("half a character that is typed is U+FFFD", snapped(splice(0, 0, "a\ud83db", "a"), "x"), [{ insert: "a\ufffdb", author: "a" }]);
  tell("what is typed inside of a character comes before it", snapped(splice(1, 0, "a", "a"), "🙂"), [{ insert: "a", author: "a" }]);
  tell("a character of which half is erased is erased", snapped(splice(1, 1, "a", "a"), "🙂b"), [{ drop: 2 }, { insert: "a", author: "a" }]);
}

// Laws of deltas, on random ones.
function deltas() {
  const dice = makeDice(3), broken = { transform: 0, invert: 0, compose: 0, runs: 0, split: 0, typed: 0, move: 0 };
  for (let round = 0; round < 5000; round++) {
    const text = Array.from({ length: dice(12) }, () => "xyz\n"[dice(4)]).join("");
    const mine = randomDelta(dice, text.length, "a"), theirs = randomDelta(dice, text.length, "b"), [left, right] = transform(mine, theirs);
    const next = apply(text, mine), second = randomDelta(dice, next.length, "a");
    if (apply(next, right) !== apply(apply(text, theirs), left)) broken.transform++;
    if (apply(next, invert(mine, text, "a")) !== text) broken.invert++;
    if (apply(text, compose(mine, second)) !== apply(next, second)) broken.compose++;
    if (applyRuns([["o", text.length]], mine).reduce((sum, [, units]) => sum + units, 0) !== next.length) broken.runs++;
    const [first, rest] = split(mine, text, 1 + dice(3), 2 + dice(4));
    if (apply(apply(text, first), rest) !== next) broken.split++;
    if (apply(text, typed(text, next, next.length, "a")) !== next) broken.typed++;
    if (move(text.length, mine, true) !== next.length) broken.move++;
  }
  tell("deltas keep their laws in 5,000 rounds", broken, { transform: 0, invert: 0, compose: 0, runs: 0, split: 0, typed: 0, move: 0 });
  const [mine, theirs] = transform(splice(1, 0, "M", "a"), splice(1, 0, "T", "b"));
  tell("mine comes first where both insert", [apply("xTy", mine), apply("xMy", theirs)], ["xMTy", "xMTy"]);
  tell("a pair of units is not split by typing", typed("a🙂b", "a🙃b", 3, "a"), [{ keep: 1 }, { drop: 2 }, { insert: "🙃", author: "a" }]);
  tell("nor by an edit that is too long", split(splice(0, 0, "a🙂b", "a"), "", 16, 2)[0], [{ insert: "a", author: "a" }]);
}

// What `deltaOf` says of an answer that does not fit.
function misfit(changes, text) {
  try { return deltaOf(changes, text); } catch (error) { return error.constructor.name; }
}

function units() {
  tell("characters are counted", [count("a🙂b"), count("a🙂b", 1, 3), unit("a🙂b", 2), unit("ab", 2)], [3, 1, 3, 2]);
  const delta = [{ keep: 3 }, { drop: 1 }, { insert: "é", author: "a" }];
  tell("an edit's parts count characters", partsOf(delta, "a🙂bc"), [{ at: 2, len: 1 }, { at: 3, text: "é" }]);
  tell("neighbouring insertions are one part", partsOf([{ keep: 1 }, { insert: "a", author: "a@1" }, { insert: "b", author: "a@2" }], "x"), [{ at: 1, text: "ab" }]);
  const misfits = [misfit([["keep", 1]], "ab"), misfit([["keep", 3]], "ab"), misfit([["drop", 2]], "🙂"), misfit([["insert", "a", "a"]], "ab"), misfit([], "")];
  tell("an answer that does not go through the whole text does not fit", misfits, ["Misfit", "Misfit", "Misfit", "Misfit", []]);
  tell("and an answer's changes, too", deltaOf([["keep", 2], ["drop", 1], ["insert", "é", "a"], ["keep", 1]], "a🙂bc"), delta);
}

function undo() {
  let time = 0, text = "";
  const steps = new Undo("a", { now: () => time });
  const type = (delta) => { steps.typed(delta, text); text = apply(text, delta); };
  for (const letter of "one") { type(splice(text.length, 0, letter, "a")); time += 100; }
  time += 5000;
  for (const letter of " two") { type(splice(text.length, 0, letter, "a")); time += 100; }
  text = apply(text, splice(0, 0, "other ", "b"));
  steps.received(splice(0, 0, "other ", "b"));
  const back = () => { text = apply(text, steps.undo(text)); return text; }, again = () => { text = apply(text, steps.redo(text)); return text; };
  tell("undo goes back by bursts, and keeps others' words", [back(), back(), steps.undo(text)], ["other one", "other ", null]);
  tell("what can be done is known", [steps.canUndo, steps.canRedo], [false, true]);
  tell("redo brings them again", [again(), again(), steps.redo(text)], ["other one", "other one two", null]);
}

async function history() {
  const asked = [];
  const call = async (request) => {
    if (request.do === "times" && request.at) return { revs: request.at.map((time) => Math.floor(time / 1000)) };
    if (request.do === "times") return { times: [1, 2, 3, 4].slice(0, request.count).map((k) => 1000 * (request.from + (k - 1) * request.step)) };
    asked.push([request.rev, request.to]);
    return { changes: [...(request.rev ? [["keep", request.rev]] : []), ["insert", "abcdef".slice(request.rev, request.to), "a@1"]] };
  };
  const past = new History({ name: "p", call });
  tell("a revision is read by what changed since one that is known", [(await past.at(2)).text, (await past.at(5)).text, (await past.at(5)).text, asked], ["ab", "abcde", "abcde", [[0, 2], [2, 5]]]);
  tell("the times of some revisions, and the revision of a time", [await past.timesBy(3, 2), await past.revAt(4321)], [[1000, 4000], 4]);
  const callOther = async ({ rev }) => ({ changes: rev ? [["keep", 2], ["drop", 2], ["insert", "X", "c@1"], ["keep", 3]] : [["insert", "one two", "a@1"]] });
  const back = await new History({ name: "p", call: callOther }).back(4, 6, "d@1");
  tell("the way back brings what was erased, as the author's words", back, [{ keep: 2 }, { insert: "e ", author: "d@1" }, { drop: 1 }]);
  const old = { text: "one two", runs: [["a@1", 4], ["b@1", 3]] };
  const both = merged(old, [["keep", 2], ["drop", 3], ["insert", "X", "c@1"], ["keep", 2]]);
  tell("a comparison has what was dropped, with its authors", both, {
    text: "one tXwo", runs: [["a@1", 2, undefined], ["a@1", 2, "drop"], ["b@1", 1, "drop"], ["c@1", 1, "insert"], ["b@1", 2, undefined]], inserted: 1, dropped: 3,
  });
}

function exported() {
  const comments = [{ author: "bob@1", from: 4, to: 7, text: "which\ntwo?", isResolved: false }, { author: "ann@1", from: 2, to: 2, text: "gone", isResolved: true }];
  const have = toMarkdown({ name: "p", rev: 7, text: "one two <b>\n& more", runs: [["ann@1", 4], ["bob@1", 14]], comments });
  tell("Markdown has authors and comments", have, [
    "# p (revision 7)", "", "*ann@1, bob@1*", "",
    "<sup>ann</sup>on[^1]e <sup>bob</sup>two[^2] &lt;b>", "&amp; more", "",
    "[^1]: **ann** (resolved): gone", "[^2]: **bob**: “two”: which two?", "",
  ].join("\n"));
}

// Authors of two servers can have one name, and a file that is kept must not give the words of one to the other.
function exportedFromTwoServers() {
  const comments = [{ author: "ann@2", from: 0, to: 3, text: "which?", isResolved: false }];
  const have = toMarkdown({ name: "p", rev: 2, text: "one two six", runs: [["ann@1", 4], ["ann@2", 4], ["bob@1", 3]], comments });
  tell("Markdown tells authors of two servers apart", have.split("\n").slice(4), [
    "<sup>ann@1</sup>one[^1] <sup>ann@2</sup>two <sup>bob</sup>six", "", "[^1]: **ann@2**: “one”: which?", "",
  ]);
}

// What authors are called, and that words stay attributed to their other names.
function displayNames() {
  setOrigin("ann@1");
  tell("display names are news once", [1, 2].map(() => setDisplays(["ann", "bob"], [{ author: "ann", name: "Ann *A*" }])), [true, false]);
  tell("an author of this server has a display name", ["ann@1", "ann", "bob@1", "ann@2"].map(named), ["Ann *A*", "Ann *A*", "bob", "ann@2"]);
  tell("the other name stays beside it", [fullName("ann@1"), fullName("bob@1"), hint("ann@1"), hint("bob@1"), hint("ann@2")], ["Ann *A* (ann)", "bob", "ann", "", ""]);
  const have = toMarkdown({ name: "p", rev: 1, text: "one two", runs: [["ann@1", 4], ["bob@1", 3]], comments: [] });
  tell("Markdown has display names as text", have.split("\n").slice(2, 5), ["*Ann \\*A\\* (ann@1), bob@1*", "", "<sup>Ann \\*A\\*</sup>one <sup>bob</sup>two"]);
  setDisplays(["ann", "bob"], [{ author: "ann", name: "Bob" }, { author: "bob", name: "Bob" }]);
  const same = toMarkdown({ name: "p", rev: 1, text: "one two", runs: [["ann@1", 4], ["bob@1", 3]], comments: [] });
  tell("Markdown tells authors with one display name apart", same.split("\n")[4], "<sup>Bob (ann@1)</sup>one <sup>Bob (bob@1)</sup>two");
  setDisplays(["ann"], [{ author: "ann", name: "\u202eevil\u2066" }]);
  tell("a display name cannot turn the sentence around it", named("ann"), "evil");
  setDisplays(["ann"], [{ author: "ann", name: "\u05d0\u05d1" }]);
  tell("letters that run to the left stay together", named("ann"), "\u2068\u05d0\u05d1\u2069");
  tell("display names that are gone are news", [setDisplays(["ann", "bob"], []), named("ann@1")], [true, "ann"]);
  setOrigin("");
}

// Each author of this server is asked for once, a hundred at a time; a refusal is no reason to ask again, a lost connection is.
async function displaysAsked() {
  setOrigin("ann@1");
  const asked = [], session = { login: {}, isLost: false, people: async (names) => { asked.push(names); return []; } };
  const displays = new Displays(session, () => {});
  await displays.ask(["ann@1", "bob@2", "ann", "cyd@1"]);
  await displays.ask(["cyd@1", "ann@1"]);
  tell("each author of this server is asked for once", asked.splice(0), [["ann", "cyd"]]);
  await displays.ask(Array.from({ length: 201 }, (_, k) => `a${k}@1`));
  tell("a hundred are asked for at a time", asked.splice(0).map(({ length }) => length), [100, 100, 1]);
  session.people = async (names) => { asked.push(names); throw Object.assign(new Error(), { reply: { code: 102 } }); };
  for (let k = 0; k < 2; k++) await displays.ask(["dan@1"]);
  tell("a server that has no display names is asked once", asked.splice(0), [["dan"]]);
  session.people = async (names) => { asked.push(names); throw new Error(); };
  for (let k = 0; k < 2; k++) await displays.ask(["eve@1"]);
  tell("what was not answered is asked for again", asked.splice(0), [["eve"], ["eve"]]);
  session.isLost = true;
  await displays.ask(["fay@1"]);
  tell("nothing is asked without a connection", asked, []);
  session.isLost = false;
  displays.forget();
  await displays.ask(["ann@1"]);
  tell("a pad that is opened asks anew", asked, [["ann"]]);
  setOrigin("");
}

function keys() {
  const letters = [["z", "KeyZ"], [";", "KeyZ"], ["Z", "Slash"], ["я", "KeyZ"], ["ζ", "KeyZ"], ["ז", "KeyZ"], ["Enter", "Enter"]];
  tell("a shortcut's letter is what a Latin key types, or else its place", letters.map(([key, code]) => letterOf({ key, code })), ["z", ";", "z", "z", "z", "z", "enter"]);
}

// The files of the page by their paths on a server: its own, and those of the library.
const pageFiles = () => [...filesOf(WEB), ...filesOf(path.join(TOP, LIBRARY)).map((name) => `${LIBRARY}/${name}`)];

function filesOf(folder) {
  return fs.readdirSync(folder).flatMap((name) => {
    const here = path.join(folder, name);
    return fs.statSync(here).isDirectory() ? filesOf(here).map((inner) => `${name}/${inner}`) : [name];
  });
}

// A search in the texts of all pads finds lines, each once.
function linesFound() {
  const text = "One crane\n\nno match\nCRANE and crane\n" + `${"long ".repeat(30)}crane ${"end ".repeat(60)}`;
  const found = linesWith(text, "crane");
  tell("lines are found, each once, with their numbers", found.map(({ number, from }) => [number, from]), [[1, 4], [4, 20], [5, 186]]);
  tell("the words of a line have what was found at its place", found.map(({ from, to, start, words }) => words.slice(from - start, to - start)), ["crane", "CRANE", "crane"]);
  tell("of a long line, the part around it is told", found[2].words.length, 160);
  tell("so many lines at most", linesWith("a\n".repeat(50), "a", 3).map(({ number }) => number), [1, 2, 3]);
  tell("nothing is found where nothing is asked for", linesWith(text, ""), []);
  const signs = Array.from({ length: 95 }, (_, code) => String.fromCharCode(32 + code)).filter((sign) => sign.trim());
  tell("any sign is found", signs.filter((sign) => linesWith(`an e${sign}mail`, `e${sign}m`).length !== 1), []);
}

// Every module is named in the document, so that a browser fetches all of them at once, and not one behind the other.
// What the fragment of an address says of a log-in.
function logInLinks() {
  const link = (name, token, pad = "") => ({ name, token, pad });
  tell("a link has a name and a token", linkOf("#in=ann.t1"), link("ann", "t1"));
  tell("and a pad", linkOf("#in=ann.t1&pad=minutes-may"), link("ann", "t1", "minutes-may"));
  tell("in either order", linkOf("#pad=minutes-may&in=ann.t1"), link("ann", "t1", "minutes-may"));
  tell("a token has its own points", linkOf("#in=ann.a.b..c."), link("ann", "a.b..c."));
  tell("and can be written as addresses are", linkOf("#in=ann.a%26b%3Dc%2Ed%2541%23"), link("ann", "a&b=c.d%41#"));
  tell("what is not written so stays", linkOf("#in=ann.a%zz%"), link("ann", "a%zz%"));
  tell("without a token, it is cut off", [linkOf("#in=ann"), linkOf("#in=ann."), linkOf("#in=")], [link("ann", ""), link("ann", ""), link("", "")]);
  tell("a name that no author can have is none", [linkOf("#in=Ann.t1"), linkOf("#in=.t1"), linkOf(`#in=${"a".repeat(33)}.t1`)], [link("", "t1"), link("", "t1"), link("", "t1")]);
  tell("and so is a pad's", [linkOf("#in=ann.t1&pad=A"), linkOf("#in=ann.t1&pad="), linkOf("#in=ann.t1&pad=//a.b")], [link("ann", "t1"), link("ann", "t1"), link("ann", "t1")]);
  tell("a pad's address is no link", ["", "#", "#in", "#minutes-may", "#begin=ann.t1"].map(linkOf), [null, null, null, null, null]);
}

// What the fragment of an address says of an invitation.
function guestLinks() {
  const secret = "k3Zt0Qm8vJx2bN5wYcR-_g";
  tell("a link for guests has a pad and a secret", linkOf(`#guest=minutes-may.${secret}`), { link: secret, pad: "minutes-may" });
  tell("also as it is written by others", linkOf(`#guest=minutes-may%2E${secret}`), { link: secret, pad: "minutes-may" });
  const cut = ["", "p", "p.", `p.${secret.slice(1)}`, `p.${secret}A`, `p.${secret.slice(1)}+`].map((text) => linkOf(`#guest=${text}`).link);
  tell("cut off or malformed, it has none", cut, cut.map(() => ""));
  tell("nor with a name that no pad can have", linkOf(`#guest=P.${secret}`), { link: "", pad: "" });
}

const LINK = "guest-q3vmd2yxw7rak", BEN = `${LINK}b5ntz4hcu6fpe`, EVE = `${LINK}aaaaaaaaaaaaa`;

// Who is a guest, and what a guest may.
function guests() {
  tell("links and guests are known by their names", ["ann", "guest-7", LINK, BEN, `${BEN}x`, `xguest${BEN.slice(6)}`].map((name) => [isLink(name), isGuest(name)]),
    [[false, false], [false, false], [true, false], [false, true], [false, false], [false, false]]);
  const secrets = Array.from({ length: 200 }, newSecret);
  tell("secrets have 22 characters, and none comes twice", [secrets.every((one) => /^[A-Za-z0-9_-]{22}$/.test(one)), new Set(secrets).size], [true, 200]);
  const rights = [["ann", "own"], ["*", "write"], [LINK, "comment"], [EVE, "write"], ["bob", "read"]];
  tell("a guest's right is the greater of its own and its link's, and not everybody's", [BEN, EVE, "guest-q3vmd2yxw7rabb5ntz4hcu6fpe", "bob"].map((name) => rightOf(name, rights)), ["comment", "write", "none", "write"]);
  tell("links are no authors", authorsIn(rights), ["ann", EVE, "bob"]);
}

// A guest is always called one.
async function guestsAreNamed() {
  setOrigin("ann@1");
  tell("a guest without a name has the last letters of the other one", [named(`${BEN}@1`), fullName(`${BEN}@1`), hint(`${BEN}@1`)], ["…u6fpe (guest)", `…u6fpe (guest, ${BEN})`, BEN]);
  const called = (name) => { setDisplays([BEN], [{ author: BEN, name }]); return named(`${BEN}@1`); };
  tell("a name stands with the word", called("Ben Müller"), "Ben Müller (guest)");
  tell("and the account", fullName(`${BEN}@1`), `Ben Müller (guest, ${BEN})`);
  tell("whatever it is", ["ann", "Ann Example (ann)", "(guest)"].map(called), ["ann (guest)", "Ann Example (ann) (guest)", "(guest) (guest)"]);
  tell("no blanks push the word away", called(`Ann\u0000\n\u3000\u2003\u00a0\u2028 \u2800\u3164${" ".repeat(40)}B`), "Ann B (guest)");
  tell("and no sign turns it", [called("\u202eAnn\u2067"), called("\u05d0\u05d1"), called("\u{10900}")], ["Ann (guest)", "\u2068\u05d0\u05d1\u2069 (guest)", "\u2068\u{10900}\u2069 (guest)"]);
  called("Ben *Müller*");
  const file = toMarkdown({ name: "p", rev: 2, text: "ab", runs: [["ann@1", 1], [`${BEN}@1`, 1]], comments: [{ author: `${EVE}@1`, from: 0, to: 1, text: "why?", isResolved: false }] });
  tell("an export has the word, and the account", ["<sup>Ben \\*Müller\\* (guest)</sup>", `*ann@1, Ben \\*Müller\\* (guest, ${BEN}@1)*`, "**…aaaaa (guest)**"].map((words) => file.includes(words)), [true, true, true]);
  await speak("de");
  tell("and so does every language", named(`${BEN}@1`), "Ben *Müller* (Gast)");
  await speak("en");
  setDisplays([BEN], []);
  setOrigin("");
}

// The pad is asked for its guests, and again where one has no name yet.
async function guestsAsked() {
  const asked = [], session = { login: {}, pad: {}, people: async (names) => { asked.push(names); return []; }, guests: async () => { asked.push("guests"); return known; } };
  let known = [{ author: EVE, name: "Eve" }], changes = 0;
  const displays = new Displays(session, () => { changes++; });
  setOrigin("ann@1");
  await displays.ask(["ann@1", `${EVE}@1`, `${EVE}@2`]);
  tell("guests are asked for of the pad, and others of the server", [asked.splice(0), named(`${EVE}@1`), named(`${EVE}@2`), changes], [["guests", ["ann"]], "Eve (guest)", `${EVE}@2`, 1]);
  await displays.ask([`${EVE}@1`]);
  tell("once", asked.splice(0), []);
  await displays.ask([`${EVE}@1`, `${BEN}@1`]);
  for (let k = 0; k < 3; k++) await displays.ask([`${BEN}@1`]);
  tell("another guest is asked for, and not again at once", asked.splice(0), ["guests"]);
  displays.guestsAt -= 10_000;
  known = [{ author: BEN, name: "Ben" }, { author: EVE, name: "Eva" }];
  await displays.ask([`${BEN}@1`, `${EVE}@1`]);
  tell("but later, while it has no name", [asked.splice(0), named(`${BEN}@1`), named(`${EVE}@1`)], [["guests"], "Ben (guest)", "Eva (guest)"]);
  displays.guestsAt -= 10_000;
  await displays.ask([`${BEN}@1`]);
  tell("and then no more", asked.splice(0), []);
  displays.forgetGuests();
  await displays.ask([`${BEN}@1`]);
  known = [{ author: BEN, name: "Benno" }];
  for (let k = 0; k < 3; k++) {
    await displays.ask([`${BEN}@1`]);
    displays.guestsAt -= 10_000;
  }
  tell("a guest who comes again may say another name in a moment", [asked.splice(0), named(`${BEN}@1`)], [["guests", "guests"], "Benno (guest)"]);
  session.pad = null;
  displays.forget();
  await displays.ask([`${BEN}@1`]);
  tell("without a pad nobody can be asked", asked.splice(0), []);
  setDisplays([BEN, EVE], []);
  setOrigin("");
}

// What workers load, and what a page loads only if it needs it.
const LATER = /^(sw\.js|vendor\/.*|languages\/.*|minutes\/(rules|worker)\.js|(characters|closing|find_bar|finding|go_on|guest_door|keys_list|log_in_again|named_revisions|pad_search|rights|who_wrote)\.js|clients\/js\/src\/(go_on|history)\.js)$/;

function modules() {
  const html = fs.readFileSync(path.join(WEB, "index.html"), "utf8");
  const named = [...html.matchAll(/<link rel="modulepreload" href="\/([\w/]+\.js)">/g)].map(([, name]) => name);
  const scripts = [...html.matchAll(/<script type="module" src="\/(\w+\.js)"( async)?>/g)].map(([, name]) => name);
  tell("a log-in link is taken out of the address before anything else", scripts, ["log_in_link.js", "main.js"]);
  tell("all modules are loaded at once", [...scripts, ...named].sort(), pageFiles().filter((name) => name.endsWith(".js") && !LATER.test(name)).sort());
}

// Colours depend on who the authors are, whatever happened before.
function colours() {
  const pad = (rights, authors, remarks = []) => ({
    me: "ann@1", rights: rights.map((name) => [name, "write"]),
    pad: { runs: authors.map((author) => [author, 1]) }, comments: { list: remarks.map((author) => ({ author })) },
  });
  const last = pad(["ann", "cyd", "bob"], ["zed@2", "bob@1", "eve@2"], ["dan@2"]), all = authorsOf(last), seen = () => all.map(colourOf);
  tell("authors with a right come first, others by their names", all, ["ann@1", "cyd@1", "bob@1", "bob@1", "dan@2", "eve@2", "zed@2"]);
  giveColours(all);
  const first = seen();
  tell("each author has another colour", new Set(first).size, 6);
  tell("what is given again is the same", giveColours(authorsOf(last)), false);
  for (const before of [pad(["ann", "bobb", "bob"], ["bob@1"]), pad(["ann"], ["zed@2"], ["dan@2"]), pad([], [])]) {
    const had = colourOf("gone@3");
    giveColours(authorsOf(before));
    tell("other authors are noticed", giveColours(authorsOf(last)), true);
    tell("whoever was there before, the colours are the same", [seen(), colourOf("gone@3")], [first, had]);
  }
  setOrigin("ann@1");
  tell("authors of this server are named without its number", ["ann@1", "bob@1", "bob@2", "ann@11"].map(named), ["ann", "bob", "bob@2", "ann@11"]);
}

const LISTS = ["LABELS", "RIGHTS", "WORDS", "REFUSALS", "TEMPLATES"];

// What the modules and index.html say comes from a language's file, and nothing in it is left over.
function words() {
  const isOwn = (name) => /\.(js|html)$/.test(name) && !/^(languages|vendor)\/|^words\.js$/.test(name);
  const read = (name) => fs.readFileSync(path.join(WEB, name), "utf8"), files = filesOf(WEB).filter(isOwn).map(read).join("\n");
  const named = [...files.matchAll(/data-(?:text|label|hint|place)="(\w+)"/g), ...files.matchAll(/LABELS\.(\w+)/g)].map(([, key]) => key);
  const listed = [...`${read("keys_list.js")}${read("templates.js")}`.matchAll(/"(\w+)"/g)].map(([, key]) => key);
  tell("each label has its word", named.filter((key) => !LABELS[key]), []);
  tell("each label is used", Object.keys(LABELS).filter((key) => !named.includes(key) && !listed.includes(key)), []);
  const said = [...`${files}${read("words.js")}`.matchAll(/WORDS\.(\w+)/g)].map(([, key]) => key);
  tell("each word is there", said.filter((key) => key !== "words" && !WORDS[key] && !LISTS.includes(key)), []);
  tell("and used", Object.keys(WORDS).filter((key) => !said.includes(key)), []);
  const html = read("index.html");
  tell("the document has no script, style or handler of its own", html.match(/<script(?! type="module" src=)|<style| style=| on\w+=/g), null);
  tell("each refusal says what to do", Object.values(REFUSALS).filter((text) => text.split(/[.:;]/).length < 2), []);
  const texts = [...html.matchAll(/>([^<>]*\p{L}{2}[^<>]*)</gu)].map(([, text]) => text.trim()).filter(Boolean);
  tell("the document says nothing by itself but its name", [...new Set(texts)].sort(), ["This page needs JavaScript.", "Vindrughe"]);
  const inCode = filesOf(WEB).filter((name) => isOwn(name) && name.endsWith(".js")).flatMap((name) => read(name).split("\n"))
    .filter((line) => !/^\s*(\/\/|import )/.test(line)).map((line) => line.replace(/new (Error|Taken)\([^)]*\)|\/\/ .*$/g, ""))
    .flatMap((line) => line.match(/["`](?:\p{Lu}\p{Ll}+|\p{Ll}+(?: \p{L}+)+[.!?…])(?: [^"`]*)?["`]/gu) ?? []).filter((text) => !NAMES.includes(text.slice(1, -1)));
  tell("no word stands in code", inCode, []);
}

// Names of keys, nodes and the like, which nobody reads.
const NAMES = [
  "Escape", "Enter", "Shift", "Tab", "Control", "Alt", "AltGraph", "Digit7", "Digit8", "Digit9", "Vindrughe", "Content-Security-Policy", "Backspace", "Delete", "Ctrl", "Esc",
];

// What a function of a language answers for arguments that can be recognized, whatever its language does with them.
function sample(act) {
  const names = act.toString().match(/^\(([^)]*)\)/)[1].split(",").map((name) => name.trim()).filter(Boolean);
  const args = names.map((name) => ({ right: "own", kind: "insert", name: "Shift" })[name] ?? (/^is|^n$|^percent$|^revisions$|^left$/.test(name) ? 2 : `«${name}»`));
  return { names: names.length, text: String(act(...args)) };
}

// Each language has all words, as functions of the same, and with the same names in them.
async function languages() {
  const english = await import("../../web/languages/en.js");
  for (const language of Object.keys(LANGUAGES)) {
    const other = await import(`../../web/languages/${language}.js`), wrong = [];
    for (const list of LISTS) {
      for (const key of new Set([...Object.keys(english[list]), ...Object.keys(other[list] ?? {})])) {
        const [a, b] = [english[list][key], other[list]?.[key]];
        if (typeof a !== typeof b || (typeof b === "string" && !b.trim())) wrong.push(`${list}.${key}`);
        else if (typeof a === "function") {
          const [one, two] = [sample(a), sample(b)], kept = one.text.match(/«\w+»/g) ?? [];
          if (one.names !== two.names || kept.some((name) => !two.text.includes(name))) wrong.push(`${list}.${key}: ${two.text}`);
        } else if (language !== "en" && a === b && a.length > 12) wrong.push(`${list}.${key} is English`);
      }
    }
    tell(`${LANGUAGES[language]} has all words, and those that they are functions of`, wrong, []);
  }
  await speak("de");
  tell("the page can be changed to another language", [spoken(), LABELS.logIn !== english.LABELS.logIn], ["de", true]);
  await speak("en");
}

deltas();
wholeCharacters();
units();
undo();
await history();
exported();
exportedFromTwoServers();
displayNames();
await displaysAsked();
keys();
linesFound();
logInLinks();
guestLinks();
guests();
await guestsAreNamed();
await guestsAsked();
modules();
colours();
words();
padList();
await languages();
console.log(`${passed} passed, ${failed} failed`);
process.exit(failed ? 1 : 0);
