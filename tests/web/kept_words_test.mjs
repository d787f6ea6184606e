// What an author said beside the text, and words that were not taken: comments without a connection, refused words, two
// windows of one author, and undo. Pages over a simulated network, in simulated time.
//
//     node tests/web/kept_words_test.mjs
//
// The last line is `N passed, M failed`.
import { Tally } from "./pages.mjs";
import { World, agree, kept } from "./world.mjs";

const tally = new Tally(), { tell } = tally, SECOND = 1000;

// Comments that a page shows, sent or not: their words and their texts.
const shownComments = ({ session: { pad, comments } }) => (comments.all ?? comments.list)
  .map(({ from, to, text, isUnsent = false }) => `${text} on ${pad.text.slice(from, to)}${isUnsent ? ", not sent" : ""}`).sort().join("; ");
const madeComments = (world) => {
  const model = world.model(), cells = [...world.text()];
  return model.comments(model.now).map(({ at, len, text }) => `${text} on ${cells.slice(at, at + len).join("")}`).sort().join("; ");
};
const stretch = (page, words) => {
  const from = page.session.pad.text.indexOf(words);
  return { from, to: from + words.length };
};
// The author comments on words, as the page's dialog does it.
function remark(page, words, text) {
  const asked = { id: "asked", ...stretch(page, words) }, { session } = page;
  session.comments.asked = asked;
  const made = session.comment(asked.from, asked.to, text);
  made.catch(() => {});
  return made;
}

// ---- comments

async function commentsOffline() {
  const world = new World(), [ann, bob] = await world.open("alpha beta gamma", "ann", "bob"), { network } = world;
  network.isDown = true;
  network.of(ann).break(0, true);
  await world.advance(SECOND);
  ann.type(0, 0, "I ");
  const all = [["on alpha", "alpha"], ["on gamma", "gamma"], ["on I", "I"]];
  for (const [text, words] of all) remark(ann, words, text);
  const want = "on I on I; on alpha on alpha; on gamma on gamma";
  tell("comments are shown while they are not sent", shownComments(ann) === want.replaceAll(/(;|$)/g, ", not sent$1"), shownComments(ann));
  bob.type(0, 0, "ROOT WROTE THIS FIRST ");
  await world.advance(2 * SECOND);
  network.isDown = false;
  await world.settle();
  await world.advance(3 * SECOND);
  tell("several comments arrive on their own words", madeComments(world) === want && shownComments(bob) === want && shownComments(ann) === want, madeComments(world));
  tell("and beta was not touched", agree(world) && world.text() === "I ROOT WROTE THIS FIRST alpha beta gamma", world.text());
  world.end();
}

async function commentUnsaved() {
  const world = new World(), [ann] = await world.open("alpha beta", "ann"), { network } = world;
  network.isDown = true;
  network.of(ann).break(0, true);
  await world.advance(SECOND);
  remark(ann, "alpha", "remark");
  await world.advance(SECOND);
  network.isDown = false;
  const isKept = ann.session.isUnsent === true && !(await world.clock.finish(ann.session.settle()));
  tell("a comment that is not sent counts as unsaved", isKept, ann.session.state);
  await world.settle();
  tell("until it is", ann.session.isUnsent === false && madeComments(world) === "remark on alpha", madeComments(world));
  world.end();
}

async function commentAnswerLost() {
  for (const isMade of [true, false]) {
    const world = new World(), [ann, bob] = await world.open("alpha beta", "ann", "bob"), { network } = world, told = [];
    await world.clock.finish(remark(ann, "beta", "why"));
    remark(ann, "beta", "why").then(() => told.push("made"), () => told.push("not taken"));
    await world.until(() => network.sent.filter((request) => request.do === "comment").length === 2, SECOND);
    if (isMade) await world.until(() => world.model().remarks.length === 2, SECOND);
    network.of(ann).break(isMade ? 0 : 20 * SECOND, !isMade);
    bob.type(0, 0, "first ");
    await world.advance(30 * SECOND);
    await world.settle();
    const name = isMade ? "a comment whose answer was lost is made once" : "one that was lost is made then";
    tell(name, madeComments(world) === "why on beta; why on beta" && told.join() === "made" && !kept(ann), `${madeComments(world)}, ${told}`);
    world.end();
  }
}

async function commentRefused() {
  const world = new World(), [ann, bob] = await world.open("alpha beta", "bob", "ann").then(([b, a]) => [a, b]), { network } = world;
  network.isDown = true;
  network.of(ann).break(0, true);
  await world.advance(SECOND);
  remark(ann, "alpha", "my remark");
  bob.type(0, 6, "");
  await world.advance(2 * SECOND);
  network.isDown = false;
  await world.settle();
  tell("a comment whose words are gone is kept for its author", kept(ann) === "my remark" && world.model().remarks.length === 0 && ann.refusals.join() === "322,my remark", `${kept(ann)} ${ann.refusals}`);
  world.end();
}

// ---- refused words

async function refusedWords() {
  const world = new World(), [bob, ann] = await world.open("base ", "bob", "ann");
  await world.advance(SECOND);
  bob.session.grant("ann", "none");
  for (const word of ["w1 ", "w2 ", "w3 ", "w4 "]) { ann.type(ann.shown.length, 0, word); await world.advance(30); }
  await world.advance(5 * SECOND);
  tell("words that were refused are kept once", kept(ann) === "w1 w2 w3 w4 " && ann.shown === "base ", JSON.stringify([kept(ann), ann.shown]));
  world.end();
}

async function refusedWhileTyping() {
  const world = new World(), [bob, ann] = await world.open("base ", "bob", "ann");
  await world.clock.finish(bob.session.grant("ann", "read"));
  for (const letter of "an important decision") { ann.type(ann.shown.length, 0, letter); await world.advance(90); }
  await world.advance(15 * SECOND);
  tell("and whole, though they were refused in pieces", kept(ann) === "an important decision" && ann.refusals.length > 1, `${JSON.stringify(kept(ann))} ${ann.refusals.length}`);
  tell("they would be lost until they are copied", ann.session.kept?.areWaiting === true);
  ann.session.kept?.copied();
  tell("and not any more then", ann.session.kept?.areWaiting === false);
  world.end();
}

// A pad is full and goes on in a new one: words that it did not take are still there to be copied.
async function refusedByFullPad() {
  const world = new World(), [ann] = await world.open("base", "ann");
  world.server.most = 3;
  ann.type(4, 0, " last words");
  remark(ann, "base", "a remark");
  await world.until(() => ann.refusals.length > 0, 5 * SECOND);
  world.server.most = 10000;
  await world.clock.finish(ann.session.goOnIn("p2", "Continues p."));
  const text = "Continues p.\n\nbase";
  tell("words that a full pad did not take are kept in the one that goes on", kept(ann).includes(" last words") && ann.session.pad.text === text, JSON.stringify([kept(ann), ann.session.pad.text]));
  tell("with comments that were not sent", kept(ann).includes("a remark") || world.model().remarks.length === 1, kept(ann));
  world.end();
}

// ---- one author in two windows

async function twoWindows() {
  for (const isMade of [false, true]) {
    const world = new World(), [one, two] = await world.open("yes: ", "ann", "ann");
    two.session.moveCaret(5);
    one.session.moveCaret(5);
    await world.advance(3 * SECOND);
    one.type(5, 0, "+1");
    one.session.moveCaret(7);
    await world.until(() => one.session.pad.flight, 2 * SECOND);
    if (isMade) await world.until(() => world.text() === "yes: +1", SECOND);
    world.network.of(one).break(0, true);
    if (!isMade) {
      two.type(5, 0, "+1");
      two.session.moveCaret(7);
    }
    await world.advance(5 * SECOND);
    await world.settle();
    const want = isMade ? "yes: +1" : "yes: +1+1", name = isMade ? "the window's own words are known again" : "the same words of another window are not taken for this one's";
    tell(name, world.text() === want && agree(world), world.text());
    world.end();
  }
}

// ---- undo

async function whoseWords() {
  const world = new World(), [bob, ann] = await world.open("Bob votes against. ", "bob", "ann"), { pad } = ann.session;
  ann.type(19, 0, "Ann agrees.");
  await world.advance(3 * SECOND);
  ann.type(0, 30, "");
  await world.settle();
  tell("an undo tells whose words it would take over", pad.ownersOfStep?.().join() === "bob@1", pad.ownersOfStep?.().join());
  bob.type(0, 0, "!");
  await world.settle();
  tell("also after others' changes", pad.ownersOfStep?.().join() === "bob@1", pad.ownersOfStep?.().join());
  ann.shown = "";
  pad.undo();
  ann.shown = pad.text;
  await world.settle();
  tell("they come back as the author's own", JSON.stringify(world.model().runs(world.model().now)) === '[["ann@1",30],["bob@1",1]]' && agree(world), JSON.stringify(world.model().runs(world.model().now)));
  tell("and the next step takes nobody's", pad.ownersOfStep?.().length === 0 && pad.ownersOfStep?.(true).length === 0);
  world.end();
}

// ---- carets

async function writersCaret() {
  const world = new World(), [ann, bob] = await world.open("one two", "ann", "bob");
  await world.advance(5 * SECOND);
  const seen = [], caret = () => ann.session.presence.others[0].at;
  ann.session.on("receive", () => seen.push(caret()));
  bob.session.moveCaret(3);
  await world.advance(5 * SECOND);
  bob.type(3, 0, "🙂!");
  bob.session.moveCaret(6);
  await world.settle();
  tell("a writer's caret is behind what came, at once", seen.join() === "6", seen.join());
  for (let k = 0; k < 40; k++) { await world.advance(100); seen.push(caret()); }
  tell("and stays there", new Set(seen).size === 1, seen.join());
  bob.session.moveCaret(1);
  tell("until it is moved", await world.until(() => caret() === 1, 2 * SECOND), `${caret()}`);
  world.end();
}

// What a refusal has brought back, an undo does not bring back once more.
async function undoneAfterRefusal() {
  const world = new World(), [ann] = await world.open("one two three", "ann"), { pad } = ann.session;
  world.server.most = 8;
  ann.type(4, 3, "far too many letters");
  await world.until(() => kept(ann) !== "");
  tell("words whose replacement was refused are there again", ann.shown === "one two three", ann.shown);
  for (const act of ["undo", "undo", "redo"]) {
    pad[act]();
    await world.advance(2 * SECOND);
  }
  tell("an undo brings them back once", !pad.text.includes("twotwo") && pad.text.split("two").length <= 2 && pad.text === world.text(), pad.text);
  world.end();
}

const TESTS = [
  commentsOffline, commentUnsaved, commentAnswerLost, commentRefused, refusedWords, refusedWhileTyping, refusedByFullPad, twoWindows, whoseWords, writersCaret,
  undoneAfterRefusal,
];
await tally.run(TESTS);
