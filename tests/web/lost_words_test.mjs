// What could lose an author's words, or show others than the server has: pages over a simulated network, in simulated time.
//
//     node tests/web/lost_words_test.mjs
//
// The last line is `N passed, M failed`.
import { clock } from "../../clients/js/src/clock.js";
import { Tally } from "./pages.mjs";
import { World, agree, kept } from "./world.mjs";

const tally = new Tally(), { tell } = tally, SECOND = 1000;

// ---- one pad at a time

async function twoPads() {
  const world = new World({ delay: 120 }), bob = await world.page("bob", "pa", { how: "create" }), cyd = await world.page("cyd", "pb", { how: "create" });
  await world.clock.finish(bob.session.grant("ann", "write"));
  await world.clock.finish(cyd.session.grant("ann", "write"));
  bob.type(0, 0, "minutes of A");
  cyd.type(0, 0, "The council decides.");
  await world.settle();
  const ann = await world.page("ann", null), first = ann.session.join("pa").then(() => "open", (error) => error.constructor.name);
  await world.advance(250);
  await world.clock.finish(ann.session.join("pb"));
  ann.shown = ann.session.pad.text;
  bob.type(0, 0, "words that another author types in A ");
  await world.advance(3 * SECOND);
  tell("of two pads that are asked for, the last is open", ann.session.pad.name === "pb" && (await first) !== "open", await first);
  tell("and nothing of the first is drawn into it", ann.shown === "The council decides.", ann.shown);
  tell("the first is left", !world.present("pa").includes("ann@1") && world.present("pb").includes("ann@1"), world.present("pa").join());
  ann.type(0, 4, "");
  await world.settle();
  tell("what is erased is what was shown", world.text("pb") === "council decides." && ann.shown === "council decides.", world.text("pb"));
  world.end();
}

async function secondPadDenied() {
  const world = new World({ delay: 120 }), bob = await world.page("bob", "pa", { how: "create" });
  await world.page("bob", "pb", { how: "create" });
  await world.clock.finish(bob.session.grant("ann", "write"));
  const ann = await world.page("ann", null), first = ann.session.join("pa").catch(() => {});
  await world.advance(250);
  const second = await world.clock.finish(ann.session.join("pb").then(() => null, (error) => error.reply?.code));
  await world.clock.finish(first);
  const isNowhere = ![...world.present("pa"), ...world.present("pb")].includes("ann@1");
  tell("where the second pad is refused, none is open", second === 312 && ann.session.pad === null && isNowhere, `${second} ${world.present("pa")}`);
  await world.clock.finish(ann.session.join("pa"));
  ann.shown = ann.session.pad.text;
  bob.type(0, 0, "B");
  await world.advance(3 * SECOND);
  tell("and another one can be opened then", ann.shown === "B", ann.shown);
  world.end();
}

async function padAfterPad() {
  const world = new World(), [ann] = await world.open("first", "ann");
  ann.type(5, 0, " pad");
  await world.clock.finish(ann.session.create("other"));
  tell("the pad that was open is saved and left first", world.text() === "first pad" && !world.present().length, `${world.text()} ${world.present()}`);
  world.end();
}

// ---- whole characters

async function halves() {
  const world = new World(), [ann, bob] = await world.open(`x${"🙂".repeat(6000)}TAIL of another sentence`, "ann", "bob");
  ann.type(0, 12001, "");
  await world.settle();
  tell("a long deletion cuts no character in half", world.text() === "TAIL of another sentence" && agree(world), world.text().slice(0, 40));
  ann.type(0, 0, "good words ");
  ann.type(11, 0, "half \ud83d a pair ");
  await world.settle();
  tell("half a character is sent as U+FFFD", world.text().startsWith("good words half \ufffd a pair TAIL") && agree(world) && !ann.refusals.length, `${world.text()} ${ann.refusals}`);
  bob.type(0, bob.shown.length, "a🙂b");
  await world.settle();
  ann.type(2, 0, "X");
  await world.settle();
  tell("what is typed inside of a character is beside it", world.text() === "aX🙂b" && agree(world), world.text());
  ann.type(3, 1, "");
  await world.settle();
  tell("and erasing half of it erases it", world.text() === "aXb" && agree(world), world.text());
  world.end();
}

// ---- a text that is not the server's

// The model's text changes without an operation, as no server's does: the page's text is another one then.
function falsify(world, act) { act(world.model().at(world.model().now)); }

async function lengthDiffers() {
  const world = new World(), [ann] = await world.open("one two three", "ann");
  falsify(world, ([cell]) => { cell.died = 1; });
  const isTold = await world.until(() => ann.rereads > 0, 70 * SECOND);
  tell("a text of another length is noticed within a minute", isTold && ann.shown === "ne two three" && ann.session.state === "saved", ann.shown);
  world.end();
}

async function textDiffers() {
  const world = new World(), [ann] = await world.open("one two three", "ann"), line = world.network.of(ann);
  falsify(world, ([cell]) => { cell.character = "O"; });
  line.break(0, true);
  ann.type(13, 0, " four");
  await world.until(() => ann.session.state === "saved");
  tell("another text is noticed at a reconnection, and read again", ann.rereads === 1 && ann.shown === "One two three" && agree(world), ann.shown);
  tell("and the words that were not sent are kept", kept(ann).trim() === "four", kept(ann));
  world.end();
}

async function answerMisfits() {
  const world = new World(), [ann, bob] = await world.open("one two three", "ann", "bob");
  falsify(world, (cells) => { cells[4].died = 1; });
  bob.type(0, 0, "B ");
  const isTold = await world.until(() => ann.rereads > 0 && bob.rereads > 0, 20 * SECOND);
  await world.settle();
  tell("an answer that does not fit the text is not squeezed into it", isTold && agree(world), `${ann.shown}, ${world.text()}`);
  world.end();
}

// ---- a store of another past

async function otherPast() {
  const world = new World(), [ann, bob] = await world.open("one ", "ann", "bob");
  for (const words of ["two ", "three "]) { ann.type(ann.shown.length, 0, words); await world.settle(); }
  const { rev } = ann.session.pad;
  world.network.kill();
  ann.type(ann.shown.length, 0, "unsent");
  world.model().restore(1);
  for (let k = 0; k < 5; k++) world.model().edit("bob@1", world.model().now, [{ at: 0, text: `B${k}` }]);
  world.network.start();
  await world.until(() => ann.faults.length > 0 && bob.faults.length > 0, 30 * SECOND);
  const kinds = [ann, bob].map(({ faults }) => faults.map((fault) => fault.constructor.name).join()).join(" ");
  tell("a store with another past is not mixed into the text", kinds === "LostRevisions LostRevisions" && ann.shown === "one two three unsent", `${rev} ${kinds} ${ann.shown}`);
  tell("nothing is called saved", ann.session.state === "over" && ann.session.pad.unsentWords === "unsent", ann.session.state);
  world.end();
}

async function otherPastSameText() {
  const world = new World(), [ann, bob] = await world.open("one ", "ann", "bob");
  ann.type(4, 0, "two ");
  await world.settle();
  await world.advance(5 * SECOND);
  world.network.kill();
  world.model().restore(1);
  world.model().edit("bob@1", 1, [{ at: 4, text: "two " }]);
  world.network.start();
  await world.until(() => ann.faults.length + bob.faults.length > 1, 30 * SECOND);
  tell("nor one that another author wrote in the same words", ann.faults.length === 1 && bob.faults.length === 1, `${ann.faults.length} ${bob.faults.length}`);
  world.end();
}

async function otherNumber() {
  for (const isLost of [true, false]) {
    const world = new World(), [ann, bob] = await world.open("base ", "ann", "bob"), line = world.network.of(ann);
    ann.type(5, 0, "motion ");
    await world.until(() => ann.session.pad.flight, 2 * SECOND);
    if (!isLost) await world.until(() => world.model().now === 2, SECOND);
    line.break(0, true);
    world.network.kill();
    ann.type(12, 0, "carried ");
    await world.advance(2 * SECOND);
    ann.type(ann.shown.length, 0, "now");
    world.network.start(2);
    await world.settle();
    const name = isLost ? "an edit that was lost is sent" : "an edit that was made is found";
    tell(`${name} where the server has another number`, world.text() === "base motion carried now" && agree(world), `${world.text()}, ${ann.shown}`);
    const runs = JSON.stringify(world.model().runs(world.model().now)), want = isLost ? [["ann@1", 5], ["ann@2", 18]] : [["ann@1", 12], ["ann@2", 11]];
    tell("with its author", runs === JSON.stringify(want) && ann.session.pad.runs.join() === want.join() && bob.session.pad.runs.join() === want.join(), runs);
    world.end();
  }
}

// What is typed before and after the number has changed, and an edit whose answer is lost then.
async function twoNames() {
  const world = new World(), [ann] = await world.open("base ", "ann");
  world.network.kill();
  await world.advance(SECOND);
  ann.type(5, 0, "ab");
  world.network.start(2);
  await world.until(() => ann.session.me === "ann@2", 20 * SECOND);
  ann.type(7, 0, "cd");
  await world.settle();
  tell("what was typed under two names is not turned round", world.text() === "base abcd" && agree(world), `${world.text()}, ${ann.shown}`);
  ann.type(9, 0, " once");
  await world.until(() => world.text() === "base abcd once", 2 * SECOND);
  world.network.of(ann).break(0, true);
  await world.advance(SECOND);
  await world.settle();
  tell("and what was made under the second name is found", world.text() === "base abcd once" && agree(world), world.text());
  world.end();
}

// ---- connections

async function crowded() {
  const world = new World({ present: 2 }), [ann, bob] = await world.open("base ", "ann", "bob");
  for (const page of [ann, bob]) world.network.of(page).break(30 * SECOND, true);
  ann.type(5, 0, "words");
  await world.settle();
  tell("a pad that is crowded by dead visits is joined later", !ann.faults.length && world.text() === "base words" && agree(world), `${ann.faults} ${world.text()}`);
  world.end();
}

async function heldEdit() {
  for (const seconds of [3, 16, 60]) {
    const world = new World(), [ann, bob] = await world.open("base ", "ann", "bob");
    ann.type(5, 0, "motion carried ");
    await world.until(() => ann.session.pad.flight, 2 * SECOND);
    world.network.of(ann).break(seconds * SECOND, false);
    await world.advance(SECOND);
    bob.type(0, 0, "bob's ");
    await world.advance((seconds + 5) * SECOND);
    await world.settle();
    tell(`an edit that the network holds for ${seconds} s is made once`, world.text() === "bob's base motion carried " && agree(world), world.text());
    world.end();
  }
}

async function heldThrice() {
  const world = new World(), [ann] = await world.open("base ", "ann");
  ann.type(5, 0, "once ");
  await world.until(() => ann.session.pad.flight, 2 * SECOND);
  world.network.of(ann).break(40 * SECOND, false);
  for (let k = 0; k < 3; k++) { await world.advance(6 * SECOND); world.network.of(ann)?.break(0, true); }
  await world.advance(45 * SECOND);
  await world.settle();
  tell("also where the connection breaks again meanwhile", world.text() === "base once " && agree(world), world.text());
  world.end();
}

async function silence() {
  const world = new World(), [ann] = await world.open("base ", "ann"), { network } = world;
  network.isSilent = true;
  network.of(ann).break(0, true);
  await world.advance(3 * SECOND);
  network.isSilent = false;
  tell("a connection that nobody answers is given up within 10 s", await world.until(() => ann.session.state === "saved", 10 * SECOND), ann.session.state);
  network.isSilent = true;
  network.of(ann).break(0, true);
  await world.advance(3 * SECOND);
  network.isSilent = false;
  ann.session.hurry?.();
  tell("and at once when the browser is online again", await world.until(() => ann.session.state === "saved", SECOND), ann.session.state);
  world.end();
}

async function deadNetwork() {
  const world = new World(), [ann] = await world.open("base ", "ann");
  world.network.of(ann).hold(600 * SECOND);
  ann.type(5, 0, "x");
  await world.advance(SECOND);
  tell("an edit that nobody answers is not saved", ann.session.state === "saving");
  tell("the dead network is noticed within 15 s", await world.until(() => ann.session.state === "lost", 15 * SECOND), ann.session.state);
  const other = new World(), [idle] = await other.open("base ", "ann");
  other.network.of(idle).hold(600 * SECOND);
  tell("also by a page that only reads, within 20 s", await other.until(() => idle.session.state === "lost", 20 * SECOND), idle.session.state);
  world.end();
  other.end();
}

function machineClock() {
  const { now } = Date, before = clock.now();
  Date.now = () => now() - 600 * SECOND;
  const after = clock.now();
  Date.now = now;
  tell("a clock of the machine that is set back changes no waiting", after >= before, `${after - before}`);
}

const TESTS = [
  twoPads, secondPadDenied, padAfterPad, halves, lengthDiffers, textDiffers, answerMisfits, otherPast, otherPastSameText, otherNumber, twoNames,
  crowded, heldEdit, heldThrice, silence, deadNetwork, machineClock,
];
await tally.run(TESTS);
