// What is typed outlives the page: drafts in a store of the browser, over a simulated network and in simulated time.
//
//     node tests/web/drafts_test.mjs
//
// The last line is `N passed, M failed`.
import { wordsOf } from "../../clients/js/src/drafts.js";
import { Disk } from "./memory_store.mjs";
import { Tally } from "./pages.mjs";
import { World, agree, kept } from "./world.mjs";

const tally = new Tally(), { tell } = tally, SECOND = 1000;

// Bob's pad, on which ann may write, and a page of ann's whose browser has a disk.
async function begin(text, { delay, store = 5 } = {}) {
  const world = new World({ delay }), [bob] = await world.open(text, "bob"), disk = new Disk(world.clock, () => store);
  await world.clock.finish(bob.session.grant("ann", "write"));
  return { world, bob, disk, ann: await world.page("ann", "p", { store: disk.window() }) };
}

const again = (world, disk, name = "ann", more = {}) => world.page(name, "p", { store: disk.window(), ...more });
const notes = (disk) => [...disk.notes.values()];

async function offline({ world }, page) {
  world.network.isDown = true;
  world.network.of(page).break(0, true);
  await world.advance(SECOND);
}

async function typedOffline() {
  const { world, bob, disk, ann } = await begin("one two");
  await offline({ world }, ann);
  for (const letter of " three") { ann.type(ann.shown.length, 0, letter); await world.advance(50); }
  ann.type(0, 4, "");
  await world.advance(50);
  tell("what is typed offline is not called saved", ann.session.state === "lost" && ann.session.drafts.areKept, ann.session.state);
  world.kill(ann);
  bob.type(7, 0, "!");
  world.network.isDown = false;
  await world.settle();
  const next = await again(world, disk);
  tell("the next page shows it at once, and not as saved", next.shown.includes("two three") && next.session.isUnsent, `${next.shown} ${next.session.state}`);
  await world.settle();
  tell("and merges it as if the connection had been away", world.text() === "two three!" && agree(world), world.text());
  tell("as the author's own words", JSON.stringify(world.model().runs(world.model().now)) === '[["bob@1",3],["ann@1",6],["bob@1",1]]', JSON.stringify(world.model().runs(world.model().now)));
  next.shown = "";
  next.session.pad.undo();
  next.shown = next.session.pad.text;
  await world.settle();
  tell("which one step undoes", world.text() === "one two!" && agree(world), world.text());
  await world.advance(SECOND);
  tell("nothing is unsent then", notes(disk).every(({ isUnsent }) => !isUnsent));
  world.end();
}

// The page ends when its edit is under way: before it is sent, before it arrives, or before its answer does.
async function killedWhileSending() {
  for (const [name, wait, lost] of [["before it is kept", 0, true], ["before it is sent", 7, true], ["before it arrives", 30, true], ["while it arrives", 30, false], ["before its answer", 45, false]]) {
    const { world, bob, disk, ann } = await begin("base ", { delay: 20 });
    await world.advance(2 * SECOND);
    bob.type(0, 0, "B");
    await world.settle();
    ann.type(ann.shown.length, 0, "motion carried");
    await world.advance(wait);
    const isKept = notes(disk).some(({ isUnsent }) => isUnsent);
    world.kill(ann, lost ? 0 : 3 * SECOND, lost);
    const next = await again(world, disk);
    await world.advance(10 * SECOND);
    await world.settle();
    const times = world.text().split("motion carried").length - 1;
    tell(`an edit of a page that ends ${name} is made once, if it was kept`, times === 1 || (!isKept && times === 0), `${isKept} ${world.text()}`);
    tell("and all agree", agree(world) && next.session.state === "saved", next.shown);
    world.end();
  }
}

// An edit that no other page could know of is not sent.
async function keptBeforeSent() {
  const { world, disk, ann } = await begin("base ", { store: 400 });
  await world.advance(2 * SECOND);
  ann.type(5, 0, "words");
  await world.advance(300);
  tell("an edit is sent only when it is kept", world.text() === "base ", world.text());
  await world.advance(600);
  tell("and then", world.text() === "base words", world.text());
  world.end();
  const slow = await begin("base ", { store: 60 * SECOND });
  slow.ann.type(5, 0, "words");
  await slow.world.advance(5 * SECOND);
  tell("but a store that does not answer stops nobody", slow.world.text() === "base words", slow.world.text());
  slow.world.end();
}

const stretch = (page, words) => {
  const from = page.session.pad.text.indexOf(words);
  return [from, from + words.length];
};
const made = (world) => {
  const model = world.model(), cells = [...world.text()];
  return model.comments(model.now).map(({ at, len, text }) => `${text} on ${cells.slice(at, at + len).join("")}`).sort().join("; ");
};

async function comments() {
  for (const [name, wait, isLost] of [["offline", null, true], ["before it is sent", 2, true], ["before its answer", 40, false]]) {
    const { world, bob, disk, ann } = await begin("alpha beta", { delay: 20 });
    await world.advance(2 * SECOND);
    if (wait === null) await offline({ world }, ann);
    ann.session.comment(...stretch(ann, "beta"), "why").catch(() => {});
    await world.advance(wait ?? SECOND);
    const isKept = notes(disk).some(({ comments }) => comments.length);
    world.kill(ann, isLost ? 0 : 2 * SECOND, isLost);
    bob.type(0, 0, "first ");
    world.network.isDown = false;
    const next = await again(world, disk);
    await world.advance(10 * SECOND);
    await world.settle();
    tell(`a comment of a page that ends ${name} is made once`, made(world) === "why on beta" || (!isKept && made(world) === ""), `${isKept} ${made(world)}`);
    tell("and nothing is left of it", next.session.state === "saved" && !kept(next), next.session.state);
    world.end();
  }
}

async function otherPast() {
  const { world, bob, disk, ann } = await begin("one two three", { delay: 20 });
  await offline({ world }, ann);
  ann.type(0, 0, "lost words ");
  await world.advance(SECOND);
  world.kill(ann);
  world.kill(bob);
  const model = world.model();
  model.restore(0);
  model.edit("zed@1", 0, [{ at: 0, text: "another pad" }]);
  world.network.isDown = false;
  const next = await again(world, disk);
  await world.settle();
  tell("words that belong to another pad are offered to be copied", kept(next) === "lost words " && next.session.kept.areWaiting, JSON.stringify(kept(next)));
  tell("and not put into this one", world.text() === "another pad" && agree(world), world.text());
  world.kill(next);
  const third = await again(world, disk);
  await world.advance(2 * SECOND);
  tell("also by the page after that", kept(third) === "lost words ", JSON.stringify(kept(third)));
  third.session.kept.clear();
  await world.advance(SECOND);
  world.kill(third);
  const fourth = await again(world, disk);
  await world.advance(2 * SECOND);
  tell("until the author dismisses them", kept(fourth) === "", kept(fourth));
  world.end();
}

async function lostRight() {
  const { world, bob, disk, ann } = await begin("base ", { delay: 20 });
  await offline({ world }, ann);
  ann.type(5, 0, "a decision");
  await world.advance(SECOND);
  world.kill(ann);
  world.network.isDown = false;
  await world.settle();
  await world.clock.finish(bob.session.grant("ann", "read"));
  const next = await again(world, disk);
  await world.advance(5 * SECOND);
  tell("words for which there is no right any more are kept for their author", kept(next) === "a decision" && world.text() === "base ", JSON.stringify([kept(next), world.text()]));
  world.kill(next);
  await world.clock.finish(bob.session.grant("ann", "none"));
  const session = (await world.page("ann", null, { store: disk.window() })).session;
  const error = await world.clock.finish(session.join("p").then(() => null, (reason) => reason));
  const words = (await world.clock.finish(session.drafts.take("p"))).flatMap(wordsOf);
  tell("and can be had where the pad cannot be opened", error?.code === 312 && words.join() === "a decision", `${error} ${words}`);
  world.end();
}

async function twoWindows() {
  const { world, bob, disk, ann } = await begin("base ", { delay: 20 }), other = await world.page("ann", "p", { store: disk.window() });
  await world.advance(2 * SECOND);
  world.network.isDown = true;
  for (const page of [ann, other, bob]) world.network.of(page).break(0, true);
  await world.advance(SECOND);
  ann.type(5, 0, "from one");
  other.type(0, 0, "from two ");
  other.session.comment(...stretch(other, "base"), "remark").catch(() => {});
  await world.advance(SECOND);
  world.kill(ann);
  world.kill(other);
  world.network.isDown = false;
  await world.advance(8 * SECOND);
  const next = await again(world, disk);
  await world.advance(5 * SECOND);
  await world.settle();
  tell("what two windows had not sent is merged", world.text() === "from two base from one" && agree(world), world.text());
  tell("with their comments", made(world) === "remark on base", made(world));
  tell("and nothing of it is kept any more", notes(disk).every(({ isUnsent }) => !isUnsent) && !kept(next), JSON.stringify(notes(disk).map(({ id, isUnsent }) => [id, isUnsent])));
  world.end();
}

// The connection breaks again while the second window's words are sent.
async function brokenMerge() {
  for (const wait of [60, 100, 140, 180, 300]) {
    const { world, bob, disk, ann } = await begin("base ", { delay: 20 }), other = await world.page("ann", "p", { store: disk.window() });
    world.network.isDown = true;
    for (const page of [ann, other, bob]) world.network.of(page).break(0, true);
    await world.advance(SECOND);
    ann.type(5, 0, "[one]");
    other.type(0, 0, "[two] ");
    await world.advance(SECOND);
    world.kill(ann);
    world.kill(other);
    world.network.isDown = false;
    await world.advance(8 * SECOND);
    const next = await again(world, disk);
    await world.advance(wait);
    world.network.of(next)?.break(2 * SECOND, wait % 40 === 0);
    await world.advance(10 * SECOND);
    await world.settle();
    tell(`a connection that breaks ${wait} ms after that doubles nothing`, world.text() === "[two] base [one]" && agree(world), world.text());
    world.end();
  }
}

async function others() {
  const { world, bob, disk, ann } = await begin("base ", { delay: 20 });
  await offline({ world }, ann);
  ann.type(5, 0, "ann's words");
  await world.advance(SECOND);
  world.network.isDown = false;
  const living = await world.page("ann", "p", { store: disk.window() });
  tell("a page that is alive keeps its words to itself", !living.shown.includes("ann's words"), living.shown);
  world.kill(living);
  world.network.isDown = true;
  world.kill(ann);
  world.network.isDown = false;
  await world.clock.finish(bob.session.grant("cyd", "write"));
  const cyd = await again(world, disk, "cyd");
  await world.advance(3 * SECOND);
  tell("another author of this browser does not get them", !cyd.shown.includes("ann's") && !kept(cyd), cyd.shown);
  world.end();
}

// A pad is opened without a connection.
async function openedOffline() {
  const { world, bob, disk, ann } = await begin("one two", { delay: 20 });
  ann.type(7, 0, " three");
  await world.settle();
  await world.advance(6 * SECOND);
  await offline({ world }, ann);
  ann.type(0, 0, "typed, ");
  await world.advance(SECOND);
  world.kill(ann);
  bob.type(0, 0, "zero ");
  const [{ id }] = notes(disk), next = await world.page("ann", "p", { store: disk.window(), note: id });
  tell("a pad that was open is shown without a connection", next.shown === "typed, one two three" && next.session.state === "lost" && next.session.mayWrite, `${next.shown} ${next.session.state}`);
  next.type(0, 0, "and more, ");
  await world.advance(SECOND);
  world.kill(next);
  const third = await world.page("ann", "p", { store: disk.window(), note: id });
  third.type(0, 0, "then, ");
  tell("and can be typed into, again and again", third.shown === "then, and more, typed, one two three", third.shown);
  world.network.isDown = false;
  await world.advance(3 * SECOND);
  tell("nothing is sent before a log-in", world.text() === "zero one two three", world.text());
  const error = await world.clock.finish(third.session.logInAgain("wrong").then(() => null, ({ code }) => code));
  tell("a wrong token is refused, and everything stays", error === 201 && third.shown.startsWith("then, ") && third.session.isUnsent, `${error}`);
  await world.clock.finish(third.session.logInAgain("tann"));
  await world.settle();
  tell("it is merged then", world.text() === "then, and more, typed, zero one two three" && agree(world), world.text());
  world.end();
}

// A page that was asleep comes back after another one has taken its words.
async function taken() {
  const { world, disk, ann } = await begin("base ", { delay: 20 });
  await offline({ world }, ann);
  ann.type(5, 0, "words");
  await world.advance(100);
  const { open } = ann.session;
  ann.session.open = () => ({ listen() {}, send() {}, close() {} });
  disk.alive.delete(ann.store.window);
  world.network.isDown = false;
  const next = await again(world, disk);
  await world.advance(3 * SECOND);
  disk.alive.add(ann.store.window);
  ann.session.open = open;
  ann.type(0, 0, "more ");
  await world.advance(20 * SECOND);
  tell("words that another page has taken are sent by that one alone", world.text() === "base words" && next.shown === "base words", world.text());
  tell("and the page that wakes is told so", ann.faults.map(({ name }) => name).join() === "Taken", ann.faults.join());
  world.end();
}

async function renumbered() {
  const { world, disk, ann } = await begin("base ", { delay: 20 });
  await world.advance(2 * SECOND);
  ann.type(5, 0, "words");
  await world.advance(30);
  world.kill(ann, 200, false);
  await world.advance(300);
  world.network.kill();
  world.network.start(2);
  await world.advance(3 * SECOND);
  const next = await again(world, disk);
  next.type(0, 0, "more ");
  await world.settle();
  tell("an edit is known again under another number of the server", world.text() === "more base words" && agree(world), world.text());
  world.end();
}

async function givenUp() {
  const { world, disk, ann } = await begin("base ", { delay: 20 });
  await offline({ world }, ann);
  ann.type(5, 0, "words");
  await world.advance(SECOND);
  await world.clock.finish(ann.session.leave(true));
  world.kill(ann);
  world.network.isDown = false;
  const next = await again(world, disk);
  await world.advance(2 * SECOND);
  tell("words that an author has given up do not come back", next.shown === "base " && !kept(next), next.shown);
  world.end();
}

const RUNS = '[["bob@1",7],["ann@1",6]]';
const runsOf = async (world, { session }) => JSON.stringify((await world.clock.finish(session.pad.call({ do: "runs" }))).runs);

// What ann has kept is opened where another author is logged in, as at the door of a guest whose pad did not open.
async function openedByAnother() {
  const { world, bob, disk, ann } = await begin("one two");
  await world.clock.finish(bob.session.grant("cid", "write"));
  await offline({ world }, ann);
  ann.type(ann.shown.length, 0, " three");
  await world.advance(SECOND);
  world.kill(ann);
  world.network.isDown = false;
  const [note] = [...disk.notes.values()], cid = await world.page("cid", null, { store: disk.window() }), { session } = cid;
  await offline({ world }, cid);
  await world.clock.finish(session.openKept(note.id));
  tell("a kept pad that is opened beside a log-in is nobody's at first", session.login === null && session.isAway && session.name === "ann" && session.pad.text === "one two three", session.me);
  world.network.isDown = false;
  await world.advance(60 * SECOND);
  tell("nothing of it is sent by who was logged in", world.text() === "one two", world.text());
  await world.clock.finish(session.logInAgain("tann"));
  await world.advance(5 * SECOND);
  tell("its author sends it", session.state === "saved" && world.text() === "one two three" && (await runsOf(world, bob)) === RUNS, `${session.state}: ${await runsOf(world, bob)}`);
  world.end();
}

await tally.run([
  typedOffline, killedWhileSending, keptBeforeSent, comments, otherPast, lostRight, twoWindows, brokenMerge, others, openedOffline, taken,
  renumbered, givenUp, openedByAnother,
]);
