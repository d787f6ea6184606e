// A pad that is closed at a bad moment: while somebody opens it, works without a connection, or logs out. Pages over a simulated
// network, in simulated time.
//
//     node tests/web/closed_late_test.mjs
//
// The last line is `N passed, M failed`.
import { Disk } from "./memory_store.mjs";
import { Tally } from "./pages.mjs";
import { World, agree } from "./world.mjs";

const tally = new Tally(), { tell } = tally, SECOND = 1000;

// Ann has typed without a connection, and her page is gone. What it kept is opened again, and meanwhile bob has closed the pad.
async function loggedInLater() {
  const world = new World({}), [bob] = await world.open("one two", "bob"), disk = new Disk(world.clock, () => 5);
  await world.clock.finish(bob.session.grant("ann", "write"));
  const ann = await world.page("ann", "p", { store: disk.window() });
  world.network.isDown = true;
  world.network.of(ann).break(0, true);
  await world.advance(SECOND);
  ann.type(ann.shown.length, 0, " three");
  await world.advance(SECOND);
  world.kill(ann);
  world.network.isDown = false;
  await world.clock.finish(bob.session.close());
  const [note] = [...disk.notes.values()], page = await world.page("ann", "p", { store: disk.window(), note: note.id }), { session } = page;
  await world.clock.finish(session.logInAgain("tann").catch(() => {}));
  tell("who logs in where a kept pad was closed is told", session.state === "closed" && session.isClosed && !session.mayWrite, session.state);
  tell("and keeps what was typed", page.shown === "one two three" && session.isUnsent, page.shown);
  await world.clock.finish(bob.session.reopen());
  await world.advance(120 * SECOND);
  tell("which is sent once the pad is open again", session.state === "saved" && world.text() === "one two three", `${session.state}: ${world.text()}`);
  world.end();
}

async function loggedOut() {
  const world = new World({}), [bob, ann] = await world.open("x", "bob", "ann"), { session } = ann;
  await world.clock.finish(bob.session.close());
  await world.until(() => session.state === "closed");
  session.logOut();
  await world.advance(100);
  await world.clock.finish(bob.session.reopen());
  await world.clock.finish(session.logIn("ann", "tann"));
  await world.clock.finish(session.join("p"));
  tell("after a log-out, the pad is as it is", session.state === "saved" && !session.isClosed, session.state);
  world.network.isDown = true;
  world.network.of(ann).break(0, true);
  await world.advance(SECOND);
  tell("and a connection that breaks is no closing", session.state === "lost", session.state);
  world.end();
}

// The pad is closed at each moment of its opening: whoever opens it has it and is put out, or is told that it is closed.
async function opened() {
  for (let after = 0; after <= 120; after += 10) {
    const world = new World({ delay: 20 }), [bob] = await world.open("one", "bob");
    await world.clock.finish(bob.session.grant("ann", "write"));
    const ann = await world.page("ann", null), joined = ann.session.join("p").then(() => "open", (error) => error.name);
    await world.advance(after);
    await world.clock.finish(bob.session.close());
    const said = await world.clock.finish(joined);
    await world.advance(15 * SECOND);
    const { state } = ann.session;
    tell(`closed ${after} ms after somebody began to open it`, said === "PadClosed" || (said === "open" && state === "closed"), `${said}, ${state}`);
    world.end();
  }
}

// Another owner has a comment refused, and so learns that the pad is closed.
async function commented() {
  const world = new World({}), [bob] = await world.open("one two", "bob");
  await world.clock.finish(bob.session.grant("ann", "own"));
  const ann = await world.page("ann", "p"), { session } = ann;
  await world.settle();
  await world.clock.finish(bob.session.close());
  const said = await world.clock.finish(session.comment(0, 3, "a remark").then(() => "made", (error) => error.code));
  await world.advance(15 * SECOND);
  tell("an owner whose comment is refused learns why", said === 330 && session.isClosed && !session.mayComment, `${said}, ${session.isClosed}`);
  tell("and keeps its words", session.kept.text.includes("a remark"), session.kept.text);
  await world.clock.finish(bob.session.reopen());
  await world.advance(20 * SECOND);
  tell("and that it is open again", !session.isClosed && session.mayWrite && agree(world), session.state);
  world.end();
}

await tally.run([loggedInLater, loggedOut, opened, commented]);
