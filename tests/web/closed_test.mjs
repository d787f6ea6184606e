// Sessions of the library before a real server, on pads that an owner closes and opens again:
//
//     node tests/web/closed_test.mjs PORT|ws://ADDR/socket
//
// They reach it over TCP, or over a WebSocket. The server's accounts are those of server_test.mjs: `author ann tann`, `author bob tbob`
// and `author cid tcid`. The last line is `N passed, M failed`.
import { PadClosed } from "../../clients/js/src/errors.js";
import { Session } from "../../clients/js/src/session.js";
import { Tally, openPage, until } from "./pages.mjs";
import { tcp } from "./tcp.mjs";
import { webSocket } from "./websocket.mjs";

const [address] = process.argv.slice(2), isSocket = address.startsWith("ws:"), FAST = { gather: 30, rest: 0, wait: 25 };
const open = isSocket ? webSocket(address, { lines: 0 }) : tcp(address), tally = new Tally(), { tell } = tally;
const page = (name, pad, how) => openPage({ open, name, token: `t${name}`, pad, how, pace: FAST });
const code = (promise) => promise.then(() => null, (error) => error.code ?? error.name);
const textOf = async ({ session }) => (await session.pad.call({ do: "text" })).text;
let pads = 0;

// Pages of the owner and of others with these rights, on a pad of their own with a text.
async function begin(rights) {
  const pad = `closed-${process.pid}-${pads++}`, ann = await page("ann", pad, "create"), out = { pad, ann, all: [ann] };
  ann.type(0, 0, "one ");
  await ann.session.saved();
  for (const name in rights) {
    await ann.session.grant(name, rights[name]);
    out.all.push(out[name] = await page(name, pad, "join"));
  }
  return out;
}
const end = ({ all }) => { for (const { session } of all) session.logOut(); };

async function closes() {
  const given = await begin({ bob: "write" }), { ann, bob, pad } = given, states = [];
  bob.session.on("state", () => { if (states[states.length - 1] !== bob.session.state) states.push(bob.session.state); });
  await ann.session.close();
  tell("an owner knows that the pad is closed", ann.session.isClosed && ann.session.state === "saved" && !ann.session.mayWrite && !ann.session.mayComment);
  tell("and stays", (await textOf(ann)) === "one ");
  tell("to close it again is no error", (await code(ann.session.close())) === null && ann.session.isClosed);
  bob.type(4, 0, "two ");
  const commented = bob.session.comment(0, 3, "why?").then(() => "made", (error) => error.message);
  tell("who may not own it is told", await until(() => bob.session.state === "closed") && bob.session.isClosed && !bob.session.mayWrite, bob.session.state);
  tell("keeps what was typed", bob.shown === "one two " && bob.session.pad.text === bob.shown && bob.session.isUnsent && !bob.session.kept.text && !bob.refusals.length, bob.shown);
  tell("which the server does not have", (await textOf(ann)) === "one ");
  tell("the list says that it is closed", (await ann.session.pads()).find(({ name }) => name === pad)?.isClosed === true);
  bob.session.hurry();
  await until(() => false, 700);
  tell("who asks again is told again", bob.session.state === "closed" && !bob.session.isOver, bob.session.state);
  await ann.session.reopen();
  tell("an owner opens it again", !ann.session.isClosed && ann.session.mayWrite);
  bob.session.hurry();
  tell("who was put out goes on", await until(() => bob.session.state === "saved" && bob.session.mayWrite), bob.session.state);
  tell("what was typed comes once", await until(() => ann.shown === "one two ") && (await textOf(ann)) === "one two " && bob.shown === ann.shown, ann.shown);
  tell("so does a comment", (await commented) === "made" && ann.session.comments && await until(async () => (await ann.session.pad.call({ do: "comments" })).comments.length === 1));
  tell("the states were told", states.includes("closed") && !states.includes("lost"), states.join());
  end(given);
}

async function ownersAreRefused() {
  const given = await begin({ cid: "own" }), { ann, cid } = given;
  await ann.session.close();
  cid.type(0, 0, "zero ");
  const said = await code(cid.session.comment(5, 8, "a remark"));
  tell("what another owner types then is refused and kept", await until(() => cid.refusals.some(([one]) => one === 330)) && cid.session.kept.text.includes("zero ") && cid.shown === "one ", cid.session.kept.text);
  tell("so is a comment", said === 330 && cid.session.kept.text.includes("a remark"), cid.session.kept.text);
  tell("and the owner knows why", await until(() => cid.session.isClosed) && cid.session.state === "saved" && cid.session.right === "own");
  tell("no right is changed", (await code(ann.session.grant("bob", "read"))) === 330 && (await code(ann.session.hand("cid"))) === 330);
  await cid.session.reopen();
  cid.type(0, 0, "zero ");
  tell("another owner opens it, and types", await until(() => ann.shown === "zero one "), ann.shown);
  end(given);
}

async function whoComes() {
  const given = await begin({ bob: "write" }), { ann, bob, pad } = given;
  await ann.session.close();
  await until(() => bob.session.state === "closed");
  const other = new Session({ open, pace: FAST });
  await other.logIn("bob", "tbob");
  const error = await other.join(pad).catch((one) => one);
  tell("a closed pad opens for owners alone", error instanceof PadClosed && error.name === "PadClosed" && error.code === 330, String(error));
  tell("its name stays taken", (await code(other.create(pad))) === 301);
  const isClosed = async () => (await ann.session.pads()).find(({ name }) => name === pad).isClosed;
  tell("who may not own it cannot open it", (await code(other.call({ do: "reopen", pad }))) === 310 && (await isClosed()));
  await ann.session.reopen();
  tell("once it is open, the same connection joins it", (await other.join(pad)).text === "one ");
  tell("who writes may not close it", (await code(other.close())) === 312 && !other.isClosed);
  other.logOut();
  end(given);
}

// A pad that is left before the session knows that its visit has ended.
async function leftBefore() {
  const given = await begin({ bob: "write" }), { ann, bob, pad } = given;
  await ann.session.close();
  await bob.session.leave();
  tell("who left it meanwhile has a list", (await bob.session.pads()).find(({ name }) => name === pad)?.isClosed === true);
  tell("and is told by a join, over another connection", (await code(bob.session.join(pad))) === 330, bob.session.state);
  await ann.session.reopen();
  tell("and joins it when it is open", (await bob.session.join(pad)).text === "one ");
  await ann.session.close();
  await until(() => bob.session.state === "closed");
  const next = `${pad}-next`;
  tell("who was put out can open another pad", (await bob.session.create(next)).name === next && bob.session.state === "saved" && !bob.session.isClosed, bob.session.state);
  end(given);
}

await closes();
await ownersAreRefused();
await whoComes();
await leftBefore();
tally.end();
