// Six pages of four authors before the real program, which is killed with SIGKILL and started again on its store, now and then
// under another number, each page behind a proxy of its own that delays, holds and cuts:
//
//     node tests/web/killed_test.mjs PROGRAM [SECONDS [SEED]]
//
// The last line is `N passed, M failed`.
import { spawn } from "node:child_process";
import fs from "node:fs";
import net from "node:net";
import os from "node:os";
import path from "node:path";
import { pause } from "../../clients/js/src/clock.js";
import { LIBRARY, loadLibrary } from "./copies.mjs";
import { Deeds } from "./deeds.mjs";
import { dice as makeDice } from "./dice.mjs";
import { Tally, openPage, until } from "./pages.mjs";
import { RoughProxy } from "./rough_proxy.mjs";
import { tcp } from "./tcp.mjs";

const [program, seconds = "60", seed = "1"] = process.argv.slice(2), SECOND = 1000, LONGEST_HOLD = 25;
const PADS = ["p0", "p1"], AUTHORS = ["ann", "bob", "cyd", "dan"], FAST = { gather: 60, rest: 20, wait: 25 };
const tally = new Tally(), { tell } = tally, dice = makeDice(Number(seed));
const seen = { held: 0, breaks: 0, cuts: 0, kills: 0, numbers: 0 };
// Six pages and two visits of connections that broke have room on a pad.
const ROOM = ["--present", "8", "--idle", "60"];

const freePort = () => new Promise((done) => {
  const server = net.createServer().listen(0, "127.0.0.1", () => {
    const { port } = server.address();
    server.close(() => done(port));
  });
});

// The program in a folder of its own.
class Server {
  constructor(folder, port) { Object.assign(this, { folder, port, process: null, replica: 1 }); }

  async start(isRenumbered = false) {
    if (isRenumbered) this.replica++;
    const words = ["--listen", `127.0.0.1:${this.port}`, "--replica", `${this.replica}`, "--accounts", "accounts", "--store", "store", ...ROOM];
    const child = spawn(program, isRenumbered ? [...words, "--new-replica"] : words, { cwd: this.folder, stdio: ["ignore", "pipe", "ignore"] });
    this.process = child;
    await new Promise((done, failed) => {
      child.stdout.once("data", done);
      child.once("exit", (status) => failed(new Error(`the program ended with ${status}`)));
      child.once("error", failed);
    });
  }

  async kill() {
    const ended = new Promise((done) => { this.process.once("exit", done); });
    this.process.kill("SIGKILL");
    await ended;
  }
}

async function openAll(port, modules) {
  const deeds = new Deeds({ dice, modules, padNames: PADS, isFull: true, pause });
  for (const name of [...AUTHORS, "ann", "bob"]) {
    const proxy = new RoughProxy(port, () => dice(4) * dice(100)), isOwner = !deeds.pages.length, address = await proxy.listen();
    const page = await openPage({ open: tcp(address), name, token: `t${name}`, pad: isOwner ? null : PADS[dice(2)], how: "join", pace: FAST });
    for (const pad of isOwner ? PADS : []) {
      await page.session.create(pad);
      for (const other of AUTHORS.slice(1)) await page.session.grant(other, "write");
    }
    if (isOwner) page.shown = "";
    deeds.add(Object.assign(page, { proxy }));
  }
  return deeds;
}

// What happens to a page's connection.
function disturb({ proxy, session }) {
  const deed = dice(70), { link } = proxy;
  if (!link) return;
  if (deed === 0) { seen.held++; link.hold(dice(LONGEST_HOLD) * SECOND); }
  if (deed === 1) { seen.breaks++; link.cut(dice(LONGEST_HOLD) * SECOND, false); }
  if (deed === 2) { seen.cuts++; link.cut(dice(10) * SECOND, true); }
  if (deed === 3) session.hurry();
}

async function killNowAndThen(server, end) {
  while (Date.now() < end) {
    await pause((5 + dice(10)) * SECOND);
    await server.kill();
    seen.kills++;
    await pause(dice(3) * SECOND);
    const isRenumbered = dice(3) === 0;
    if (isRenumbered) seen.numbers++;
    await server.start(isRenumbered);
  }
}

// What the server has of a pad, by a page on it.
async function readOf({ session: { pad } }) {
  const { text, now } = await pad.call({ do: "text" }), { runs } = await pad.call({ do: "runs", rev: now });
  return { text, now, runs, comments: (await pad.call({ do: "comments", rev: now })).comments };
}

const isCalm = (pages) => ({ session, isSwitching, wantsPad }) => {
  const others = pages.filter((one) => one.session.pad?.name === session.pad?.name);
  return !isSwitching && !wantsPad && session.pad && session.state === "saved" && others.every((one) => one.session.pad.rev >= session.pad.now);
};

async function compare(deeds) {
  const haves = new Map();
  for (const name of PADS) {
    if (!deeds.pages.some(({ session }) => session.pad.name === name)) await deeds.pages[0].session.join(name);
    haves.set(name, await readOf(deeds.pages.find(({ session }) => session.pad.name === name)));
    if (deeds.pages[0].session.pad.name === name) deeds.pages[0].shown = deeds.pages[0].session.pad.text;
  }
  const check = (name, act) => { try { act(); tell(name, true); } catch (error) { tell(name, false, error.message.slice(0, 2000)); } };
  check("all pages show the server's texts, authors and comments", () => {
    for (const page of deeds.pages) deeds.comparePage(page, haves.get(page.session.pad.name));
  });
  check("what was called saved and not erased is there once", () => deeds.compareLetters(new Map([...haves].map(([name, { text }]) => [name, text]))));
  check("each comment was made once", () => deeds.compareComments(new Map([...haves].map(([name, { comments }]) => [name, comments.map(({ text }) => text)]))));
  check("no page was read again", () => { if (deeds.pages.some(({ rereads }) => rereads)) throw new Error(deeds.pages.map(({ rereads }) => rereads).join()); });
}

async function play(server) {
  const deeds = await openAll(server.port, await loadLibrary(LIBRARY)), end = Date.now() + SECOND * Number(seconds), killing = killNowAndThen(server, end);
  while (Date.now() < end) {
    for (const page of deeds.pages) { deeds.act(page); deeds.look(page); disturb(page); }
    await pause(50 + dice(200));
  }
  await killing;
  const isEnded = await until(() => {
    for (const page of deeds.pages) deeds.look(page);
    return deeds.pages.every(isCalm(deeds.pages));
  }, 240 * SECOND);
  await pause(12 * SECOND); // comments are read again within ten seconds
  const late = deeds.pages.filter((page) => !isCalm(deeds.pages)(page)).map(({ session, faults }) => `${session.state} ${faults[0]?.message ?? ""}`);
  tell("all pages have sent everything and follow", isEnded && !late.length, late.join(", "));
  await compare(deeds);
  const all = { ...seen, ...deeds.seen };
  tell("there was enough of everything", seen.kills >= 2 && seen.held + seen.breaks + seen.cuts >= 5 && all.saved >= 500 && all.undone > 0 && all.switches > 0 && all.comments > 0,
    Object.entries(all).map(([key, n]) => `${n} ${key}`).join(", "));
  for (const { session } of deeds.pages) session.logOut();
}

const folder = fs.mkdtempSync(path.join(os.tmpdir(), "killed-")), server = new Server(folder, await freePort());
fs.writeFileSync(path.join(folder, "accounts"), AUTHORS.map((name) => `author ${name} t${name}\n`).join(""));
try {
  await server.start();
  await play(server);
} catch (error) {
  tell("the pages and the program", false, error.stack);
} finally {
  server.process?.kill("SIGKILL");
  fs.rmSync(folder, { recursive: true, force: true });
}
tally.end();
