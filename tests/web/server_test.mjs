// The page's modules against a real server, with connections that break:
//
//     node tests/web/server_test.mjs PORT|ws://ADDR/socket [SECONDS]
//
// They reach it over TCP, or over a WebSocket. The
// server's accounts are `author ann tann`, `author bob tbob` and `author cid tcid`. The last line is `N passed, M failed`.
import { pause } from "../../clients/js/src/clock.js";
import { PACE } from "../../clients/js/src/sync.js";
import { dice as makeDice } from "./dice.mjs";
import { Tally, areSettled, fragile, freshCharacters, openPage, runsOf, spotsOf, until } from "./pages.mjs";
import { connections, tcp } from "./tcp.mjs";
import { webSocket } from "./websocket.mjs";

const [address, seconds = "15"] = process.argv.slice(2), isSocket = address.startsWith("ws:");
const sent = isSocket ? { lines: 0 } : connections, open = isSocket ? webSocket(address, sent) : tcp(address);
const WHO = ["ann", "bob", "cid"], FAST = { gather: 30, rest: 0, wait: 25 };
const tally = new Tally(), { tell } = tally;

function page(k, pad, how, pace = FAST, through = open) {
  const name = WHO[k % 3];
  return openPage({ open: through, name, token: `t${name}`, pad, how, pace });
}

async function grantAll(owner) {
  for (const name of WHO) if (name !== owner.session.name) await owner.session.grant(name, "write");
}

// The longest that a crowd goes on, on a machine that is too busy to break enough in the time that was asked for.
const LONGEST = 180;

// Six windows of three authors type, and their connections break: at any time, or right behind an edit.
async function crowd(name, seed, isErasing) {
  const dice = makeDice(seed), pad = `crowd-${process.pid}-${seed}`, typed = [], stats = { breaks: 0, lost: 0 };
  const fresh = freshCharacters(), through = fragile(open, stats), pages = [await page(0, pad, "create", FAST, through)];
  await grantAll(pages[0]);
  for (let k = 1; k < 6; k++) pages.push(await page(k, pad, "join", FAST, through));
  const begun = Date.now(), made = () => Math.max(...pages.map((one) => one.session.pad?.now ?? 0));
  const isEnough = () => stats.breaks >= 5 && stats.lost >= 3 && made() >= 50;
  const goesOn = () => Date.now() < begun + 1000 * (isEnough() ? Number(seconds) : LONGEST);
  await Promise.all(pages.map(async (one) => {
    while (goesOn()) {
      await pause(dice(80));
      const spots = spotsOf(one.session.pad.text), from = dice(3) ? Math.min(spots.length - 1, dice(12)) : dice(spots.length);
      const to = isErasing && !dice(3) ? Math.min(spots.length - 1, from + dice(5)) : from;
      let text = "";
      if (from === to || dice(2)) for (let n = dice(4); n >= 0; n--) text += fresh();
      typed.push(...text);
      one.type(spots[from], spots[to] - spots[from], text);
      const channel = dice(25) ? null : one.session.wire?.channel;
      if (!channel) continue;
      stats.breaks++;
      if (dice(2)) channel.breaksBehindEdit = true; else channel.socket.destroy();
    }
  }));
  const settled = await until(() => areSettled(pages), 30000), { session } = pages[0];
  const { text, now } = await session.pad.call({ do: "text" }), { cells } = await session.pad.call({ do: "revs" });
  const { runs } = await session.pad.call({ do: "runs", rev: now });
  tell(`${name}: all pages end`, settled && pages.every(({ faults }) => !faults.length), `${now} edits, ${stats.breaks} broken connections, ${stats.lost} lost answers`);
  tell(`${name}: all pages show the server's text`, pages.every((one) => one.shown === text && one.session.pad.text === text), `${text.length} units`);
  tell(`${name}: with its authors`, pages.every((one) => JSON.stringify(runsOf(one)) === JSON.stringify(runs)), `${runs.length} runs`);
  if (isErasing) tell(`${name}: no character is there twice`, new Set(text).size === [...text].length);
  else {
    const isSame = [...text].sort().join("") === typed.sort().join("");
    tell(`${name}: each typed character was made exactly once`, cells === typed.length && isSame, `${typed.length} typed, ${cells} made`);
  }
  tell(`${name}: there were enough breaks, lost answers and edits`, isEnough(), `${stats.breaks}, ${stats.lost}, ${now}`);
  for (const one of pages) one.session.logOut();
}

async function comments() {
  const pad = `comments-${process.pid}`, ann = await page(0, pad, "create");
  await grantAll(ann);
  const bob = await page(1, pad, "join");
  ann.type(0, 0, "one 🙂 two three");
  await ann.session.comment(7, 10, "which two?");
  const words = ({ session }) => session.comments.list.map(({ from, to, isResolved }) => `${session.pad.text.slice(from, to)} ${isResolved}`).join();
  tell("a comment is on its words in another window", await until(() => words(bob) === "two false"), words(bob));
  bob.type(0, 0, "🙂 zero ");
  tell("and stays there while others type before it", words(bob) === "two false" && await until(() => ann.shown.startsWith("🙂") && words(ann) === "two false"), words(ann));
  await bob.session.resolve(bob.session.comments.list[0].name);
  tell("it is resolved", await until(() => words(ann) === "two true"), words(ann));
  ann.session.moveCaret(3);
  bob.session.moveCaret(11);
  const caretOf = (one) => one.session.presence.others[0]?.at;
  tell("carets are seen, in units", await until(() => caretOf(ann) === 11 && caretOf(bob) === 3), `${caretOf(ann)}, ${caretOf(bob)}`);
  bob.type(0, 0, "ab");
  tell("and move with the text at once", caretOf(bob) === 5 && await until(() => caretOf(ann) === 13, 1500), `${caretOf(ann)}, ${caretOf(bob)}`);
  const undone = ann.session.pad.undo();
  tell("undo takes back one's own words only", undone && await until(() => bob.shown === "ab🙂 zero "), bob.shown);
  bob.session.logOut();
  tell("coming and going is told", await until(() => ann.said.join() === "bob@1 came,bob@1 went"), ann.said.join());
  ann.session.logOut();
}

async function rights() {
  const pad = `rights-${process.pid}`, ann = await page(0, pad, "create");
  await ann.session.grant("bob", "write");
  const bob = await page(1, pad, "join");
  tell("pads lists the pad with its right", (await bob.session.pads()).some(({ name, right }) => name === pad && right === "write"));
  ann.type(0, 0, "kept");
  await until(() => bob.shown === "kept");
  await ann.session.grant("bob", "read");
  bob.type(4, 0, " lost");
  tell("words without a right come back to their author", await until(() => bob.refusals.join() === "312, lost" && bob.shown === "kept"), `${bob.refusals.join()} ${bob.shown}`);
  tell("and the page knows its right", await until(() => bob.session.right === "read"), bob.session.right);
  await ann.session.goOnIn(`${pad}-2`, `Continues ${pad}.`);
  tell("a pad goes on in a new one", ann.session.pad.text === `Continues ${pad}.\n\nkept` && ann.session.rights.join() === "ann,own,bob,read", ann.session.pad.text);
  bob.session.logOut();
  ann.session.logOut();
}

async function quiet() {
  const pad = `quiet-${process.pid}`, pages = [await page(0, pad, "create", PACE)];
  await grantAll(pages[0]);
  for (let k = 1; k < 3; k++) pages.push(await page(k, pad, "join", PACE));
  await pause(2000);
  const before = sent.lines, from = Date.now();
  await pause(8000);
  const rate = (sent.lines - before) / 3 / ((Date.now() - from) / 1000);
  tell("a page sends at most three lines a second while nobody types", rate <= 3, `${rate.toFixed(2)} a second`);
  const rev = pages[0].session.pad.rev, start = Date.now();
  for (let k = 0; k < 60; k++) { pages[0].type(k, 0, "x"); await pause(50); }
  await until(() => pages[0].session.state === "saved");
  const edits = pages[0].session.pad.rev - rev, most = Math.ceil((Date.now() - start) / 500) + 1;
  tell("typing sends at most two edits a second", edits <= most && edits > 2, `${edits} edits for 60 letters in ${Date.now() - start} ms`);
  for (const one of pages) one.session.logOut();
}

await comments();
await rights();
await crowd("insertions", 1, false);
await crowd("with erasing", 2, true);
await quiet();
tally.end();
