// Many pages type on one pad over WebSockets, while its server exchanges the pad with a peer, on which an author types too:
//
//     node tests/web/crowd_test.mjs ws://ADDR/socket PEER_PORT [PAGES [SECONDS]]
//
// The server, number 1, has the accounts `author a0 ta0` and so on, one for each page; the peer has `author zed tzed`. The
// last line is `N passed, M failed`.
import { isDeepStrictEqual } from "node:util";
import { pause } from "../../clients/js/src/clock.js";
import { PACE } from "../../clients/js/src/sync.js";
import { dice as makeDice } from "./dice.mjs";
import { Tally, areSettled, commentsOf, freshCharacters, openPage, runsOf, spotsOf, until } from "./pages.mjs";
import { tcp } from "./tcp.mjs";
import { webSocket } from "./websocket.mjs";

const [address, peerPort, pageCount = "40", seconds = "60"] = process.argv.slice(2);
const PAD = "crowd", QUIET = 10, MOST_LINES = 3, SETTLE = 40000;
const tally = new Tally(), { tell } = tally, fresh = freshCharacters(), typed = [];
const stats = { erased: 0, unmade: 0, comments: 0 };

async function openAll() {
  const pages = [];
  for (let k = 0; k < Number(pageCount); k++) {
    const name = `a${k}`, count = { lines: 0 }, how = k ? "join" : "create";
    const one = await openPage({ open: webSocket(address, count), name, token: `t${name}`, pad: PAD, how, pace: PACE });
    if (!k) for (let other = 1; other < Number(pageCount); other++) await one.session.grant(`a${other}`, "write");
    pages.push(Object.assign(one, { count }));
  }
  return pages;
}

// How many of these characters, which are about to be erased, were never sent. On a busy machine much waits to be sent.
function unsentIn({ base, flight }, characters) {
  const sent = base + (flight ?? []).map((step) => step.insert ?? "").join("");
  return [...characters].filter((character) => !sent.includes(character)).length;
}

// A page that has met a fault, or whose words were refused. A comment is refused where its words were erased meanwhile.
const isRefused = ({ faults, refusals }) => faults.length > 0 || refusals.some(([code]) => code !== 322);

// An edit at a random place, and now and then a comment.
function act(one, dice) {
  const { session } = one, spots = spotsOf(session.pad.text), from = dice(spots.length);
  const to = dice(4) ? from : Math.min(spots.length - 1, from + dice(4));
  let text = "";
  if (from === to || dice(2)) for (let n = dice(4); n >= 0; n--) text += fresh();
  typed.push(...text);
  stats.erased += to - from;
  stats.unmade += unsentIn(session.pad, session.pad.text.slice(spots[from], spots[to]));
  one.type(spots[from], spots[to] - spots[from], text);
  if (dice(40) || from === spots.length - 1) return;
  session.comment(0, spotsOf(session.pad.text)[1] ?? 0, `by ${session.me}`).then(() => { stats.comments++; }, () => {});
}

async function typeOn(one, dice, end) {
  await pause(dice(500));
  while (Date.now() < end) {
    act(one, dice);
    await pause(100 + dice(700));
  }
}

// What the author of a session reads of the server.
async function readOf({ session: { pad } }) {
  const { text, now } = await pad.call({ do: "text" }), { runs } = await pad.call({ do: "runs", rev: now });
  return { text, now, runs, comments: (await pad.call({ do: "comments", rev: now })).comments };
}

async function compare(pages, peer) {
  const isSettled = await until(() => areSettled(pages), SETTLE), have = await readOf(pages[0]);
  const count = (what) => pages.filter(what).length, all = pages.length;
  tell("all pages have sent everything and follow", isSettled && !count(isRefused), `${have.now} revisions`);
  const texts = count((one) => one.session.pad.text === have.text && one.shown === have.text);
  tell("all pages show the server's text", texts === all, `${texts} of ${all}, ${[...have.text].length} characters`);
  const runs = count((one) => isDeepStrictEqual(runsOf(one), have.runs));
  tell("with its authors", runs === all, `${runs} of ${all}, ${have.runs.length} runs`);
  const shows = (one) => isDeepStrictEqual(commentsOf(one), have.comments);
  await until(() => pages.every(shows));
  tell("and its comments", count(shows) === all && have.comments.length === stats.comments,
    `${count(shows)} of ${all}, ${have.comments.length} comments, ${stats.comments} made`);
  let theirs;
  const same = await until(async () => {
    theirs = await readOf(peer);
    return ["text", "runs", "comments"].every((part) => isDeepStrictEqual(theirs[part], have[part]));
  }, SETTLE);
  tell("the peer has the same", same, `${theirs.now} revisions`);
  const { cells } = await pages[0].session.pad.call({ do: "revs" });
  tell("each character that was typed and not erased at once was made exactly once", cells === typed.length - stats.unmade,
    `${typed.length} typed, ${stats.unmade} erased before they were sent, ${cells} made`);
  tell("and none is there twice", new Set(have.text).size === [...have.text].length);
}

async function quiet(pages) {
  await pause(2000);
  for (const { count } of pages) count.lines = 0;
  await pause(1000 * QUIET);
  const most = Math.max(...pages.map(({ count }) => count.lines)) / QUIET;
  tell(`none sends more than ${MOST_LINES} lines a second while nobody types`, most <= MOST_LINES, `at most ${most} a second`);
}

const pages = await openAll();
const peer = await openPage({ open: tcp(peerPort), name: "zed", token: "tzed", pad: PAD, how: "create", pace: PACE });
const end = Date.now() + 1000 * Number(seconds);
await Promise.all([...pages, peer].map((one, k) => typeOn(one, makeDice(k + 1), end)));
await until(() => peer.session.state === "saved");
await compare(pages, peer);
const share = runsOf(peer).filter(([author]) => author === "zed@2").reduce((sum, [, units]) => sum + units, 0);
tell("the peer's author typed, too, and there were comments and erased words", share > 0 && stats.comments > 0 && stats.erased > 0,
  `${share} characters, ${stats.comments} comments, ${stats.erased} erased`);
await quiet(pages);
for (const { session } of [...pages, peer]) session.logOut();
tally.end();
