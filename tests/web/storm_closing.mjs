// The storm (storm.mjs), with pads that their owner closes and opens again while others type:
//
//     node tests/web/storm_closing.mjs [ROUNDS]
//
// The last line is `N passed, M failed`.
import { LIBRARY, loadLibrary, planted } from "./copies.mjs";
import { Tally } from "./pages.mjs";
import { Storm } from "./storm.mjs";

const rounds = Number(process.argv[2] ?? 20), tally = new Tally(), { tell } = tally, CLOSED = 330, SECOND = 1000;
// How often a round does or sees something at least, on average.
const LEAST = { closed: 1.5, reopened: 0.8, shut: 0.5, sentLater: 0.2, refused: 1, switches: 1, saved: 300 };

class ClosingStorm extends Storm {
  constructor(...given) {
    super(...given);
    Object.assign(this.seen, { closed: 0, reopened: 0, shut: 0, sentLater: 0, refused: 0 });
  }

  prepare(page) {
    super.prepare(page);
    let wasShut = false, had = 0;
    page.session.on("state", () => {
      const { state, pad, isClosed } = page.session, isShut = state === "closed";
      if (isShut && !isClosed) this.fault("who was put out does not know that the pad is closed");
      if (isShut && !wasShut) this.seen.shut++;
      if (isShut && pad?.isUnsent) had = 1;
      if (state === "saved" && had) { this.seen.sentLater++; had = 0; }
      wasShut = isShut;
    });
    // What an owner types while another window of the owner closes the pad is refused, and kept for the owner.
    page.session.on("refused", ({ code }, words) => { if (code === CLOSED) this.refuse(page, words); });
  }

  refuse(page, words) {
    this.seen.refused++;
    if ([...words].some((character) => !page.session.kept.text.includes(character))) this.fault("refused words are not kept");
    for (const character of words) if (this.deeds.written.has(character)) this.deeds.written.get(character).isErased = true;
    if (this.deeds.comments.has(words)) this.deeds.comments.get(words).isForgotten = true; // a page that is killed now is followed by one that sends it
    page.refusals = page.refusals.filter(([code]) => code !== CLOSED);
  }

  disturb() {
    const { dice, deeds } = this, owners = deeds.pages.filter(({ session, isSwitching }) => session.name === "ann" && session.pad && session.state === "saved" && !isSwitching);
    super.disturb();
    const page = owners[dice(owners.length || 1)];
    if (!page?.session.pad || dice(4)) return;
    const { session } = page, isClosed = session.isClosed;
    (isClosed ? session.reopen() : session.close()).then(() => { this.seen[isClosed ? "reopened" : "closed"]++; }, () => {}); // the connection can break
  }

  // All pads are opened in the end, as by an owner of whom this test knows nothing.
  async calm() {
    for (const room of this.world.server.rooms.values()) room.isClosed = false;
    await this.advance(60 * SECOND);
    await super.calm();
  }
}

async function storms(modules, count = rounds) {
  const sums = {};
  for (let number = 1; number <= count; number++) {
    const seen = await new ClosingStorm(number, modules).play();
    for (const key in seen) sums[key] = (sums[key] ?? 0) + seen[key];
  }
  return sums;
}

async function agree() {
  try {
    const sums = await storms(await loadLibrary(LIBRARY)), said = Object.entries(sums).map(([key, n]) => `${n} ${key}`).join(", ");
    tell("pages and server agree while pads are closed and opened, and nothing is lost or doubled", true, `${rounds} rounds, ${said}`);
    tell("the rounds have all that was to be tried", Object.keys(LEAST).every((key) => sums[key] >= LEAST[key] * rounds), said);
  } catch (error) { tell("pages and server agree while pads are closed and opened, and nothing is lost or doubled", false, error.stack.slice(0, 3000)); }
}

// A mistake in a copy of the library has to be found.
async function findsMistake(name, file, ...passages) {
  try { await storms(await planted(file, ...passages), 40); } catch (error) {
    tell(name, error.isFound, error.isFound ? error.message.slice(0, 120) : error.stack);
    return;
  }
  tell(name, false, "not found in 40 rounds");
}

await agree();
await findsMistake("words of who was put out that are given up", "session.js", "if (error.reply?.code === NOT_JOINED) { this.shut(); return; }", "");
await findsMistake("a comment of who was put out that is given up", "session.js", "const isEnded = reply.code === NOT_JOINED,", "const isEnded = false,");
await findsMistake("a closed pad that ends a page", "connection.js", "[Lost, PadClosed]", "[Lost]");
await findsMistake("a connection that is used again", "visits.js", "    await session.renew();\n", "");
tally.end();
