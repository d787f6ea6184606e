// Pages before a model of a server, over a bad network, at random with seeds:
//
//     node tests/web/storm_test.mjs [ROUNDS]
//
// Then the same with planted mistakes, each of which has to be found. The last line is `N passed, M failed`.
import { LIBRARY, loadLibrary, planted } from "./copies.mjs";
import { Tally } from "./pages.mjs";
import { KINDS, storm } from "./storm.mjs";

const rounds = Number(process.argv[2] ?? 40), tally = new Tally(), { tell } = tally;
// How often a round does or sees something at least, on average. What rounds of one kind do alone is seldomer.
const LEAST = {
  edits: 200, saved: 500, switches: 3, cuts: 3, breaks: 3, held: 3, kills: 0.5, undone: 3, restored: 1, comments: 8,
  numbers: 0.05, stores: 0.05, over: 0.05, killed: 1, kept: 20, away: 0.3, suggested: 3, accepted: 2, late: 0.05, replies: 2, ticks: 5,
};

async function agree() {
  const modules = await loadLibrary(LIBRARY), sums = {};
  try {
    for (let number = 1; number <= rounds; number++) {
      const seen = await storm(number, modules);
      for (const key in seen) sums[key] = (sums[key] ?? 0) + seen[key];
    }
  } catch (error) {
    tell("pages and server agree, and nothing is lost or doubled", false, error.stack.slice(0, 3000));
    return;
  }
  const said = Object.entries(sums).map(([key, n]) => `${n} ${key}`).join(", ");
  tell("pages and server agree, and nothing is lost or doubled", true, `${rounds} rounds, ${said}`);
  tell("the rounds have all that can go wrong", Object.keys(LEAST).every((key) => sums[key] >= LEAST[key] * rounds), said);
}

// A mistake in a copy of the library has to be found by a round of this kind, or of any kind.
async function findsMistake(name, kind, file, ...passages) {
  const modules = await planted(file, ...passages), kinds = Object.keys(KINDS);
  for (let number = 1; number <= MOST_ROUNDS; number++) {
    if (kind && kinds[number % kinds.length] !== kind) continue;
    try {
      await storm(number, modules);
    } catch (error) {
      tell(name, error.isFound, error.isFound ? error.message.slice(0, 120) : error.stack);
      return;
    }
  }
  tell(name, false, `not found in ${MOST_ROUNDS} rounds`);
}

const MOST_ROUNDS = 160;
const MISTAKES = [
  ["a deletion that is cut in the middle of a character", null, "delta.js", "edgeBefore(words, most)", "(step.insert ? edgeBefore(words, most) : most)"],
  ["an edit that is sent again after 10 s", null, "resume.js", "isGone = !who.some((one) => one.visit === visit);",
    "isGone = wait >= LAST_LOOK || !who.some((one) => one.visit === visit);"],
  ["an edit that is sent again though it was made", null, "resume.js", "if (isMade === false || !", "if (isMade !== null || !"],
  ["an edit that is never taken for made", null, "session.js", "`${told.last}` !== `${lastMade}`", "false"],
  ["an edit that was not made and is not sent again", null, "resume.js", "  goOn();\n  if (pad.flight) pad.unsend();\n", "  goOn();\n"],
  ["two pads that are open at once", null, "session.js", "this.lastEntry.then(() => this.enterAs(entry, how, name))",
    "this.enterAs(entry, how, name)", "if (entry !== this.entries) throw new Superseded(name);", ""],
  ["a pad that is not left", null, "session.js", "if (this.pad) await this.leave();", ""],
  ["a crowded pad that ends a page", null, "connection.js", "CROWDED, NOT_JOINED].includes(error.reply?.code)", "NOT_JOINED].includes(error.reply?.code)"],
  ["a store of another past that is not noticed", "restored", "resume.js", "  await compare(pad);\n", ""],
  ["an unsent comment that does not move", null, "comments.js", "for (const comment of this.all) moveStretch", "for (const comment of this.list) moveStretch"],
  ["a comment that is sent again without a look", null, "unsent.js", "if (comment.sent && (await this.wasMade(comment, turn))) return true;", ""],
  ["an edit that is sought under the new name only", "numbers", "resume.js", "if (!pad.names.includes(entry.author) ||", "if (search.names.at(-1) !== entry.author ||"],
  ["an edit that is sent before it is kept", null, "sync.js", "    await this.kept();\n", ""],
  ["an edit that is sent though the connection was lost while it was kept", null, "sync.js", '    if (this.turn !== turn) throw new Lost("stopped");\n', ""],
  ["a draft that does not know what has changed since", null, "drafts.js", "    this.since = compose(this.since, delta);\n", ""],
  ["a draft that does not tell what was sent", null, "drafts.js", "...pad.draft, ...more", "...pad.draft, flight: null, pending: compose(pad.flight ?? [], pad.pending), ...more"],
  ["a comment that is kept without when it was sent", null, "drafts.js", "unsent.list.map(({ from, to, text, sent }) => ({ from, to, text, sent })),\n    });", "unsent.list.map(({ from, to, text }) => ({ from, to, text, sent: null })),\n    });"],
  ["a suggestion that two authors accept", null, "suggestions.js", "?.resolved === false;", " !== undefined;"],
  ["a suggestion that is accepted where its words were", null, "suggestions.js", "const from = pad.carried(start, place.rev, true), to = Math.max(from, pad.carried(unit(base, place.len, start), place.rev));", "const from = Math.min(start, pad.text.length), to = Math.min(unit(base, place.len, start), pad.text.length);"],
  ["what is typed under two names", "numbers", "sync.js", "    this.pending = authored(this.pending, me);\n", ""],
];

await agree();
for (const mistake of MISTAKES) await findsMistake(...mistake);
tally.end();
