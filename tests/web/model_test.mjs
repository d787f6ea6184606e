// The client algorithm of clients/js against a reference model of the server, at random, with seeds:
//
//     node tests/web/model_test.mjs [ROUNDS]
//
// Then the same with planted faults, each of which has to be found. The last line is `N passed, M failed`.
import { LIBRARY, loadLibrary as load, planted } from "./copies.mjs";
import { ModelPad } from "./model.mjs";
import { round } from "./simulation.mjs";

const rounds = Number(process.argv[2] ?? 300);
let passed = 0, failed = 0;

function tell(name, isPassed, said = "") {
  if (isPassed) passed++; else failed++;
  console.log(`${isPassed ? "ok    " : "FAILED"} ${name}${said && `: ${said}`}`);
}

// A model that lists insertions before a drop beside them.
class InsertionsFirst extends ModelPad {
  changes(rev, to) {
    const out = super.changes(rev, to);
    for (let at = 1; at < out.length; at++) {
      for (let k = at; k > 0 && out[k][0] === "insert" && out[k - 1][0] === "drop"; k--) [out[k - 1], out[k]] = [out[k], out[k - 1]];
    }
    return out;
  }
}

async function findsFault(name, modules, Model) {
  for (let number = 1; number <= rounds; number++) {
    try {
      await round(number, modules, Model, false);
    } catch (error) {
      tell(name, error.isFound, error.isFound ? `round ${number}` : error.stack);
      return;
    }
  }
  tell(name, false, `not found in ${rounds} rounds`);
}

const sums = { edits: 0, checks: 0, breaks: 0, undone: 0, restored: 0, typed: 0 };
try {
  const modules = await load(LIBRARY);
  for (let number = 1; number <= rounds; number++) {
    const seen = await round(number, modules);
    for (const key in sums) sums[key] += seen[key];
  }
  tell("the pages show what the model has", true, `${rounds} rounds, ${Object.entries(sums).map(([key, n]) => `${n} ${key}`).join(", ")}`);
} catch (error) {
  tell("the pages show what the model has", false, error.stack);
}
const isVaried = sums.edits > 20 * rounds && sums.checks > 40 * rounds && sums.breaks > rounds && sums.undone > rounds && sums.restored > rounds;
tell("the rounds have edits, breaks, undone changes and restored revisions", isVaried);

const swapped = "if (right.inserts) {\n      const step = right.takeInsertion();\n      add(theirsAfter, step);\n      add(mineAfter, { keep: step.insert.length });\n      continue;\n    }";
await findsFault("theirs first where both insert at one place",
  await planted("delta.js", "    if (left.inserts) {", `    ${swapped}\n    if (left.inserts) {`));
await findsFault("changes that are taken while an edit is in flight", await planted("sync.js",
  "const [held, sent] = await Promise.allSettled([told, this.send()]);",
  `const sending = this.send(), early = await told, theirs = deltaOf(early.changes, this.base);
    const [mine, over] = transform(this.flight, theirs), [pending, shown] = transform(this.pending, over);
    this.moveBase(theirs, early.to); this.flight = mine; this.pending = pending; this.receive(shown);
    const held = {}, [sent] = await Promise.allSettled([sending]);`));
await findsFault("what a wait brought, used for a later revision",
  await planted("sync.js", "held?.to === n - 1 ? held", "held ? held"));
await findsFault("a restored revision, without what was typed meanwhile",
  await planted("sync.js", "return [...steps, this.flight ?? [], this.pending].reduce(", "return steps.reduce("));
await findsFault("a restored revision, without what others did meanwhile",
  await planted("sync.js", "return [...steps, this.flight ?? [], this.pending].reduce(", "return [this.flight ?? [], this.pending].reduce("));
await findsFault("a restored revision that keeps what came since", await planted("history.js",
  "return invert(deltaOf(changes, old.text), old.text, author);", "return invert(deltaOf(changes, old.text), old.text, author).filter((step) => !step.drop);"));
await findsFault("insertions listed before the drop beside them", await load(LIBRARY), InsertionsFirst);
console.log(`${passed} passed, ${failed} failed`);
process.exit(failed ? 1 : 0);
