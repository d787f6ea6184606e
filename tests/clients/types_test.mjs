// The declarations of clients/js name what the modules export, and members that are there:
//
//     node tests/clients/types_test.mjs
//
// The last line is `N passed, M failed`.
import fs from "node:fs";
import { History, Pad, Session } from "../../clients/js/index.js";

const LIBRARY = new URL("../../clients/js/", import.meta.url);
const MODULES = {
  "index.js": ["index.d.ts"], "node.js": ["index.d.ts", "node.d.ts"], "src/delta.js": ["delta.d.ts"],
  "bindings/textarea.js": ["textarea.d.ts"], "bindings/codemirror5.js": ["codemirror5.d.ts"],
};
const INSTANCES = { Session: new Session({ open: () => null }), Pad: new Pad({ name: "p", me: "ann@1", ask: () => null }), History: new History({ name: "p" }) };
let passed = 0, failed = 0;

function tell(name, have, want) {
  const isSame = JSON.stringify(have) === JSON.stringify(want);
  if (isSame) passed++; else failed++;
  console.log(isSame ? `ok     ${name}` : `FAILED ${name}: ${JSON.stringify(have)}, wanted ${JSON.stringify(want)}`);
}

const read = (name) => fs.readFileSync(new URL(`types/${name}`, LIBRARY), "utf8");

// The values that a declaration exports, types left out.
function declared(text) {
  const names = [...text.matchAll(/^export (?:function|const|class) (\w+)/gm)].map(([, name]) => name);
  return /^export \{ delta \};/m.test(text) ? [...names, "delta"] : names;
}

function membersOf(text, name) {
  const body = text.match(new RegExp(`^export class ${name} \\{\\n([^]*?)^\\}`, "m"))[1].replace(/\/\*\*[^]*?\*\//g, "");
  return [...body.matchAll(/^  (?:readonly )?(\w+)[<(:?]/gm)].map(([, member]) => member).filter((member) => !["constructor", "private"].includes(member));
}

// `delta.js` has more exports than are declared only by mistake; the same of each module.
for (const [module, files] of Object.entries(MODULES)) {
  const have = Object.keys(await import(new URL(module, LIBRARY))).sort(), want = files.flatMap((file) => declared(read(file)));
  tell(`${module} exports what is declared`, have, [...new Set(want)].sort());
}
for (const [name, instance] of Object.entries(INSTANCES)) {
  const members = membersOf(read("index.d.ts"), name);
  tell(`a ${name} has its members`, members.filter((member) => !(member in instance)), []);
  if (members.length < 4) tell(`a ${name} has several`, members.length, 4);
}
const events = [...read("index.d.ts").match(/interface Listeners \{([^]*?)^\}/m)[1].matchAll(/^  (\w+):/gm)].map(([, event]) => event);
tell("the events are those of a session", [...INSTANCES.Session.events.listeners.keys()].sort(), events.sort());
console.log(`${passed} passed, ${failed} failed`);
process.exit(failed ? 1 : 0);
