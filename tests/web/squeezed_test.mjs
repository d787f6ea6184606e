// The page's files as they are served (crates/web_pages), beside those on disk: scripts are the same programs, all else has the
// same words, and what a first visit loads is small.
//
//     node --expose-internals tests/web/squeezed_test.mjs
//
// The parser of scripts is the one that Node has.
import fs from "node:fs";
import { createRequire } from "node:module";
import path from "node:path";
import { fileURLToPath } from "node:url";

const TOP = path.join(path.dirname(fileURLToPath(import.meta.url)), "..", ".."), MOST = 256_000;
const { parse } = createRequire(import.meta.url)("internal/deps/acorn/acorn/dist/acorn");
// What a first visit does not load: other languages, the service worker's own file, and what is needed for minutes, for who wrote a
// character, for the history, to find words in one text or in all, for rights, for closed pads, for guests, for the list of keys, to log in
// again, and where a full pad goes on.
const LATER = /^\/(languages\/(?!en)|sw\.js|vendor\/|minutes\/(rules|worker)|(characters|who_wrote|named_revisions|pad_search|find_bar|finding|rights|closing|guest_door|keys_list|log_in_again|go_on|clients\/js\/src\/(go_on|history))\.js|files\.txt|unproved\.txt)/;
let passed = 0, failed = 0;

function tell(name, seen, wanted) {
  const holds = JSON.stringify(seen) === JSON.stringify(wanted);
  if (holds) passed++; else failed++;
  console.log(holds ? `ok     ${name}` : `FAILED ${name}: ${JSON.stringify(seen)}, and not ${JSON.stringify(wanted)}`);
}

// The texts of the module, by the paths at which they are served.
function served() {
  const module = fs.readFileSync(path.join(TOP, "crates/web_pages/src/pages.rt"), "utf8"), out = new Map();
  const form = /path: "([^"]+)",\n +kind: "[^"]*",\n +cache: "[^"]*",\n +tag: "[^\n]*",\n +text: (?:r####"([^]*?)"####|"((?:[^"\\]|\\.)*)"),\n/g;
  for (const [, name, raw, escaped] of module.matchAll(form)) out.set(name, raw ?? escaped.replace(/\\(.)/g, (_, one) => (one === "t" ? "\t" : one)));
  return out;
}

const onDisk = (name) => fs.readFileSync(path.join(TOP, name.startsWith("/clients/") ? "" : "web", name === "/" ? "index.html" : name), "utf8");

// A program without the places of its parts.
function program(text) {
  const plain = (key, value) => (key === "start" || key === "end" ? undefined : value instanceof RegExp ? String(value) : value);
  return JSON.stringify(parse(text, { ecmaVersion: "latest", sourceType: "module" }), plain);
}

const words = (text) => text.replace(/\/\*[^]*?\*\//g, "").replace(/\s+/g, "");

const files = served(), scripts = [...files.keys()].filter((name) => name.endsWith(".js"));
const rest = [...files.keys()].filter((name) => !/\.(js|txt)$/.test(name));
tell("scripts are found", scripts.length > 80, true);
tell("they are the programs on disk", scripts.filter((name) => program(files.get(name)) !== program(onDisk(name))), []);
tell("another program is noticed", program("a + +b") === program("a + b"), false);
tell("the document, the style and the icon are found", rest.sort(), ["/", "/icon.svg", "/style.css"]);
tell("they have the words of those on disk", rest.filter((name) => words(files.get(name)) !== words(onDisk(name))), []);
const bytes = [...files].filter(([name]) => !LATER.test(name)).reduce((sum, [, text]) => sum + Buffer.byteLength(text), 0);
console.log(`a first visit loads ${bytes} bytes`);
tell(`a first visit loads less than ${MOST} bytes`, bytes < MOST, true);
console.log(`${passed} passed, ${failed} failed`);
process.exit(failed ? 1 : 0);
