// Minutes: what Markdown becomes, how it looks in the editor, and what helps to write it. No display is needed.
//
//     node tests/web/minutes_test.mjs
//
// The last line is `N passed, M failed`.
import { apply, compose, splice } from "../../clients/js/src/delta.js";
import { looksOf } from "../../web/looks.js";
import { boxAt, startOfLine } from "../../web/minutes/places.js";
import { difference, minutesOf } from "../../web/minutes/rules.js";
import { headingsOf } from "../../web/outline.js";
import { markdownit } from "../../web/vendor/markdown-it.js";
import { enter, heading, link, list, once, tab, wrap } from "../../web/writing.js";
import { dice as makeDice } from "./dice.mjs";

let passed = 0, failed = 0;

function tell(name, have, want) {
  const [a, b] = [JSON.stringify(have), JSON.stringify(want)];
  if (a === b) passed++; else failed++;
  console.log(a === b ? `ok     ${name}` : `FAILED ${name}: ${a}, not ${b}`);
}

const make = minutesOf(markdownit), html = (text) => make(text).map((block) => block.html).join("");
const REL = 'rel="noopener noreferrer nofollow" target="_blank"';

function markdown() {
  tell("headings, emphasis and line breaks", html("# Minutes\nof **May**\n*2026*"), "<h1>Minutes</h1>\n<p>of <strong>May</strong><br>\n<em>2026</em></p>\n");
  tell("lists and quotes", html("- a\n  - b\n\n3. c\n\n> d ~~e~~"), "<ul>\n<li>a\n<ul>\n<li>b</li>\n</ul>\n</li>\n</ul>\n<ol start=\"3\">\n<li>c</li>\n</ol>\n<blockquote>\n<p>d <s>e</s></p>\n</blockquote>\n");
  tell("tables", html("| a | b |\n|---|---|\n| c | d |"), "<table>\n<thead>\n<tr>\n<th>a</th>\n<th>b</th>\n</tr>\n</thead>\n<tbody>\n<tr>\n<td>c</td>\n<td>d</td>\n</tr>\n</tbody>\n</table>\n");
  tell("a link opens elsewhere", html("[x](https://a.b/c?d=e&f)"), `<p><a href="https://a.b/c?d=e&amp;f" ${REL}>x</a></p>\n`);
  tell("and one to a pad opens here", html("[x](#minutes-may)"), '<p><a href="#minutes-may">x</a></p>\n');
  tell("but one that logs somebody in opens elsewhere", html("[x](#in=ann.t1&pad=p)"), `<p><a href="#in=ann.t1&amp;pad=p" ${REL}>x</a></p>\n`);
  tell("an address is a link, and a file's name is none", html("see http://a.b/c and minutes.md"), `<p>see <a href="http://a.b/c" ${REL}>http://a.b/c</a> and minutes.md</p>\n`);
  tell("a picture is a link", html("![a crane](https://a.b/c.png)"), `<p><a href="https://a.b/c.png" ${REL}>a crane</a></p>\n`);
  tell("dashes below words are a rule", html("words\n---"), "<p>words</p>\n<hr>\n");
}

function hostile() {
  tell("markup is text", html("<script>alert(1)</script>\n\na <b onclick='x'>b</b> <img src=x>"),
    "<p>&lt;script&gt;alert(1)&lt;/script&gt;</p>\n<p>a &lt;b onclick='x'&gt;b&lt;/b&gt; &lt;img src=x&gt;</p>\n");
  const addresses = ["javascript:alert(1)", "JaVaScRiPt:alert(1)", "vbscript:x", "data:text/html,x", "file:///etc/passwd", "java&#115;cript:x", "javascript&colon;x"];
  tell("no address runs anything", addresses.filter((address) => html(`[x](${address}) ![y](${address}) <${address}>`).includes("href")), []);
  tell("marks of a link's words are escaped", html('["><b>](https://a.b "\\"><i>")'), `<p><a href="https://a.b" title="&quot;&gt;&lt;i&gt;" ${REL}>&quot;&gt;&lt;b&gt;</a></p>\n`);
  tell("and those of a task", html('- [ ] "><b>').match(/aria-label="([^"]*)"/)[1], "&quot;&gt;&lt;b&gt;");
  const hard = ["*".repeat(20000), "a**b".repeat(5000), "[".repeat(10000), "> ".repeat(5000) + "a", "`".repeat(9999) + "a", `x${" ".repeat(60000)}x\ny`, "| a ".repeat(5000)];
  const start = performance.now();
  for (const text of hard) { html(text); text.split("\n").forEach(looksOf); headingsOf(text); }
  const took = performance.now() - start;
  tell("texts that are hard to read take no minute", took < 20000 || took, true);
}

function tasks() {
  const text = "words\n\n- [ ] one **two**\n- [x] three\n  four\n- [X] five\n- [x](https://a.b)\n- [y] six\n1. [ ] seven";
  const boxes = [...html(text).matchAll(/<input type="checkbox" data-line="(\d+)" aria-label="([^"]*)"( checked)?>/g)].map(([, line, label, is]) => [Number(line), label, Boolean(is)]);
  tell("items that begin with a box are tasks", boxes, [[0, "one two", false], [1, "three four", true], [3, "five", true], [0, "seven", false]]);
  const blocks = make(text).map(({ from, to }) => [from, to]);
  tell("a block knows its lines, and boxes theirs in it", blocks, [[0, 1], [2, 8], [8, 9]]);
}

// A box is found in a text that others have changed since the minutes were made, whatever they changed.
function boxes() {
  const dice = makeDice(9), broken = { wrong: 0, lost: 0 };
  let found = 0, gone = 0;
  for (let round = 0; round < 4000; round++) {
    const names = Array.from({ length: 1 + dice(5) }, (_, k) => String.fromCodePoint(0x4e00 + k)), drawn = names.map((name) => `- [${" x"[dice(2)]}] ${name}`).join("\n");
    let now = drawn, since = [];
    for (let k = dice(5); k > 0; k--) {
      const at = dice(now.length + 1), one = splice(at, Math.min(now.length - at, dice(3) ? 0 : dice(8)), ["", "a", "b\n", "- [ ] z\n"][dice(4)], "b");
      now = apply(now, one);
      since = compose(since, one);
    }
    const line = dice(names.length), at = boxAt(drawn, line, since, now);
    // The characters of the box, followed one by one.
    const open = startOfLine(drawn, line) + 2, marked = apply([...drawn].map((letter, k) => (k >= open && k < open + 3 ? String.fromCodePoint(0xe000 + k - open) : letter)).join(""), since);
    const places = [0, 1, 2].map((k) => marked.indexOf(String.fromCodePoint(0xe000 + k)));
    const isWhole = places[0] >= 0 && places[1] === places[0] + 1 && places[2] === places[1] + 1;
    if (isWhole) { found++; if (at !== places[1]) broken.lost++; }
    else { gone++; if (at !== null && !/\[[ xX]\]/.test(now.slice(at - 1, at + 2))) broken.wrong++; }
  }
  tell("a box is found in a text that has changed since, if it is there", [broken, found > 1000, gone > 100], [{ wrong: 0, lost: 0 }, true, true]);
}

function differences() {
  const dice = makeDice(4), text = () => Array.from({ length: dice(7) }, () => ["# a", "- [ ] b\n- c", "d", "", "> e"][dice(5)]).join("\n\n");
  let before = [], broken = 0;
  for (let round = 0; round < 2000; round++) {
    const after = make(text()), { start, end, between } = difference(before, after);
    const have = [...before.slice(0, start).map((one) => one.html), ...between, ...before.slice(before.length - end).map((one) => one.html)];
    if (have.join() !== after.map((one) => one.html).join() || start + end > Math.min(before.length, after.length)) broken++;
    before = after;
  }
  tell("what differs leads from one text's minutes to the other's", broken, 0);
}

// What a text is after changes, with the selection between bars.
function shown(text, made) {
  if (!made) return null;
  const out = apply(text, made.changes.reduceRight((delta, [at, dropped, words]) => compose(delta, splice(at, dropped, words, "a")), []));
  return `${out.slice(0, made.from)}|${out.slice(made.from, made.to)}|${out.slice(made.to)}`;
}
// The same of a text whose selection is between bars.
function done(deed, given, ...more) {
  const [before, words, after] = given.split("|"), text = before + words + after;
  return shown(text, deed(text, before.length, before.length + words.length, ...more));
}

function writing() {
  const entered = ["- one||", "a\n  3. two|| words\nb", "- [x] do||ne", "- ||", "  - [ ] ||\nb", "abc||", "|| - a", "* a|b|"];
  tell("Enter goes on with a list, and ends it", entered.map((given) => done(enter, given)), [
    "- one\n- ||", "a\n  3. two\n  4. || words\nb", "- [x] do\n- [ ] ||ne", "||", "||\nb", null, null, "* a\n* ||",
  ]);
  tell("a marker that is typed again is there once", ["1. a\n2. 2.||", "  - -||", "2. 3.||", "2.||", "- a-||", "- [ ] -||"].map((given) => done(once, given)), ["1. a\n2. ||", "  - ||", null, null, null, null]);
  tell("Tab moves items in", ["- o||ne", "|- a\n- b|\n- c", "1. a||", "abc||"].map((given) => done(tab, given)), ["    - o||ne", "    |- a\n    - b|\n- c", "    1. a||", null]);
  tell("and out", ["    - o||ne", "|  - a\n      - b|", "- a||", "\t- a||"].map((given) => done(tab, given, true)), ["- o||ne", "|- a\n  - b|", null, "- a||"]);
  tell("words become strong, and not any more", ["a |b| c", "a **|b|** c", "a |**b**| c", "a *|b|* c", "a||"].map((given) => done(wrap, given, "**")),
    ["a **|b|** c", "a |b| c", "a |b| c", "a ***|b|*** c", "a**||**"]);
  tell("or emphasized", ["a |b| c", "a *|b|* c", "a **|b|** c", "a ***|b|*** c"].map((given) => done(wrap, given, "*")),
    ["a *|b|* c", "a |b| c", "a ***|b|*** c", "a **|b|** c"]);
  tell("a heading is smaller each time, and then none", ["Tit||le", "# a||", "## a||", "### a||", "#### a||"].map((given) => done(heading, given)), ["# Tit||le", "## a||", "### a||", "a||", "a||"]);
  tell("lines become a list, and not any more", ["|a\n\nb|", "|- a\n- b|", "- [ ] a||", "||", "1. a||"].map((given) => done(list, given)), ["- |a\n\n- b|", "|a\nb|", "- a||", "- ||", "a||"]);
  tell("or tasks", ["|a\nb|", "- a||", "- [x] a||", "1. a||"].map((given) => done(list, given, true)), ["- [ ] |a\n- [ ] b|", "- [ ] a||", "a||", "- [ ] a||"]);
  tell("words become a link", ["see |this|", "|https://a.b|", "a||"].map((given) => done(link, given)), ["see [this](|https://|)", "[|https://a.b|](https://a.b)", "a[](|https://|)"]);
}

function looks() {
  const of = (line) => looksOf(line).spans.filter(([, , name]) => name !== "md-mark").map(([from, to, name]) => `${name.slice(3)}:${line.slice(from, to)}`);
  tell("words look as their marks say", ["a **b** *c* ~~d~~ `e*f*`", "snake_case_word and _em_", "2 * 3 * 4", "[a](b) [c]", "***x***", "**a** **b**"].map(of), [
    ["strong:**b**", "em:*c*", "struck:~~d~~", "code:`e*f*`"], ["em:_em_"], [], ["link:[a](b)"], ["strong:***x***"], ["strong:**a**", "strong:**b**"],
  ]);
  tell("and lines, too", ["# a", "### b", "#c", "- d", "  12) e", "- [x] f", "> g", "h"].map((line) => looksOf(line).name),
    ["md-heading md-h1", "md-heading md-h3", "", "md-item", "md-item", "md-item md-done", "md-quote", ""]);
  const dice = makeDice(2), signs = ["*", "**", "_", "`", "~~", "[", "](", ")", "#", "- ", "[x] ", "> ", "a", "b ", "語", "🙂", " "];
  let broken = 0;
  for (let round = 0; round < 20000; round++) {
    const line = Array.from({ length: dice(9) }, () => signs[dice(signs.length)]).join(""), { spans } = looksOf(line);
    if (spans.some(([from, to]) => !(from >= 0 && from < to && to <= line.length))) broken++;
  }
  tell("no mark is outside of its line", broken, 0);
}

function outline() {
  const text = "# One *two*\nwords\n```\n# no heading\n```\n## [Three](x) ##\n####### seven\n   ### four\n    # five\n#six";
  tell("the outline has the headings", headingsOf(text), [{ level: 1, text: "One two", line: 0 }, { level: 2, text: "Three", line: 5 }, { level: 3, text: "four", line: 7 }]);
}

markdown();
hostile();
tasks();
boxes();
differences();
writing();
looks();
outline();
console.log(`${passed} passed, ${failed} failed`);
process.exit(failed ? 1 : 0);
