// What comments say beside words: suggestions, replies and names, and how a suggestion is made, accepted and taken back. Pages over
// a simulated network, in simulated time.
//
//     node tests/web/threads_test.mjs
//
// The last line is `N passed, M failed`.
import { apply, extent } from "../../clients/js/src/delta.js";
import { accept, stepped } from "../../clients/js/src/suggestions.js";
import { addressed, reply, replyIn, suggestion, suggestionIn, threadsOf } from "../../clients/js/src/threads.js";
import { proposalOf, stretchFor } from "../../web/suggesting.js";
import { dice as makeDice } from "./dice.mjs";
import { Tally } from "./pages.mjs";
import { World, agree } from "./world.mjs";

const tally = new Tally(), SECOND = 1000, json = JSON.stringify;
const same = (name, have, want) => tally.tell(name, json(have) === json(want), json(have) === json(want) ? "" : `${json(have)}, not ${json(want)}`);

function forms() {
  same("a suggestion can be read by who does not know it", suggestion("7:30", "7:40", "the new timetable"), 'Suggestion: "7:30" → "7:40"\nthe new timetable');
  same("and is known again", suggestionIn('Suggestion: "7:30" → "7:40"\nthe new timetable'), { old: "7:30", words: "7:40", reason: "the new timetable" });
  same("to erase words is to suggest none", suggestionIn(suggestion("words", "")), { old: "words", words: "", reason: "" });
  same("old words that are too long are left out", suggestion("o".repeat(1990), "n"), 'Suggestion: → "n"');
  same("new ones that are too long cannot be suggested", [suggestion("o", "n".repeat(1990)), suggestion("o", "\n".repeat(999))], [null, null]);
  same("emoji count as one character", suggestion("o", "🙂".repeat(1975))?.length, 20 + 2 * 1975);
  same("a reply can be read, too, and is known again", [reply([1, 5], "I agree."), replyIn("Reply to [1,5]: I agree.")], ["Reply to [1,5]: I agree.", { to: [1, 5], text: "I agree." }]);
  const others = ["Suggestion: later", 'Suggestion: "a', 'Suggestion: "a" → b', 'Suggestion: → "\\u12"', 'suggestion: → "a"', "Reply to [1]: x", "Reply to [1,2] x", "in reply to [1,2]: x"];
  same("other comments are neither", others.filter((text) => suggestionIn(text) || replyIn(text)), []);
  same("names are those behind an @", addressed("@bob and (@cyd-2), not a@b.c, @bob again, @Dan @ann@2 @eve."), ["bob", "cyd-2", "eve"]);
  const dice = makeDice(8), signs = ['"', "\\", "\n", "→", " ", "a", "🙂", "\u2028", "語", "]", ":", "Suggestion: "];
  const random = () => Array.from({ length: dice(9) }, () => signs[dice(signs.length)]).join("");
  let broken = 0;
  for (let round = 0; round < 5000; round++) {
    const [old, words, reason] = [random(), random(), random()];
    if (json(suggestionIn(suggestion(old, words, reason))) !== json({ old, words, reason })) broken++;
    if (replyIn(reply([1 + dice(9), 1 + dice(99)], old))?.text !== old) broken++;
  }
  same("any words can be suggested and replied", broken, 0);
}

function threads() {
  const comment = (number, text) => ({ name: [1, number], text }), shown = (list) => threadsOf(list).map(({ text, replies }) => [text, ...replies.map((one) => one.text)]);
  const list = [comment(1, "a"), comment(2, "Reply to [1,1]: b"), comment(3, "c"), comment(4, "Reply to [1,2]: d"), comment(5, "Reply to [9,9]: e"), { name: undefined, text: "Reply to [1,3]: f" }];
  same("replies are shown with what they reply to", shown(list), [["a", "b", "d"], ["c", "f"], ["Reply to [9,9]: e"]]);
  const chain = Array.from({ length: 4000 }, (_, number) => comment(number + 1, number ? `Reply to [1,${number}]: ${number}` : "first")), began = process.cpuUsage().user;
  same("a long chain of replies is one thread", shown(chain).map((thread) => thread.length), [4000]);
  same("which takes no second", process.cpuUsage().user - began < 1_000_000, true);
  same("a ring of replies is two comments", shown([comment(1, "Reply to [1,2]: a"), comment(2, "Reply to [1,1]: b")]).flat().length, 2);
}

// What a text would be if the suggestion were accepted, with the caret as a bar.
function typedAs(given, inserted) {
  const [before, words, after] = given.split("|"), text = before + words + after, made = stretchFor(text, before.length, before.length + words.length, inserted);
  return made && `${text.slice(0, made.from)}[${made.words.slice(0, made.caret)}|${made.words.slice(made.caret)}]${text.slice(made.to)}`;
}

function stretches() {
  const given = ["at |7:30|.", "the quay|| is", "the quay ||is", "a\n||b c", "a\n||\nb", "||", "||abc", "end.||", "🙂||", "a\n\n||"];
  same("what is typed is suggested for the words there", given.map((one) => typedAs(one, "X")), [
    "at [X|].", "the [quayX|] is", "the [quay X|]is", "a\n[X|b] c", "a[\nX|]\nb", null, "[X|abc]", "[end.X|]", "[🙂X|]", "a\n[\nX|]",
  ]);
  same("words that change are shown as a whole", [proposalOf("at 7:30", "at 7:40"), proposalOf("quay", "quay wall"), proposalOf("quay", "the quay"), proposalOf("a b", "")], [
    { out: [3, 7], proposed: "7:40" }, { out: [4, 4], proposed: " wall" }, { out: [0, 0], proposed: "the " }, { out: [0, 3], proposed: "" },
  ]);
  const dice = makeDice(3);
  let broken = 0;
  for (let round = 0; round < 5000; round++) {
    const text = Array.from({ length: 1 + dice(12) }, () => ["a", "b ", "\n", "🙂", "."][dice(5)]).join(""), cuts = [0];
    for (const one of text) cuts.push(cuts.at(-1) + one.length);
    const from = cuts[dice(cuts.length)], to = dice(2) ? from : Math.max(from, cuts[dice(cuts.length)]), words = dice(4) || from === to ? "X" : "";
    const { from: start, to: end, words: made } = stretchFor(text, from, to, words), { out, proposed } = proposalOf(text.slice(start, end), made);
    const isRight = text.slice(0, start) + made + text.slice(end) === text.slice(0, from) + words + text.slice(to) && start < end && cuts.includes(start) && cuts.includes(end);
    if (!isRight || text.slice(start, start + out[0]) + proposed + text.slice(start + out[1], end) !== made) broken++;
  }
  same("a suggestion is what was typed, on one character at least", broken, 0);
}

// ---- among pages

const stretchOf = (page, words) => {
  const from = page.session.pad.text.indexOf(words);
  return [from, from + words.length];
};
const suggest = (page, old, words) => page.session.comment(...stretchOf(page, old), suggestion(old, words));
const openOnes = (world) => world.model().comments(world.model().now).filter(({ resolved }) => !resolved).map(({ text }) => text);
const runs = (world) => world.model().runs(world.model().now);

async function acceptOn(world, page, comment) {
  const change = await world.clock.finish(accept(page.session, comment));
  if (!change) return false;
  const { delta, tag } = change();
  page.shown = apply(page.shown, delta);
  page.session.pad.steps.rest();
  page.session.pad.type(delta, true, tag);
  page.session.pad.steps.rest();
  return true;
}

async function begin(text, ...names) {
  const world = new World(), pages = await world.open(text, ...names);
  await world.advance(2 * SECOND);
  return [world, ...pages];
}

async function accepted() {
  const [world, ann, bob] = await begin("The ferry leaves at 7:30.", "ann", "bob");
  await world.clock.finish(ann.session.grant("bob", "comment"));
  await world.clock.finish(suggest(bob, "7:30", "7:40"));
  await world.advance(SECOND);
  ann.type(0, 0, "Note: ");
  const [comment] = ann.session.comments.list;
  tally.tell("a suggestion is accepted", await acceptOn(world, ann, comment));
  await world.settle();
  same("where its words are now, with the characters that stay", [world.text(), runs(world)], ["Note: The ferry leaves at 7:40.", [["ann@1", 31]]]);
  same("and is resolved", openOnes(world), []);
  ann.shown = "";
  let delta = ann.session.pad.undo();
  stepped(ann.session, delta, false, extent(delta));
  ann.shown = ann.session.pad.text;
  await world.settle();
  await world.advance(2 * SECOND);
  same("one step of undo takes both back, and says whose it was", [world.text(), openOnes(world)], ["Note: The ferry leaves at 7:30.", ['Suggestion: "7:30" → "7:40"\n(bob@1)']]);
  delta = ann.session.pad.redo();
  stepped(ann.session, delta, true, extent(delta));
  ann.shown = ann.session.pad.text;
  await world.settle();
  await world.advance(2 * SECOND);
  same("and redo makes both again", [world.text(), openOnes(world), agree(world)], ["Note: The ferry leaves at 7:40.", [], true]);
  world.end();
}

async function acceptedTwice() {
  const [world, ann, bob] = await begin("one two", "ann", "bob");
  await world.clock.finish(suggest(ann, "two", "three"));
  await world.advance(SECOND);
  const both = await world.clock.finish(Promise.all([ann, bob].map((page) => accept(page.session, page.session.comments.list[0]))));
  for (const [k, page] of [ann, bob].entries()) {
    if (!both[k]) continue;
    const { delta } = both[k]();
    page.shown = apply(page.shown, delta);
    page.session.pad.type(delta);
  }
  await world.settle();
  same("of two who accept at the same time one makes the change", [both.filter(Boolean).length, world.text(), agree(world)], [1, "one three", true]);
  world.end();
}

async function changedWords() {
  const [world, ann, bob] = await begin("the old quay wall", "ann", "bob");
  await world.clock.finish(suggest(bob, "quay wall", "pier"));
  await world.advance(SECOND);
  ann.type(8, 4, "harbour");
  await world.settle();
  await acceptOn(world, ann, ann.session.comments.list[0]);
  await world.settle();
  same("a suggestion for words that have changed takes their place", world.text(), "the old pier");
  await world.clock.finish(suggest(bob, "pier", "quay"));
  await world.advance(SECOND);
  ann.type(8, 4, "");
  await world.settle();
  await acceptOn(world, bob, bob.session.comments.list.at(-1));
  await world.settle();
  same("and where the words are gone, it comes in their place", [world.text(), agree(world)], ["the old quay", true]);
  world.end();
}

async function replied() {
  const [world, ann, bob] = await begin("alpha beta", "ann", "bob");
  const name = await world.clock.finish(ann.session.comment(...stretchOf(ann, "beta"), "why?"));
  await world.advance(SECOND);
  const [parent] = bob.session.comments.list;
  await world.clock.finish(bob.session.comment(parent.from, parent.to, reply(parent.name, "@ann because")));
  await world.advance(SECOND);
  same("a reply is on the same words, and in the thread", threadsOf(ann.session.comments.list).map(({ text, from, to, replies }) => [text, ann.session.pad.text.slice(from, to), ...replies.map((one) => [one.author, one.text])]), [["why?", "beta", ["bob@1", "@ann because"]]]);
  same("and names its comment", [name, parent.name], [[1, 2], [1, 2]]);
  world.end();
}

await tally.run([forms, threads, stretches, accepted, acceptedTwice, changedWords, replied]);
