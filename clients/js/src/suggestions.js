// Suggestions that are accepted. A comment that suggests words (threads.js) is resolved, and whoever resolves it first decides
// about it: so two authors who accept one at the same time make its change once. On pads that servers exchange, each server
// decides by itself.
import { pause } from "./clock.js";
import { add, trim, typed } from "./delta.js";
import { Lost } from "./errors.js";
import { suggestion, suggestionIn } from "./threads.js";
import { unit } from "./units.js";

const LOOK = 20;

const isNamed = (name) => (comment) => comment.name.join() === name.join();

// Resolves a comment. Resolves to whether it was not resolved before.
async function settle(pad, name) {
  const { now } = await pad.call({ do: "resolve", comment: name });
  const { comments } = await pad.call({ do: "comments", rev: now - 1 });
  return comments.find(isNamed(name))?.resolved === false;
}

// Where a comment is at a revision that the pad holds: { rev, at, len } in the server's characters.
async function placeOf(pad, name, isOpen) {
  for (;;) {
    const { rev } = pad, { comments } = await pad.call({ do: "comments", rev }), found = comments.find(isNamed(name));
    if (!isOpen()) throw new Lost("the pad was left");
    if (found && pad.baseAt(rev) !== null) return { rev, at: found.at, len: found.len };
    await pause(LOOK, pad.clock);
  }
}

// How many units two texts have in common at their starts, and then at their ends.
export function common(before, after) {
  const delta = typed(before, after, after.length, ""), start = delta[0]?.keep ?? 0;
  const dropped = delta.find((step) => step.drop)?.drop ?? 0;
  return { start, end: before.length - start - dropped };
}

// Decides for a suggestion. Resolves to null if that was decided already, and else to a function that answers the change of what
// is shown then, { delta, tag }: it has to be typed at once, as a step of undo that has this tag.
export async function accept(session, { name, author, text }) {
  const { pad } = session;
  if (!(await settle(pad, name))) return null;
  const place = await placeOf(pad, name, () => pad === session.pad && !session.isOver);
  return () => {
    const base = pad.baseAt(place.rev), start = unit(base, place.at), { words } = suggestionIn(text);
    const from = pad.carried(start, place.rev, true), to = Math.max(from, pad.carried(unit(base, place.len, start), place.rev));
    const had = pad.text.slice(from, to), delta = typed(had, words, words.length, pad.me).reduce(add, add([], { keep: from }));
    return { delta: trim(delta), tag: { suggestion: { author, text, ...common(had, words) }, name: null } };
  };
}

// A step that accepted a suggestion was taken back, or made again. Its suggestion is made again by this author, with whose it was;
// or it is resolved again.
export function stepped(session, delta, isRedo, changed) {
  const { tag } = delta, { pad } = session;
  if (!tag?.suggestion) return;
  if (isRedo) {
    if (tag.name) session.resolve(tag.name).catch(() => {});
    return;
  }
  const { author, text, start, end } = tag.suggestion, { old, words, reason } = suggestionIn(text);
  const from = Math.max(0, changed.from - start), to = Math.min(pad.text.length, changed.after + end);
  const whose = author === session.me ? reason : [reason, `(${author})`].filter(Boolean).join("\n");
  const again = suggestion(old ?? pad.text.slice(from, to), words, whose) ?? text;
  if (from < to) session.comment(from, to, again).then((name) => { tag.name = name; }, () => {});
}
