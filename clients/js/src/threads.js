// What the text of a comment can say beside words: that it suggests other words for those it is on, that it replies to another
// comment, and whom it addresses. Each is a form that can be read as it is by who does not know it:
//
//     Suggestion: "old words" → "new words"
//     the reason, if there is one
//
//     Reply to [1,5]: I agree.
//
//     @bob, what do you think?
//
// The words of a suggestion are strings as in JSON. The old ones are left out if the comment would be too long. A reply is on the
// same words as the comment that it names.
import { LIMITS } from "./limits.js";
import { wellFormed } from "./units.js";

const STRING = '"(?:[^"\\\\]|\\\\.)*"', SUGGESTION = new RegExp(`^Suggestion: (?:(${STRING}) )?→ (${STRING})(?:\\n([^]*))?$`);
const REPLY = /^Reply to \[(\d{1,15}),(\d{1,15})\]: ([^]*)$/, NAME = /(?<![\w@.-])@([a-z0-9-]{1,32})(?![\w@-])/g;

const isShort = (text) => [...text].length <= LIMITS.comment;
const quoted = (words) => JSON.stringify(wellFormed(words)).replace(/[\u2028\u2029]/g, (one) => `\\u${one.charCodeAt(0).toString(16)}`);

// The text of a comment that suggests these words for others, or null if it would be too long.
export function suggestion(old, words, reason = "") {
  const end = `→ ${quoted(words)}${reason && `\n${reason}`}`, forms = [`Suggestion: ${quoted(old)} ${end}`, `Suggestion: ${end}`];
  return forms.find(isShort) ?? null;
}

// What a comment's text suggests: { old, words, reason }, where `old` can be null; or null if it suggests nothing.
export function suggestionIn(text) {
  const found = text.match(SUGGESTION);
  if (!found) return null;
  try {
    return { old: found[1] === undefined ? null : JSON.parse(found[1]), words: JSON.parse(found[2]), reason: found[3] ?? "" };
  } catch { return null; } // a string that is none of JSON's
}

// The text of a comment that replies to the one of this name, and what a text replies: { to, text }, or null.
export const reply = (name, text) => `Reply to [${name.join()}]: ${text}`;
export function replyIn(text) {
  const found = text.match(REPLY);
  return found && { to: [Number(found[1]), Number(found[2])], text: found[3] };
}

// The names of authors whom a text addresses.
export const addressed = (text) => [...new Set([...text.matchAll(NAME)].map(([, name]) => name))];

// Comments with those that reply to them: { ...comment, replies }. A reply to a reply is one to the first comment, and one to a
// comment that is not there is a comment of its own. Whoever resolves a comment resolves its thread.
export function threadsOf(comments) {
  const byName = new Map(comments.filter(({ name }) => name).map((comment) => [comment.name.join(), comment])), threads = new Map(), roots = new Map();
  const rootOf = (comment) => {
    const way = [];
    let one = comment;
    for (let parent; way.length <= comments.length && !roots.has(one) && (parent = byName.get(replyIn(one.text)?.to.join())); one = parent) way.push(one);
    const isRing = way.length > comments.length, root = roots.get(one) ?? one; // in a ring, they reply to one another
    for (const each of way) roots.set(each, isRing ? each : root);
    return isRing ? comment : root;
  };
  for (const comment of comments) if (rootOf(comment) === comment) threads.set(comment, { ...comment, replies: [] });
  for (const comment of comments) {
    const thread = threads.get(rootOf(comment));
    if (rootOf(comment) !== comment) thread.replies.push({ ...comment, text: replyIn(comment.text).text });
  }
  return [...threads.values()];
}
