// What a key, a paste or a deletion says in the mode in which it is a suggestion: other words for a stretch of the text.
import { common } from "../clients/js/src/suggestions.js";
import { suggestionIn } from "../clients/js/src/threads.js";

const WORD = /[\p{L}\p{N}\p{M}'’_:.-]/u, LONGEST = 60;

const lineStart = (text, at) => text.lastIndexOf("\n", at - 1) + 1;
const lineEnd = (text, at) => { const found = text.indexOf("\n", at); return found < 0 ? text.length : found; };

// Where words begin that end at a place, and end that begin at one; without any, the place itself.
function wordBefore(text, at) {
  let from = at;
  const least = Math.max(lineStart(text, at), at - LONGEST);
  while (from > least && /\s/.test(text[from - 1])) from--;
  while (from > least && WORD.test(text[from - 1])) from--;
  return from === at || from > least || from === lineStart(text, at) ? from : at - 1;
}
function wordAfter(text, at) {
  let to = at;
  const most = Math.min(lineEnd(text, at), at + LONGEST);
  while (to < most && WORD.test(text[to])) to++;
  return to;
}

// The stretch of which other words are suggested where `inserted` comes between two places, or null in an empty text. A comment is
// on one character at least, so an insertion is one of the words beside it: { from, to, words, caret }, with the caret in `words`.
export function stretchFor(text, from, to, inserted) {
  let [start, end] = [from, to];
  if (from === to) {
    start = wordBefore(text, from);
    if (start === from) end = wordAfter(text, to);
    if (start === end && start > 0) start = text.codePointAt(start - 2) > 0xffff ? start - 2 : start - 1;
    else if (start === end) end = Math.min(text.length, end + (text.codePointAt(end) > 0xffff ? 2 : 1));
  }
  if (start === end) return null;
  return { from: start, to: end, words: text.slice(start, from) + inserted + text.slice(to, end), caret: from - start + inserted.length };
}

// How a suggestion is drawn over its words: { out, proposed }, the stretch of the words that goes, counted from their start, and
// what comes behind it. Words that change are shown as a whole. Null for a comment that suggests nothing.
export function proposalOf(had, words) {
  let { start, end } = common(had, words);
  const isChanged = start + end < had.length && start + end < words.length;
  while (isChanged && start > 0 && WORD.test(had[start - 1])) start--;
  while (isChanged && end > 0 && WORD.test(had[had.length - end])) end--;
  return { out: [start, had.length - end], proposed: words.slice(start, words.length - end) };
}
export function proposalIn(text, had) {
  const found = suggestionIn(text);
  return found && proposalOf(had, found.words);
}
