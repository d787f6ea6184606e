// The server counts characters (Unicode scalar values), and JavaScript counts units (UTF-16): a character beyond 16 bits
// has two units, a high half and a low one. Here one becomes the other, and deltas become the wire's lists.
import { Misfit } from "./errors.js";

const PAIRS = /[\ud800-\udbff]/, LONE_HALVES = /[\ud800-\udfff]/gu;
let lastText = "", lastHasPairs = false;

// Whether a text has characters of two units. The last answer is kept, since one text is asked about many times.
export function hasPairs(text) {
  if (text !== lastText) { lastText = text; lastHasPairs = PAIRS.test(text); }
  return lastHasPairs;
}

const isHigh = (text, at) => (text.charCodeAt(at) & 0xfc00) === 0xd800;
const isLow = (text, at) => (text.charCodeAt(at) & 0xfc00) === 0xdc00;

// Whether a place is inside of a character, between its two units; and the edges of the character around it.
export const isInside = (text, at) => at > 0 && isLow(text, at) && isHigh(text, at - 1);
export const edgeBefore = (text, at) => (isInside(text, at) ? at - 1 : at);
export const edgeAfter = (text, at) => (isInside(text, at) ? at + 1 : at);

// A text as the server takes it: half a character becomes U+FFFD.
export const wellFormed = (text) => text.replace(LONE_HALVES, "\ufffd");

// How many characters a stretch of units has.
export function count(text, from = 0, to = text.length) {
  if (!hasPairs(text)) return to - from;
  let characters = 0;
  for (let at = from; at < to; characters++) at += isHigh(text, at) ? 2 : 1;
  return characters;
}

// The unit that comes so many characters after another.
export function unit(text, characters, from = 0) {
  if (!hasPairs(text)) return Math.min(text.length, from + characters);
  let at = from;
  for (; characters > 0 && at < text.length; characters--) at += isHigh(text, at) ? 2 : 1;
  return at;
}

// The parts of an edit that makes this delta over this text. Neighbouring insertions are one part: the server would put the
// later one of two parts at one place first.
export function partsOf(delta, text) {
  const parts = [];
  let at = 0, characters = 0;
  for (const step of delta) {
    if (step.insert !== undefined) {
      const last = parts[parts.length - 1];
      if (last?.text !== undefined && last.at === characters) last.text += step.insert;
      else parts.push({ at: characters, text: step.insert });
      continue;
    }
    const units = step.keep ?? step.drop, len = count(text, at, at + units);
    if (step.drop) parts.push({ at: characters, len });
    at += units;
    characters += len;
  }
  return parts;
}

// Where a place is after the list in an answer to `changes`, both in characters. What is inserted there comes behind it, or before
// it with `after`.
export function movedBy(changes, place, after = false) {
  let at = 0, to = 0;
  for (const [kind, what] of changes) {
    if (kind === "insert") {
      if (at > place || (at === place && !after)) return to;
      to += count(what);
      continue;
    }
    const passed = Math.min(what, place - at);
    at += passed;
    if (kind === "keep") to += passed;
    if (passed < what) return to;
  }
  return to;
}

// The delta of the list in an answer to `changes`, over this text. It goes through the whole text, and no further.
export function deltaOf(changes, text) {
  const delta = [];
  let at = 0;
  for (const [kind, what, author] of changes) {
    if (kind === "insert") { delta.push({ insert: what, author }); continue; }
    const to = unit(text, what, at);
    if (count(text, at, to) !== what) throw new Misfit(`${what} characters to ${kind} at ${at} of ${text.length}`);
    if (to > at) delta.push(kind === "keep" ? { keep: to - at } : { drop: to - at });
    at = to;
  }
  if (at !== text.length) throw new Misfit(`the answer ends at ${at} of ${text.length}`);
  if (delta[delta.length - 1]?.keep) delta.pop();
  return delta;
}
