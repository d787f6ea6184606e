// The characters of what is shown, as readers see them: where they begin and end, where they are on the screen, and which revision
// has them.
import { placeAt } from "./input.js";
import { edgeAfter, edgeBefore } from "../clients/js/src/units.js";

const SLACK = 6; // pixels between two lines that belong to one of them
const AROUND = 64; // units before and behind a place, within which its character begins and ends
const segmenter = globalThis.Intl?.Segmenter ? new Intl.Segmenter(undefined, { granularity: "grapheme" }) : null;

// The stretch { from, to } of the character with this unit. Letters with their accents are one, and emoji of several parts.
export function characterOf(text, unit) {
  const from = edgeBefore(text, unit), to = edgeAfter(text, unit + 1), start = edgeBefore(text, Math.max(0, from - AROUND));
  const found = segmenter?.segment(text.slice(start, to + AROUND)).containing(from - start);
  return found ? { from: start + found.index, to: start + found.index + found.segment.length } : { from, to };
}

// Where a stretch of one character is on the screen, or null: the end of a line is nowhere.
export function rectOf(lines, { from, to }) {
  const range = document.createRange(), start = lines.pointOf(from), end = lines.pointOf(to);
  range.setStart(start.node, start.offset);
  range.setEnd(end.node, end.offset);
  return [...range.getClientRects()].find(({ width, height }) => width > 0 && height > 0) ?? null;
}

export function isAt({ left, right, top, bottom }, x, y) { return x >= left && x <= right && y >= top - SLACK && y <= bottom + SLACK; }

// The character at a point of the window, as { from, to }, or null.
export function characterAt(lines, x, y) {
  const place = placeAt(x, y), unit = place && lines.root.contains(place.node) ? lines.unitOf(place.node, place.offset) : null;
  if (unit === null) return null;
  const near = [unit, unit - 1].filter((at) => at >= 0 && at < lines.text.length).map((at) => characterOf(lines.text, at));
  return near.find((one) => { const rect = rectOf(lines, one); return rect && isAt(rect, x, y); }) ?? null;
}

// What is selected in lines, as { from, to }, or null.
export function selectedIn(lines) {
  const { anchorNode, anchorOffset, focusNode, focusOffset } = getSelection();
  if (!lines.root.contains(anchorNode) || !lines.root.contains(focusNode)) return null;
  const ends = [lines.unitOf(anchorNode, anchorOffset), lines.unitOf(focusNode, focusOffset)];
  return { from: Math.min(...ends), to: Math.max(...ends) };
}

export function select(lines, { from, to }) {
  const start = lines.pointOf(from), end = lines.pointOf(to);
  getSelection().setBaseAndExtent(start.node, start.offset, end.node, end.offset);
}

// Whose a unit is, by runs.
export function authorAt(runs, unit) {
  let end = 0;
  return runs.find(([, units]) => (end += units) > unit)?.[0] ?? "";
}

// Which of two revisions that are compared has a unit of their common text, and where: { rev, at }.
export function comparedPlace({ from, to, runs }, unit) {
  let at = 0, old = 0, now = 0;
  for (const [, units, kind] of runs) {
    const within = unit - at;
    if (within < units) return kind === "drop" ? { rev: from, at: old + within } : { rev: to, at: now + within };
    at += units;
    if (kind !== "insert") old += units;
    if (kind !== "drop") now += units;
  }
  return null;
}

// Where the unit at a place behind a delta was before it, or null if the delta has inserted it.
export function sourceOf(at, delta) {
  let old = 0, now = 0;
  for (const step of delta) {
    if (step.drop) { old += step.drop; continue; }
    const { length = step.keep } = step.insert ?? {};
    if (now + length > at) return step.insert ? null : old + at - now;
    now += length;
    if (step.keep) old += step.keep;
  }
  return old + at - now;
}

// Where a unit of what a pad shows is in the text of its revision, or null if the server is not known to have it.
export function sentPlace({ pending, flight }, unit) {
  const before = sourceOf(unit, pending);
  return before === null ? null : sourceOf(before, flight ?? []);
}
