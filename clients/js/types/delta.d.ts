// Changes of a text, and what can be done with them. What is left at the end of a delta is kept.

export type Step = { keep: number } | { drop: number } | { insert: string; author?: string };
export type Delta = Step[];
/** A stretch of one author: the author as others see it, and how many units. */
export type Run = [author: string, units: number];
export interface Stretch { from: number; to: number }

export function isEmpty(delta: Delta): boolean;
/** Adds a step at the end of a delta, which it changes. */
export function add(delta: Delta, step: Step): Delta;
/** Leaves out what is kept at the end of a delta, which it changes. */
export function trim(delta: Delta): Delta;
/** One change: after `at` units, `dropped` units go and a text comes. */
export function splice(at: number, dropped: number, insert: string, author?: string): Delta;
export function apply(text: string, delta: Delta): string;
export function applyRuns(runs: Run[], delta: Delta): Run[];
/** Two deltas over one text: mine over what theirs leads to, and theirs over what mine does. Mine comes first at one place. */
export function transform(mine: Delta, theirs: Delta): [mine: Delta, theirs: Delta];
/** First one delta, then another over what it leads to. */
export function compose(first: Delta, second: Delta): Delta;
/** What undoes a delta over a text. What it dropped comes back as words of their authors, or of one author. */
export function restoring(delta: Delta, text: string, runs: Run[]): Delta;
export function invert(delta: Delta, text: string, author: string): Delta;
/** A delta in which one author inserts everything. */
export function authored(delta: Delta, author: string): Delta;
/** A delta that leaves no half of a character. */
export function snapped(delta: Delta, text: string): Delta;
/** Where a place is after a delta: before what is inserted there, or behind it with `after`. */
export function move(position: number, delta: Delta, after?: boolean): number;
/** Moves a stretch, which it changes. What is inserted at one of its ends is outside of it. */
export function moveStretch(stretch: Stretch, delta: Delta): void;
/** The stretch that a delta changes: from `from` on, the text up to `before` became that up to `after`. */
export function extent(delta: Delta): { from: number; before: number; after: number };
/** The first part of a delta, of so many changes and units in them, and the rest over what it leads to. */
export function split(delta: Delta, text: string, mostParts: number, mostUnits: number): [first: Delta, rest: Delta];
/** The one change that leads from a text to another. `end` is where the caret is in the new one. */
export function typed(before: string, now: string, end: number, author?: string): Delta;
