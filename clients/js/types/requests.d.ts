// The requests of docs/PROTOCOL.md, with their replies. Places and lengths here are the server's characters. A request that
// is added to the server is added here alone.

export type Right = "none" | "read" | "comment" | "write" | "own";
/** What a link for guests can give. */
export type LinkRight = "read" | "comment" | "write";
/** A guest of a pad, and the name that the guest has chosen. */
export interface Guest { author: string; name: string }
/** The name of an operation or a comment: the number of its server, and which of that server's operations it is. */
export type Name = [origin: number, number: number];
export type Change = ["keep", number] | ["drop", number] | ["insert", string, string];
export type Part = { at: number; text: string } | { at: number; len: number };
/** `at`: its time in milliseconds since 1970, if `times` was asked for. */
export interface Entry { author: string; kind: "insert" | "delete" | "edit" | "comment" | "resolve"; name: Name; rev: number; at?: number }
export interface PlacedComment { at: number; author: string; len: number; name: Name; resolved: boolean; text: string }

interface Request<Ask, Reply> { ask: Ask; reply: { ok: true } & Reply }
type On<Ask, Reply> = Request<Ask, { now: number } & Reply>;
type None = Record<never, never>;
type Made = { name: Name };
type Rev = { rev: number };

/** Requests on a pad that is joined. `pad.call` adds the pad. */
export interface PadRequests {
  leave: On<None, None>;
  insert: On<Rev & { at: number; text: string }, Made>;
  delete: On<Rev & { at: number; len: number }, Made & { hidden: number }>;
  edit: On<Rev & { parts: Part[] }, Made & { hidden: number }>;
  comment: On<Rev & { at: number; len: number; text: string }, Made>;
  resolve: On<{ comment: Name }, Made>;
  text: On<Partial<Rev>, Rev & { text: string }>;
  runs: On<Partial<Rev>, Rev & { runs: [author: string, characters: number][] }>;
  comments: On<Partial<Rev>, Rev & { comments: PlacedComment[] }>;
  changes: On<Rev & { to?: number; wait?: number }, Rev & { to: number; notes: number; changes: Change[] }>;
  revs: On<None, { cells: number; length: number }>;
  entries: On<{ from: number; count: number; times?: boolean }, { entries: Entry[] }>;
/** Milliseconds since 1970. With `at`, the last revision of each moment, or 0. */
  times: On<{ from: number; step: number; count: number }, { times: number[] }> | On<{ at: number[] }, { revs: number[] }>;
  /** Who wrote the character at a place of a revision, in which revision, and when. */
  birth: On<Rev & { at: number }, { author: string; rev: number; at: number }>;
  caret: On<Rev & { at: number }, None>;
  who: On<None, { who: { author: string; caret: number; visit: number }[] }>;
  /** The author `*` is everyone. */
  grant: On<{ author: string; right: Right }, None>;
  hand: On<{ author: string }, None>;
  /** Closes the pad, and opens it again. */
  close: On<None, None>;
  reopen: On<None, None>;
  /** Names a revision. */
  mark: On<Rev & { text: string }, None>;
  /** The named revisions; `at` is when, in milliseconds since 1970. */
  marks: On<None, { marks: { at: number; author: string; rev: number; text: string }[] }>;
  /** `closed` is there where the pad is closed. */
  rights: On<None, { rights: [author: string, right: Right][]; closed?: true }>;
  /** Makes a link for guests, by its secret. */
  invite: On<{ secret: string; right: LinkRight }, None>;
  /** A guest is called by this name. */
  introduce: On<{ as: string }, None>;
  guests: On<None, { guests: Guest[] }>;
}

type WithPad = { [Do in keyof PadRequests]: { ask: { pad: string } & PadRequests[Do]["ask"]; reply: PadRequests[Do]["reply"] } };

/** All requests of an author. */
export interface Requests extends WithPad {
  hello: Request<{ name: string; token: string }, { author: string }>;
  /** The secret of a link and one of the guest's own, with a point between them. */
  guest: Request<{ token: string }, { author: string }>;
  pads: Request<None, { pads: [name: string, right: Right, now: number, closed?: "closed"][] }>;
  create: On<{ pad: string }, { visit: number }>;
  join: On<{ pad: string }, { visit: number }>;
}
