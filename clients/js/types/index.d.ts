// The types of the library. Places and lengths are in JavaScript's units (UTF-16) of what `pad.text` shows, unless it is said
// that they are the server's characters.

import * as delta from "./delta.js";

export { delta };
export { Delta, Run, Step, Stretch } from "./delta.js";
import { Delta, Run, Stretch } from "./delta.js";
import { Guest, LinkRight, PadRequests, Requests, Right, Entry, Name } from "./requests.js";

export { Change, Entry, Guest, LinkRight, Name, PadRequests, Requests, Right } from "./requests.js";

// ---- connecting

/** A connection as a session uses it: a browser's WebSocket, or anything with the same handlers. */
export interface Channel {
  listen(handlers: { onopen(): void; onmessage(message: { data: string }): void; onerror(error: unknown): void; onclose(): void }): void;
  send(text: string): void;
  close(): void;
}

export type Opener = () => Channel;

/** Opens a WebSocket: `ws://HOST:PORT/socket`, or `wss://`. */
export function webSocket(url: string): Opener;

/** How a connection to an address is opened. A scheme that there is none for is a RangeError. */
export function opener(address: string): Opener;

export interface SessionOptions {
  /** Milliseconds between two edits (`gather`) and two waits (`rest`), and seconds of a wait. */
  pace?: Pace;
  /** The time, for tests. */
  clock?: Clock;
  /** Numbers from 0 to 1, by which pauses differ. */
  random?: () => number;
  /** Resolves to the author, such as `ann@1`, as whom a proxy has logged in whoever connects, or to null: at `/me`, for example. */
  user?: () => Promise<string | null>;
  /** Where what is not sent is kept as it is typed, so that it outlives the program. Without one, it does not. */
  store?: DraftStore;
}

/** What is kept of a pad that has something unsent: its own matter, but for these names. */
export interface Draft { id: string; name: string; pad: string; isUnsent: boolean; [more: string]: unknown }
export interface DraftText { rev: number; base: string; runs: Run[] }

/** A store of drafts, such as one in a browser's IndexedDB. What is put is read later, and may not be changed by the store. */
export interface DraftStore {
  newId(): string;
  /** Writes a draft, and the text if it is given: both or none. Fails with `Taken` if another program has taken the draft. */
  put(draft: Draft, text: DraftText | null): Promise<void>;
  /** The drafts of an author's pad that belong to no program any more, the last one last. They belong to this one then. */
  take(name: string, pad: string): Promise<(Draft & { text: DraftText })[]>;
  /** One draft, which belongs to this program then; null if another one has it. */
  open(id: string): Promise<(Draft & { text: DraftText }) | null>;
  /** The draft belongs to no program any more. */
  release(id: string): Promise<void>;
  drop(id: string): Promise<void>;
}

/** Another way to open connections than the address's scheme says. */
export interface Opening extends SessionOptions { open?: Opener }
/** `guest`: the secret of a link and one of the guest's own, with a point between them. */
export type ConnectOptions = Opening & ({ name: string; token: string; guest?: undefined } | { guest: string; name?: undefined; token?: undefined });

/**
 * Connects and logs in, as an author or as a guest. Fails with `Lost` without a server, and with `Refused` (201) if the name or the
 * token is wrong, or if the server takes no guests.
 */
export function connect(address: string, options: ConnectOptions): Promise<Session>;

export interface Pace { gather: number; rest: number; wait: number }
export interface Clock {
  now(): number;
  after(milliseconds: number, act: () => void): unknown;
  cancel(timer: unknown): void;
}

export const PACE: Pace;

// ---- a session

/**
 * `saved`: the server has everything. `saving`: something is not sent or not answered. `held`: the server takes nothing at
 * the moment (`heldBy`). `lost`: there is no connection; what is typed is kept, and sent when there is one again.
 * `closed`: an owner has closed the pad, which has put the author out. What is typed and not sent is kept, and sent once the pad is open
 * again: the session asks every half minute, over another connection, and `hurry` asks at once. `over`: the session has ended.
 */
export type State = "saved" | "saving" | "held" | "lost" | "closed" | "over";

/** What `session.on` tells of, by the listeners. */
export interface Listeners {
  /** What is shown has changed, by the author or by others. */
  change: (delta: Delta) => void;
  /** Others have changed it, or words of the author were taken back, since the server refused them. */
  receive: (delta: Delta) => void;
  /** `pad.rev` has moved. */
  revision: (step: { from: number; to: number; isOwn: boolean }) => void;
  /** `state` may be another one. */
  state: () => void;
  /** `presence`, `comments`, or `right`, `rights` and `isClosed` are others. */
  presence: () => void;
  comments: () => void;
  rights: () => void;
  /** Another author has come to the pad, or gone. */
  come: (author: string) => void;
  go: (author: string) => void;
  /** The server does not take these words. They are in `kept`. */
  refused: (reply: Refusal, words: string) => void;
  /** Words that an earlier program had not sent cannot be sent. They are in `kept`. */
  returned: () => void;
  /** The server had another text than the one shown, and the pad was read again. */
  reread: () => void;
  /** The session has ended by itself. */
  over: (error: Error) => void;
}

export interface Refusal { ok: false; code: number; error: string }

/** An author's session. It has one pad open, also over connections that are lost. For several pads, use several sessions. */
export class Session {
  constructor(options: SessionOptions & { open: Opener });

  /** The author as others see it, `name@number`. The number of the server can change. */
  readonly me: string;
  readonly name: string;
  /** Whether a proxy has logged the author in, and not a token. */
  readonly isUser: boolean;
  /** Whether the author came by a link for guests, without an account. */
  readonly isGuest: boolean;
  /** The pad that is open, and what is there with it, or null. */
  readonly pad: Pad | null;
  readonly presence: Presence | null;
  readonly comments: Comments | null;
  /** Words of the author that the server did not take. */
  readonly kept: KeptWords;
  readonly state: State;
  /** The author's right: the greater of the author's own and that of everyone, or for a guest, that of the guest's link. */
  readonly right: Right;
  /** Who has which right. The owner is the first; `*` is everyone. */
  readonly rights: [author: string, right: Right][];
  /** Whether the pad is closed: nobody can change it then, and only who may own it can join it. */
  readonly isClosed: boolean;
  /** Whether the author has the right to, and the pad is not closed. */
  readonly mayWrite: boolean;
  readonly mayComment: boolean;
  /** Why the server takes nothing at the moment. */
  readonly heldBy: Refusal | null;
  readonly isLost: boolean;
  readonly isOver: boolean;
  /** What ended the session. */
  readonly endedBy: Error | null;
  readonly isUnsent: boolean;
  readonly unsentWords: string;
  /** How much of the pad's room is used, from 0 to 1, and how many more changes it can take. */
  readonly room: { used: number; left: number };
  /** Set it while nobody looks: it is then asked more rarely who is there. */
  isHidden: boolean;

  /** Connects. Fails as `connect` does. */
  logIn(name: string, token: string): Promise<void>;
  logInAsGuest(token: string): Promise<void>;
  /** Ends the session, without waiting for what is not sent: `saved` does that. */
  logOut(): void;

  /** Has a listener told, until the function that is returned is called. One that throws ends the session. */
  on<Event extends keyof Listeners>(event: Event, listener: Listeners[Event]): () => void;

  /** The pads that the author may read. */
  pads(): Promise<{ name: string; right: Right; now: number; isClosed: boolean }[]>;
  /** Those of these authors of the server, 1 to 100, who have a display name. */
  people(authors: string[]): Promise<{ author: string; name: string }[]>;
  /**
   * Opens a pad; the one before is saved and left first. Fails with `Refused` (300 no such pad, 301 there is one, 303 no
   * valid name, 312 no right), `PadClosed`, `Unsaved` if the one before cannot be saved, and `Superseded` if another one was asked for.
   */
  join(pad: string): Promise<Pad>;
  create(pad: string): Promise<Pad>;
  leave(): Promise<void>;

  /**
   * Resolves once the server has all that the author did, however long that takes. Fails with `Unsaved` if the server
   * refused something since `saved` was last asked, or if the session ends before; `cause` says why.
   */
  saved(): Promise<void>;
  /** Ends a pause between two attempts to connect, or to come back to a pad that was closed. */
  hurry(): void;

  /** Comments on what is shown between two places. Resolves to the comment's name once it is made. */
  comment(from: number, to: number, text: string): Promise<Name>;
  resolve(comment: Name): Promise<unknown>;
  /** Tells others where the author's caret is in what is shown. */
  moveCaret(at: number): void;
  /** Gives an author a right, or takes it away; the author `*` is everyone. Fails with `Refused`. */
  grant(author: string, right: Right): Promise<void>;
  /** Hands the pad over to an author; the owner before may still write. Fails with `Refused`. */
  hand(author: string): Promise<void>;
  /** Closes the pad: nobody can change it any more, and who may not own it is put out. Fails with `Refused`, 102 by an older server. */
  close(): Promise<void>;
  /** Opens a pad again that was closed. */
  reopen(): Promise<void>;
  /** Makes a link by which guests come to the pad with a right. Resolves to its secret, which the server does not keep. */
  invite(right: LinkRight): Promise<string>;
  /** A guest is called by this name on the pad, 1 to 60 characters. Who is no guest is refused with 312. */
  introduce(name: string): Promise<void>;
  /** The guests of the pad who have chosen a name, in the order in which they first did. */
  guests(): Promise<Guest[]>;

  /** Asks for the comments, the rights and who is here, rather than wait until they are asked for. */
  refresh(): Promise<void>;

  /** Any request of docs/PROTOCOL.md. Fails with `Refused` and `Lost`. */
  call<Do extends keyof Requests>(request: { do: Do } & Requests[Do]["ask"]): Promise<Requests[Do]["reply"]>;
}

/** A pad as its author sees it: what the server has, and what the author typed since. */
export class Pad {
  private constructor();
  readonly name: string;
  /** What is shown, and who wrote it. */
  readonly text: string;
  readonly runs: Run[];
  /** The revision that the server's part of it is, and its text. */
  readonly rev: number;
  readonly base: string;
  /** The newest revision that is known of. */
  readonly now: number;
  readonly isUnsent: boolean;
  readonly unsentWords: string;

  /** Changes what is shown. A place outside of it is a RangeError. Half a character becomes U+FFFD. */
  insert(at: number, text: string): void;
  erase(at: number, units: number): void;
  replace(at: number, units: number, text: string): void;
  /** What is shown becomes another text, by one change. `end`: where the caret is in it. */
  setText(text: string, end?: number): void;
  /** Any change, as a delta over what is shown. */
  type(delta: Delta): void;

  readonly canUndo: boolean;
  readonly canRedo: boolean;
  /** Undoes or redoes the author's own last change: the delta over what was shown, or null if there is none. */
  undo(): Delta | null;
  redo(): Delta | null;
  /** Other authors whose words that would bring back, as the author's own. */
  ownersOfStep(isRedo?: boolean): string[];

  /** A delta over the text of an earlier revision, as one over what is shown; null if that revision is too old for it. */
  carriedDelta(delta: Delta, rev: number): Delta | null;

  /** Any request on this pad. Fails with `Refused` and `Lost`. */
  call<Do extends keyof PadRequests>(request: { do: Do } & PadRequests[Do]["ask"]): Promise<PadRequests[Do]["reply"]>;
}

export interface Person { author: string; visit: number; isMe: boolean; /** Where the caret is, if that is known. */ at: number | null }
export interface Presence { readonly people: Person[]; readonly others: Person[] }

export interface Comment extends Stretch {
  id: string;
  /** Without one, the server does not have it yet. */
  name?: Name;
  author: string;
  text: string;
  isResolved: boolean;
  isUnsent?: boolean;
}
export interface Comments { readonly list: Comment[]; /** Also those that are not sent. */ readonly all: Comment[] }

export interface KeptWords {
  readonly text: string;
  readonly areWaiting: boolean;
  /** The author has them elsewhere, or wants them no more. */
  copied(): void;
  clear(): void;
}

// ---- earlier revisions

export interface Revision { rev: number; text: string; runs: Run[] }

export class History {
  constructor(pad: Pad);
  /** The text of a revision, with its authors. */
  at(rev: number): Promise<Revision>;
  /** Who made a revision, and how; null for revision 0, which is empty. */
  entry(rev: number): Promise<Entry | null>;
  /** When the server heard of a revision, in milliseconds since 1970; null for revision 0, and where the server does not tell. */
  time(rev: number): Promise<number | null>;
  /** Who wrote the character at a place of a revision's text. The last answer is kept. Fails with `Refused` 102 before an older server. */
  birth(rev: number, at: number): Promise<Birth>;
  /** The named revisions, in the order in which they were named. Fails with `Refused` 102 before an older server, as `mark` does. */
  marks(): Promise<NamedRevision[]>;
  /** Names a revision, which needs the right to write. A name has 1 to 100 characters, and is never changed or taken away. */
  mark(rev: number, text: string): Promise<void>;
  /** The times of revisions 1, 1 + step, 1 + 2 * step, .., at most `count` of them. */
  timesBy(step: number, count: number): Promise<number[]>;
  /** The last revision that is not later than this time. */
  revAt(time: number): Promise<number>;
  /** The delta from revision `to` back to the text of `rev`. What was erased comes back as words of `author`. */
  back(rev: number, to: number, author: string): Promise<Delta>;
  /** Two revisions in one text. */
  compare(from: number, to: number): Promise<Comparison>;
}

export interface NamedRevision {
  rev: number;
  /** Who named it, without the number of a server, since names of revisions are this server's own. */
  author: string;
  /** When it was named, in milliseconds since 1970. */
  time: number;
  text: string;
}

export interface Birth {
  author: string;
  /** The revision that inserted the character. */
  rev: number;
  /** Its time, in milliseconds since 1970. */
  time: number;
}

export interface Comparison {
  from: number;
  to: number;
  text: string;
  runs: [author: string, units: number, kind: "insert" | "drop" | undefined][];
  inserted: number;
  dropped: number;
}

// ---- errors

/** The server refused a request. */
export class Refused extends Error { constructor(reply: Refusal); readonly reply: Refusal; readonly code: number }
/** The pad is closed (330). */
export class PadClosed extends Refused {}
/** There is no connection, or it ended before the answer. `reply`: what the server said before it ended it, such as 902. */
export class Lost extends Error { readonly reply: Refusal | null; readonly cause?: Error }
/** The server has another past: its store was restored from an older copy. */
export class LostRevisions extends Error {}
/** An answer does not fit the text that it should. */
export class Misfit extends Error {}
/** Another pad was asked for before this one was open. */
export class Superseded extends Error {}
/** Another program has taken the draft, and goes on with it. */
export class Taken extends Error {}
/** There are changes that were not taken, or cannot be sent. `cause` is why. */
export class Unsaved extends Error { readonly cause?: Error }

// ---- guests

/** Whether an author's name, without the number of a server, is that of a guest, or of a link for guests. */
export function isGuest(name: string): boolean;
export function isLink(name: string): boolean;
/** A secret for a link, or one of a guest's own: 16 random bytes as 22 characters. In Node from version 20 on. */
export function newSecret(): string;

// ---- characters

/** How many of the server's characters a stretch of a text has, and the unit so many characters after another. */
export function count(text: string, from?: number, to?: number): number;
export function unit(text: string, characters: number, from?: number): number;

/** The server's limits: characters of a pad, of an edit and of a comment, changes of a pad, parts of an edit. */
export const LIMITS: Readonly<Record<"operations" | "characters" | "comments" | "edit" | "parts" | "comment" | "entries", number>>;
