// What can go wrong.
class PadError extends Error {
  constructor(...given) {
    super(...given);
    this.name = new.target.name;
  }
}

// The server refused a request. `reply` is what it said, and its `code` says why (docs/PROTOCOL.md).
export class Refused extends PadError {
  constructor(reply) { super(`${reply.code} ${reply.error}`); this.reply = reply; }
  get code() { return this.reply.code; }
}

// The pad is closed: nobody can change it, and only who may own it can join it.
export class PadClosed extends Refused {}
const CLOSED = 330;

export const refused = (reply) => new (reply.code === CLOSED ? PadClosed : Refused)(reply);

// There is no connection, or it ended before the answer. `reply` is a refusal that nobody had asked for, such as 902, or null.
// `cause` is what the system said, where it says something.
export class Lost extends PadError {
  constructor(text, { reply = null, cause } = {}) { super(text, cause && { cause }); this.reply = reply; }
}

// The server has another past than the page: its store was restored from an older copy.
export class LostRevisions extends PadError {}

// An answer of the server does not fit the text that the page has of that revision.
export class Misfit extends PadError {}

// Another pad was asked for before this one was open.
export class Superseded extends PadError {
  constructor(pad) { super(`another pad was asked for before ${pad} was open`); }
}

// The pad has changes that were not taken, or cannot be sent. `cause` is why, if that is known.
export class Unsaved extends PadError {
  constructor(pad, options) { super(`${pad} has changes that are not saved`, options); }
}

// Another page has taken what this one had not sent.
export class Taken extends PadError {
  constructor() { super("another page has taken what was not sent"); }
}
