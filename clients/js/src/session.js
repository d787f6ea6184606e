// An author's session: keeps one pad open, over lost connections too. Without a display, it tells those who listen (`on`).
import { pause } from "./clock.js";
import { Comments } from "./comments.js";
import { Connection, NOT_JOINED, PASSING } from "./connection.js";
import { Drafts, adopt } from "./drafts.js";
import { Lost, LostRevisions, Misfit, PadClosed, Refused, Superseded, Unsaved } from "./errors.js";
import { Events } from "./events.js";
import { isGuest, newSecret } from "./guests.js";
import { KeptWords } from "./kept.js";
import { LIMITS } from "./limits.js";
import { OwnCaret } from "./own_caret.js";
import { Presence } from "./presence.js";
import { Pulse } from "./pulse.js";
import { rightOf, rightsOn } from "./rights.js";
import { PACE, Pad } from "./sync.js";
import { UnsentComments } from "./unsent.js";
import { joinFirst, joinInstead } from "./visits.js";

// How long what is not sent yet may take before a pad is left.
const SETTLE = 5000, LOOK = 20;
// And how long a connection without the pad may take, before the list of pads says that there is none.
const BRIEF = 2000;
// Refusals that no edit gets if the server has the page's text: no such revision, and a place behind its end.
const UNFIT = [320, 321];
// Refusals that tell of something new: the right is another one, or the pad is closed.
const NEWS = [312, 330];

const NOTHING = () => {};
// What a session tells, with what it gives.
const EVENTS = [
  "change", // a delta: what is shown has changed, by the author or by others
  "receive", // a delta: others have changed it, or words of the author were taken back
  "revision", // { from, to, isOwn }: `pad.rev` has moved
  "state", // `state` may be another one
  "presence", "comments", "rights", // what is there under these names has changed; `isClosed` with the rights
  "come", "go", // an author: another one has come to the pad, or gone
  "refused", // a reply and words: the server does not take these, and they are in `kept`
  "returned", // words that an earlier page had not sent cannot be sent, and are in `kept`
  "reread", // the server had another text than the one shown, and the pad was read again
  "over", // an error: the session has ended by itself
];

export class Session extends Connection {
  // What is not sent is kept in `store` (drafts.js), if there is one.
  constructor({ pace = PACE, store = null, ...connection }) {
    super(connection);
    Object.assign(this, { pace, events: new Events(EVENTS), drafts: new Drafts(this, store), caret: new OwnCaret(this) });
    const { ask } = this;
    this.ask = (request) => ask(request).then((reply) => this.heard(request, reply));
    this.pad = null; this.presence = null; this.comments = null; this.pulse = null; this.kept = new KeptWords(() => this.drafts.keep());
    // How many pads were asked for, how many of these are being opened, and the end of the last one's entry.
    this.entries = 0; this.entering = 0; this.lastEntry = Promise.resolve();
    this.right = "none"; this.rights = []; this.cells = 0; this.isHidden = false; this.keptAt = 0;
    // Whether the pad is closed, and whether the author was put out by that.
    this.isClosed = false; this.isShut = false;
    // What holds words up at the moment, and what the server did not take since `saved` was asked.
    this.heldBy = null; this.refusal = null;
  }

  get name() { return this.me.split("@")[0]; }
  get isGuest() { return isGuest(this.name); }
  get mayWrite() { return !this.isClosed && (this.right === "write" || this.right === "own"); }
  get mayComment() { return this.mayWrite || (!this.isClosed && this.right === "comment"); }

  // Whether the pad was opened without a log-in, as it was kept at `keptAt`.
  get isAway() { return this.pad !== null && this.login === null && !this.isOver; }

  // How the pad is: "saved" is said only when everything is sent and answered.
  get state() {
    if (this.isOver) return "over";
    if (this.isLost) return this.isShut ? "closed" : "lost";
    if (this.heldBy) return "held";
    return this.isUnsent ? "saving" : "saved";
  }

  // Whether there is something that the server is not known to have: changes, or comments.
  get isUnsent() { return this.pad !== null && (this.pad.isUnsent || this.comments.unsent.list.length > 0); }

  // The words of both, to be copied.
  get unsentWords() {
    const comments = this.comments.unsent.list.map(({ text }) => text);
    return [this.pad.unsentWords, ...comments].filter(Boolean).join("\n");
  }

  // Has a listener told of an event, until the function that is returned is called. One that throws ends the session: what it
  // shows may be another text then.
  on(event, listener) { return this.events.on(event, listener); }
  tell(event, ...given) { this.events.tell(event, ...given); }

  // ---- the connection

  logOut() {
    super.logOut();
    this.pulse?.stop();
    this.pad = null;
  }

  // Nothing more is sent on the pad, for now.
  stop() {
    this.pad?.stop();
    this.comments?.unsent.stop();
    this.drafts.stop();
  }

  onState() { this.tell("state"); }
  onOver(error) {
    this.pulse?.stop();
    this.tell("over", error.reply?.code === 300 ? new LostRevisions() : error);
  }
  async goOn() {
    const { pad } = this;
    try { if (pad) await this.rejoin(pad); } catch (error) {
      if (pad !== this.pad && error instanceof Refused) return this.goOn(); // it was left meanwhile
      if (error instanceof PadClosed) this.shut();
      throw error;
    }
    this.isShut = false;
  }

  // The pad was closed by an owner, and that has ended the visit. Other connections ask now and then whether it is open again.
  shut() {
    Object.assign(this, { isShut: true, isClosed: true });
    this.wire?.drop();
    this.tell("rights");
    this.tell("state");
  }

  // A visit that has ended does not end the session.
  endWith(error) { if (error.reply?.code === NOT_JOINED && !this.isLost) this.shut(); else super.endWith(error); }

  // Joins instead of the old visit, so that nothing more comes of that one. A server that does not know it, or is of an earlier
  // version, does not tell whether it has made more than was answered.
  async rejoin(pad) {
    const { lastMade } = pad, told = await joinInstead(this, pad);
    await this.resume(pad, told.visit, told.made === undefined ? null : `${told.last}` !== `${lastMade}`);
  }

  // Remembers the last operation that was answered in the visit.
  heard(request, reply) {
    if (reply.name && request.pad === this.pad?.name) this.pad.lastMade = reply.name;
    return reply;
  }

  // The pad goes on in a new visit, once it is known what the server has of what was not answered. What fails because the pad
  // was left meanwhile is no failure. What another page had not sent may be of another past.
  async resume(pad, visit, isMade = null) {
    try {
      if (!pad.isUnfit) await pad.resume(visit, this.me, isMade);
    } catch (error) {
      if (pad !== this.pad && error instanceof Refused) return;
      if (!(error instanceof Misfit || (pad.isAdopted && error instanceof LostRevisions))) throw error;
      pad.isUnfit = true;
    }
    if (pad !== this.pad) return;
    pad.begin(visit);
    pad.takeName(this.me);
    pad.isAdopted = false;
    this.caret.isNew = true;
    this.start(pad);
    this.refresh();
    this.drafts.sendOthers(pad);
  }

  // The same, where the pad was opened with what another page had not sent.
  async settleAdopted(pad, visit) {
    const { wire } = this;
    try { await this.resume(pad, visit); } catch (error) {
      if (!(error instanceof Lost) && pad === this.pad && wire === this.wire) this.endWith(error);
    }
  }

  // ---- pads

  async pads() {
    return (await this.call({ do: "pads" })).pads.map(([name, right, now, closed]) => ({ name, right, now, isClosed: closed !== undefined }));
  }
  // Those of these authors of the server, 1 to 100, who have a display name.
  async people(authors) { return (await this.call({ do: "people", authors })).people; }
  create(name) { return this.enter("create", name); }
  join(name) { return this.enter("join", name); }

  // Opens a pad. One is open at a time: the one before it is left first. Of those that are asked for while one is being
  // opened, only the last is opened.
  enter(how, name) {
    const entry = ++this.entries, entered = this.lastEntry.then(() => this.enterAs(entry, how, name)), end = () => { this.entering--; };
    this.entering++;
    this.lastEntry = entered.then(end, end);
    return entered;
  }

  async enterAs(entry, how, name) {
    const goOn = () => { if (entry !== this.entries) throw new Superseded(name); };
    goOn();
    if (this.isLost && !this.isShut) throw new Lost("not connected");
    if (this.pad && !(await this.settle())) throw new Unsaved(this.pad.name);
    if (this.pad) await this.leave();
    goOn();
    const visit = await joinFirst(this, how, name), { wire } = this, pad = this.padOf(name, visit);
    const others = await this.drafts.take(name), note = others.pop();
    try {
      goOn();
      if (wire !== this.wire || this.isLost) throw new Lost("not connected"); // the visit has ended with its connection
      if (note) adopt(pad, note); else await pad.load();
      goOn();
    } catch (error) {
      await this.drafts.release([...others, note].filter(Boolean));
      await this.call({ do: "leave", pad: name }).catch(NOTHING);
      if (error.reply?.code === NOT_JOINED) return this.enterAs(entry, "join", name); // it was closed meanwhile, and a join says so
      throw error;
    }
    this.follow(pad, note, others);
    if (note) this.settleAdopted(pad, visit); else await this.refresh();
    goOn();
    if (pad !== this.pad) throw new Superseded(name);
    return pad;
  }

  openKept(id) { return this.drafts.openKept(id); } // as it was kept, before a log-in
  logInAgain(token) { return this.drafts.logInAgain(token); }

  // A pad that tells of itself only while it is the one that is open.
  padOf(name, visit) {
    const whenOpen = (act) => (given) => (pad === this.pad ? act(given) : undefined);
    const pad = new Pad({
      name, me: this.me, ask: this.ask, clock: this.clock, pace: this.pace,
      onReceive: whenOpen((delta) => { this.presence.wrote(delta); this.tell("receive", delta); }),
      onShow: whenOpen((delta) => this.showed(delta)),
      onMove: whenOpen((step) => this.moved(step)),
      onBase: whenOpen((delta) => this.drafts.moved(delta)), keep: whenOpen(() => this.drafts.keep()),
    });
    pad.visit = visit;
    return pad;
  }

  // `note` is what the pad goes on with, if another page had something unsent, and `others` what is sent beside it.
  follow(pad, note = null, others = []) {
    const whenOpen = (act) => (...given) => (pad === this.pad ? act(...given) : undefined);
    this.presence = new Presence(pad, {
      onChange: whenOpen(() => { this.caret.send(); this.tell("presence"); }),
      onCome: whenOpen((author) => this.tell("come", author)), onGo: whenOpen((author) => this.tell("go", author)),
    });
    const unsent = new UnsentComments(pad, {
      clock: this.clock, onMade: whenOpen((comment, id) => this.madeComment(comment, id)),
      onRefused: whenOpen((reply, text) => this.refusedComment(reply, text)),
    });
    this.comments = new Comments(pad, unsent, whenOpen(() => this.tell("comments")));
    this.kept.leave();
    this.caret.forget();
    Object.assign(this, { pad, right: note?.right ?? "none", rights: [], cells: 0, isClosed: false, isShut: false, heldBy: null, refusal: null, keptAt: note?.time ?? 0 });
    this.kept.addMissing(note?.kept ?? []);
    for (const { from, to, text, sent } of note?.comments ?? []) unsent.add(from, to, text, sent);
    this.drafts.follow(pad, note, others);
    if (!note) this.start(pad);
    this.pulse = new Pulse(this, pad);
  }

  start(pad) {
    this.drive(pad);
    this.comments.unsent.run().catch((error) => { if (!(error instanceof Lost) && pad === this.pad) this.endWith(error); });
  }

  // What is shown has changed, and everything that has a place in it moves.
  showed(delta) {
    this.presence.move(delta);
    this.comments.move(delta);
    this.kept.move(delta);
    this.caret.move(delta);
    this.tell("change", delta);
    this.tell("state");
  }

  // Resolves once the server has all that the author did, however long that takes. Fails if it refused something since this
  // was last asked, and if the session ends before.
  async saved() {
    const { pad } = this, isSaved = await this.sendAll(pad, () => this.login !== null), { refusal } = this;
    this.refusal = null;
    if (refusal) throw new Unsaved(pad?.name, { cause: new Refused(refusal) });
    if (!isSaved) throw new Unsaved(pad.name, { cause: this.endedBy });
  }

  // The same in some seconds at most, for one who waits. Resolves to whether everything is saved.
  settle() {
    const end = this.clock.now() + SETTLE;
    return this.sendAll(this.pad, () => !this.isLost && !this.isOver && this.clock.now() < end);
  }

  // Sends what is not sent yet at once, while that goes on. Resolves to whether everything of this pad is saved.
  async sendAll(pad, goesOn) {
    while (pad && pad === this.pad && this.isUnsent && goesOn()) {
      pad.hurry(true);
      await pause(LOOK, this.clock);
    }
    pad?.hurry(false);
    return pad !== this.pad || !this.isUnsent;
  }

  // Where `isLost`, what is not sent is not kept either.
  async leave(isLost = false) {
    const { pad } = this;
    if (!pad) return;
    this.stop();
    this.pulse.stop();
    Object.assign(this, { pad: null, heldBy: null, isClosed: false });
    await this.drafts.leave(isLost);
    if (this.isShut) await this.renew(BRIEF); // without the pad, nothing is in the way
    try { await this.call({ do: "leave", pad: pad.name }); } catch { /* the visit ends with the connection at the latest */ }
  }

  // Keeps the pad's loop going over refusals, until the connection is lost or the pad is left. Where the server has another
  // text than the page, the pad is read again.
  async drive(pad) {
    const { wire } = this;
    for (let wait = 1000; pad === this.pad && wire === this.wire; wait = Math.min(wait * 2, 10000)) {
      try {
        if (pad.isUnfit) await this.reread(pad);
        await pad.run();
        return;
      } catch (error) {
        if (error instanceof Lost || pad !== this.pad || wire !== this.wire) return;
        if (error.reply?.code === NOT_JOINED) { this.shut(); return; }
        if (error instanceof Misfit || UNFIT.includes(error.reply?.code)) this.doubt(pad);
        else if (error instanceof Refused) this.refused(pad, error.reply);
        else { this.endWith(error); return; }
        await pause(wait, this.clock);
      }
    }
  }

  // The page's text is not the server's: nothing is called saved until it is read again.
  doubt(pad) {
    pad.isUnfit = true;
    pad.stop();
    this.tell("state");
  }

  async reread(pad) {
    const words = await pad.load(), texts = this.comments.unsent.giveUp();
    if (pad !== this.pad) return;
    for (const lost of [words, ...texts]) this.kept.add(lost);
    this.caret.forget();
    this.tell("reread");
    await this.comments.read();
    this.tell("state");
  }

  // What passes is tried again with the same words. Other refusals take the words back, and keep them for the author.
  refused(pad, reply) {
    if (PASSING.includes(reply.code)) this.heldBy = reply;
    else {
      this.refusal = reply;
      const pieces = pad.giveUp();
      for (const { at, words } of pieces) this.kept.add(words, at);
      this.tell("refused", reply, pieces.map(({ words }) => words).join("\n"));
    }
    if (NEWS.includes(reply.code)) this.readRights().catch(NOTHING);
    this.tell("state");
  }

  moved({ from, to, notes, isOwn }) {
    if (isOwn) this.heldBy = null;
    this.presence.reach();
    if (notes || this.comments.isStale) this.comments.read().catch(NOTHING);
    this.caret.isNew ||= isOwn;
    this.caret.send();
    this.tell("revision", { from, to, isOwn });
    this.tell("state");
  }

  // ---- what is no change of the text

  async refresh() {
    const { comments, pad } = this;
    if (!pad) return;
    try {
      await Promise.all([this.readRights(), this.readPeople(), comments.read(), pad.readMark()]);
    } catch (error) {
      if (!(error instanceof Lost || error instanceof Refused)) throw error;
    }
    this.tell("state");
  }

  async readPeople() {
    const { pad, presence } = this;
    presence.take(await pad.call({ do: "who" }));
  }

  async readRights() {
    const { pad } = this, { rights, closed: isClosed = false } = await rightsOn(pad);
    if (pad !== this.pad) return;
    Object.assign(this, { rights, right: rightOf(this.name, rights), isClosed });
    this.tell("rights");
  }

  grant(author, right) { return this.changeRights({ do: "grant", author, right }); }
  hand(author) { return this.changeRights({ do: "hand", author }); }
  close() { return this.changeRights({ do: "close" }); }
  reopen() { return this.changeRights({ do: "reopen" }); }
  async changeRights(request) {
    await this.call({ ...request, pad: this.pad.name });
    await this.readRights();
  }

  // ---- guests

  // Makes a link by which guests come, with the right to read, comment or write. Resolves to its secret, which the server does not keep.
  async invite(right) {
    const secret = newSecret();
    await this.changeRights({ do: "invite", secret, right });
    return secret;
  }

  // A guest is called by this name on the pad. The names of all guests of the pad, in the order in which they first gave one.
  async introduce(name) { await this.call({ do: "introduce", pad: this.pad.name, as: name }); }
  async guests() { return (await this.call({ do: "guests", pad: this.pad.name })).guests; }

  // The author's caret is at this unit of what is shown.
  moveCaret(at) { this.caret.moveTo(at); }

  // Comments on what is shown between two units. The comment moves with its words until it is made, and this resolves to its
  // name then.
  comment(from, to, text) {
    const made = this.comments.unsent.add(from, to, text);
    this.tell("comments");
    this.tell("state");
    return made;
  }

  madeComment(comment, name) {
    this.heldBy = null;
    this.comments.made(comment, name);
    this.tell("state");
  }

  // Tells whether the comment is to be tried again. Otherwise its text is kept for the author.
  refusedComment(reply, text) {
    const isEnded = reply.code === NOT_JOINED, isPassing = isEnded || PASSING.includes(reply.code);
    if (isEnded) this.shut();
    else if (isPassing) this.heldBy = reply;
    else {
      this.refusal = reply;
      this.kept.add(text);
      this.tell("refused", reply, text);
    }
    this.tell("state");
    return isPassing;
  }

  resolve(name) { return this.pad.call({ do: "resolve", comment: name }); }

  // How much of the pad's room is used, from 0 to 1, and how many more changes it can take.
  get room() {
    const { now } = this.pad, { operations, characters, comments } = LIMITS;
    const used = Math.max(now / operations, this.cells / characters, this.comments.list.length / comments);
    return { used, left: Math.max(0, operations - now) };
  }

  async goOnIn(name, firstLine) { return (await import("./go_on.js")).goOnIn(this, name, firstLine); }
}
