// A reference model of a whole server: sessions, pads, visits, rights and carets, around model.mjs.
import { ModelPad } from "./model.mjs";

const RIGHTS = ["none", "read", "comment", "write", "own"];
const EDITS = ["insert", "delete", "edit"];
const NEEDS = { insert: "write", delete: "write", edit: "write", comment: "comment", resolve: "comment", grant: "own", hand: "own", close: "own", reopen: "own", join: "read" };
// What nobody may do on a pad that is closed.
const CHANGES = [...EDITS, "comment", "resolve", "grant", "hand"];
const REFUSALS = {
  101: "NotJson", 200: "NoSession", 201: "BadToken", 300: "NoPad", 301: "PadExists", 310: "NotJoined", 311: "Joined", 312: "Denied",
  313: "Crowded", 329: "NoVisit", 330: "PadClosed", 320: "NoRevision", 321: "OutOfRange", 322: "Empty", 323: "TooMuch",
};
const refuse = (code) => ({ ok: false, code, error: REFUSALS[code] });

class Room {
  // `given` has of each visit, present or not, whose it is, how many operations it made, and the name of the last one.
  constructor(owner) { Object.assign(this, { pad: new ModelPad(), given: [], present: new Map(), rights: new Map([[owner, "own"]]), isClosed: false }); }
}

export class ModelServer {
  // `present` is how many may be on a pad at once, and `most` how many characters are in one edit at most. A server that
  // `isOld` does not know `instead`.
  constructor({ present = 64, most = 10000, isOld = false } = {}) {
    Object.assign(this, { present, most, isOld, replica: 1, rooms: new Map(), sessions: new Set() });
  }

  connect() {
    const session = { name: null, visits: new Map() };
    this.sessions.add(session);
    return session;
  }

  end(session) {
    this.sessions.delete(session);
    for (const [pad, visit] of session.visits) this.rooms.get(pad)?.present.delete(visit);
    session.visits.clear();
  }

  // The server ends and starts again, perhaps with another number. Nobody is present then.
  restart(replica = this.replica) {
    for (const session of [...this.sessions]) this.end(session);
    this.replica = replica;
    for (const { pad } of this.rooms.values()) pad.replica = replica;
  }

  // The revision of a pad that a session has joined, or null.
  nowOf(session, name) { return this.isIn(session, name) ? this.rooms.get(name).pad.now : null; }
  isIn(session, name) { return this.rooms.get(name)?.present.has(session.visits.get(name)) ?? false; }

  reply(session, line) {
    if (/\\u[dD][89a-fA-F]/.test(line)) return refuse(101);
    const request = JSON.parse(line), { pad: name } = request;
    if (request.do === "hello") return this.hello(session, request);
    if (!session.name) return refuse(200);
    if (request.do === "pads") return { ok: true, pads: this.padsOf(session) };
    if (request.do === "create") return this.rooms.has(name) ? refuse(301) : this.create(session, name);
    const room = this.rooms.get(name);
    if (!room) return refuse(300);
    if (request.do === "join") return this.join(session, request, room);
    if (!this.isIn(session, name)) return refuse(310);
    if (!this.may(session, room, NEEDS[request.do] ?? "read")) return refuse(312);
    if (room.isClosed && CHANGES.includes(request.do)) return refuse(330);
    return this.answer(session, room, request);
  }

  hello(session, { name, token }) {
    if (token !== `t${name}`) return refuse(201);
    session.name = name;
    return { ok: true, author: this.authorOf(session) };
  }

  authorOf({ name }) { return `${name}@${this.replica}`; }
  may({ name }, room, right) { return RIGHTS.indexOf(this.rightOf(name, room)) >= RIGHTS.indexOf(right); }
  rightOf(name, { rights }) { return RIGHTS[Math.max(...[name, "*"].map((one) => RIGHTS.indexOf(rights.get(one) ?? "none")))]; }
  padsOf(session) {
    const readable = [...this.rooms].filter(([, room]) => this.may(session, room, "read"));
    return readable.map(([name, room]) => [name, this.rightOf(session.name, room), room.pad.now, ...(room.isClosed ? ["closed"] : [])]);
  }

  create(session, name) {
    const room = new Room(session.name);
    room.pad.replica = this.replica;
    this.rooms.set(name, room);
    return this.join(session, { pad: name }, room);
  }

  // The old visit ends, whichever session has it.
  join(session, { pad: name, instead }, room) {
    if (session.visits.has(name)) return refuse(this.isIn(session, name) ? 311 : 310);
    if (!this.may(session, room, "read")) return refuse(312);
    if (room.isClosed && !this.may(session, room, "own")) return refuse(330);
    const isAgain = instead !== undefined && !this.isOld, old = isAgain ? room.given[instead - 1] : null;
    if (isAgain && old?.author !== session.name) return refuse(329);
    if (room.present.size - (old && room.present.has(instead) ? 1 : 0) >= this.present) return refuse(313);
    if (old) room.present.delete(instead);
    const visit = room.given.push({ author: session.name, made: 0, last: null });
    session.visits.set(name, visit);
    room.present.set(visit, { author: this.authorOf(session), caret: null });
    return { ok: true, now: room.pad.now, visit, ...(old ? { made: old.made, last: old.last } : {}) };
  }

  answer(session, room, request) {
    const { pad } = room, { now } = pad, visit = session.visits.get(request.pad);
    switch (request.do) {
      case "leave":
        session.visits.delete(request.pad);
        room.present.delete(visit);
        return { ok: true, now };
      case "who": return { ok: true, now, who: this.who(room) };
      case "rights": return { ok: true, now, rights: [...room.rights], ...(room.isClosed ? { closed: true } : {}) };
      case "close": case "reopen":
        this.close(room, request.do === "close");
        return { ok: true, now };
      case "grant":
        room.rights.set(request.author, request.right);
        return { ok: true, now };
      case "hand": return this.hand(room, session.name, request.author) ?? { ok: true, now };
    }
    if ((request.rev ?? 0) > now || (request.to ?? now) > now) return refuse(320);
    if (request.do === "caret") {
      room.present.get(visit).caret = request.at ? pad.at(request.rev)[request.at - 1] : null;
      return { ok: true, now };
    }
    return this.refusal(request) ?? this.noted(room.given[visit - 1], pad.reply(this.authorOf(session), request));
  }

  // Who may not own a pad that is closed is put out: the visit ends, and the session knows nothing of it.
  close(room, isClosed) {
    room.isClosed = isClosed;
    if (!isClosed) return;
    for (const [visit, { author }] of room.present) if (!this.may({ name: author.split("@")[0] }, room, "own")) room.present.delete(visit);
  }

  // An answer with a name is that of an operation.
  noted(visit, reply) {
    if (reply.ok && reply.name) Object.assign(visit, { made: visit.made + 1, last: reply.name });
    return reply;
  }

  // The heir is listed first, and the owner before it last, with the right to write.
  hand(room, owner, heir) {
    if (owner !== [...room.rights.keys()][0]) return refuse(312);
    if (owner === heir) return null;
    for (const name of [owner, heir]) room.rights.delete(name);
    room.rights = new Map([[heir, "own"], ...room.rights, [owner, "write"]]);
    return null;
  }

  // A refusal by what is asked alone.
  refusal(request) {
    if (!EDITS.includes(request.do) && request.do !== "comment") return null;
    const parts = request.parts ?? [request], sizes = parts.map(({ text, len }) => len ?? [...text].length);
    if (sizes.includes(0)) return refuse(322);
    return EDITS.includes(request.do) && sizes.reduce((sum, size) => sum + size, 0) > this.most ? refuse(323) : null;
  }

  // A caret is behind its character, or behind the one before it that is still shown.
  who({ pad, present }) {
    const order = pad.order(), shown = (cells) => cells.filter((cell) => pad.shows(cell, pad.now)).length;
    return [...present].map(([visit, { author, caret }]) => ({ visit, author, caret: caret ? shown(order.slice(0, order.indexOf(caret) + 1)) : 0 }));
  }
}
