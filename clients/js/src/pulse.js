// What a session asks now and then about a pad that it follows, since no wait tells it. Each such line also ends a wait, which
// is asked again.
import { count } from "./units.js";

// Milliseconds until it is asked again who is here: alone, with a few others, with more of them, in a crowd, out of sight.
const ALONE = 4000, FEW = 1000, TOGETHER = 2000, CROWD = 10000, HIDDEN = 15000;
const MOST_FEW = 5, MOST_TOGETHER = 20;
const RIGHTS_EVERY = 10000, ROOM_EVERY = 60000;

// Who is here and which rights there are, what made the page's revision, and whether its text has the length that the server
// says, until `stop`.
export class Pulse {
  constructor(session, pad) {
    Object.assign(this, { session, pad, rightsAt: session.clock.now(), roomAt: -Infinity, timer: null, isOver: false });
    this.rest();
  }

  rest() {
    const { clock, isHidden, presence } = this.session, now = clock.now();
    if (!this.isOver) this.timer = clock.after(timeAmong(presence.others.length, isHidden), () => this.beat(now));
  }

  stop() {
    this.isOver = true;
    this.session.clock.cancel(this.timer);
  }

  async beat(now) {
    try { if (!this.session.isLost && !this.pad.isAdopted) await this.ask(now); } catch { /* the loop of the pad meets the same, and says so */ }
    this.rest();
  }

  async ask(now) {
    const { pad, session } = this, { comments, presence } = session;
    presence.take(await pad.call({ do: "who" }));
    await pad.readMark();
    if (now - this.rightsAt >= RIGHTS_EVERY) { this.rightsAt = now; await session.readRights(); await comments.readMoved(); }
    if (now - this.roomAt >= ROOM_EVERY) { this.roomAt = now; await this.readRoom(); }
  }

  // The length can be compared if the page has just the revision that was counted.
  async readRoom() {
    const { pad, session } = this, { cells, length, now } = await pad.call({ do: "revs" });
    if (this.isOver) return;
    session.cells = cells;
    if (now !== pad.rev || length === count(pad.base) || pad.isUnfit) return;
    session.doubt(pad);
    session.drive(pad);
  }
}

function timeAmong(others, isHidden) {
  if (isHidden) return HIDDEN;
  if (others > MOST_TOGETHER) return CROWD;
  if (others > MOST_FEW) return TOGETHER;
  return others ? FEW : ALONE;
}
