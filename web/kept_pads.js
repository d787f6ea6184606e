// Pads that the browser has kept: on the way in, those that can be opened without a connection, and in the list of pads, those of
// which something is not sent.
import { named, setOrigin } from "./authors.js";
import { isGuest } from "../clients/js/src/guests.js";
import { guestNamed } from "./guest_secrets.js";
import { $, element, say } from "./page.js";
import { timeOf } from "./times.js";
import { WORDS } from "./words.js";

const unsentOf = (notes) => notes.filter(({ isUnsent, isElsewhere }) => isUnsent && !isElsewhere).map(({ pad }) => pad);

export class KeptPads {
  // `onPad` is called once a pad is open.
  constructor(session, store, { onPad }) { Object.assign(this, { session, store, onPad }); }

  async list() { try { return await this.store.list(); } catch { return []; } }

  // Beside the log-in: pads of any author who has not logged out.
  async show() {
    const kept = (await this.list()).filter(({ isElsewhere }) => !isElsewhere);
    $("kept").hidden = !kept.length;
    $("kept-pads").replaceChildren(...kept.map((note) => {
      const who = isGuest(note.name) ? WORDS.guest(guestNamed(note.name)?.as ?? note.name) : note.name;
      const said = element("span", { textContent: WORDS.keptLine(who, timeOf(note.time), note.isUnsent) });
      const button = element("button", { type: "button" }, element("b", { textContent: note.pad }), said);
      button.addEventListener("click", () => this.open(note));
      return element("li", {}, button);
    }));
  }

  async open({ id, me, pad }) {
    const fault = $($("guest").hidden ? "log-in-error" : "guest-error");
    say(fault, "");
    setOrigin(me);
    if (await this.session.openKept(id)) this.onPad();
    else say(fault, WORDS.keptElsewhere(pad));
  }

  // The author logs out. What guests have kept goes, too, since their secrets do, without which nobody can send it.
  async forget() {
    for (const { name } of await this.ofLeaving()) try { await this.store.forget(name); } catch { /* nothing is kept */ }
  }

  async ofLeaving() { return (await this.list()).filter(({ name }) => name === this.session.name || isGuest(name)); }
  async unsentOnLeaving() { return unsentOf(await this.ofLeaving()); }

  // What is kept of the author's pads; and the names of those of which something is not sent in no window that is open.
  async ofAuthor() { return (await this.list()).filter(({ name }) => name === this.session.name); }
  async unsent() { return unsentOf(await this.ofAuthor()); }
}
