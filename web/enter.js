// Behind the log-in: the list of pads, of which one is chosen, or a new one created.
import { named, setOrigin } from "./authors.js";
import { NAME } from "./log_in_link.js";
import { PadList } from "./pad_list.js";
import { $, fill, later, say } from "./page.js";
import { Lost, Superseded, Unsaved } from "../clients/js/src/errors.js";
import { begin, offerTemplates, templateText } from "./templates.js";
import { WORDS, refusal } from "./words.js";

const NO_PAD = 300, DENIED = 312, CLOSED = 330;

// What an error means, in words.
export function reason(error) {
  if (error.reply) return refusal(error.reply);
  if (error instanceof Lost) return WORDS.noServer;
  if (error instanceof Unsaved) return WORDS.unsavedChange;
  console.error(error);
  return WORDS.fault(error.message);
}

export class Enter {
  // `onPad` is called once a pad is open, with what was found in it, and `onLeave` closes it. `onRefused` gets the name of a pad that is not opened though
  // something of it was not sent.
  constructor(session, kept, { displays, onPad, onLeave, onRefused }) {
    Object.assign(this, { session, kept, displays, onPad, onLeave, onRefused, wasLost: false, search: null, door: null });
    this.list = new PadList(session, displays, (name) => this.enter("join", name));
    // What searches in all texts is loaded with the first search.
    this.loadSearch = later(async () => {
      this.search = new (await import("./pad_search.js")).PadSearch(session, this.list, {
        onOpen: (name, found) => this.enter("join", name, "", found), onFault: (error) => say($("open-error"), reason(error)),
      });
    });
    $("search").addEventListener("submit", (event) => {
      event.preventDefault();
      this.loadSearch().then(() => this.search.search(), () => say($("open-error"), WORDS.noServer));
    });
    $("open").addEventListener("submit", (event) => { event.preventDefault(); this.enter("join", $("pad").value); });
    $("create").addEventListener("click", () => { if ($("open").reportValidity()) this.create($("pad").value); });
    addEventListener("hashchange", () => this.follow());
  }

  // The list of pads. A guest has a way to the pad of the link alone (guest_door.js).
  async show() {
    const { login, isGuest } = this.session;
    if (!login || (isGuest && !this.door)) { location.reload(); return; } // a pad was opened without a log-in
    if (this.isAtDoor) { this.door.show(); return; }
    for (const id of ["log-in", "guest", "kept", "work", "tools", "tools-button", "here", "pad-name", "log-in-again"]) $(id).hidden = true;
    for (const id of ["enter", "choose"]) $(id).hidden = false;
    for (const id of ["log-out", "menu-log-out"]) $(id).hidden = this.session.isUser; // the proxy logs out whom it has logged in
    document.title = WORDS.unnamed;
    $("state").className = "";
    setOrigin(this.session.me);
    $("no-pads").hidden = true;
    await this.read();
    $("pad").focus();
  }

  get isAtDoor() { return this.door !== null && this.session.isGuest; }

  // Reads the list of pads. If it cannot be read, nothing is said of it but that.
  async read() {
    say($("state"), this.session.isLost ? WORDS.over : WORDS.loggedIn(named(this.session.me)));
    try {
      const pads = await this.session.pads(), kept = await this.kept.ofAuthor(), of = ({ name }) => kept.find(({ pad }) => pad === name);
      this.displays.forget();
      this.displays.ask([this.session.me]);
      this.list.show(pads.map((pad) => ({ ...pad, isUnsent: of(pad)?.isUnsent && !of(pad).isElsewhere, keptAt: of(pad)?.time ?? 0 })));
      offerTemplates(pads);
      say($("open-error"), "");
    } catch (error) {
      $("no-pads").hidden = true;
      say($("open-error"), reason(error));
    }
  }

  // Authors have other display names than those that are drawn.
  renamed() {
    if ($("enter").hidden || !this.session.login || this.session.isLost || this.isAtDoor) return;
    say($("state"), WORDS.loggedIn(named(this.session.me)));
    this.list.renamed();
  }

  // Where the connection was lost or is there again, the list is read again.
  showState() {
    const { isLost, login } = this.session, isOther = isLost !== this.wasLost;
    this.wasLost = isLost;
    if (isOther && login && !$("enter").hidden && !this.isAtDoor) this.read();
  }

  // The pad that the address names, if it names one.
  enterNamed() {
    const name = location.hash.slice(1);
    if (!NAME.test(name)) return;
    fill($("pad"), name);
    this.enter("join", name);
  }

  // The address names another pad now. If the open one has words that cannot be sent, it stays.
  async follow() {
    const { entering, login, pad } = this.session, { hash } = location;
    if (!login || hash.slice(1) === pad?.name) return;
    if (pad && !entering && !(await this.onLeave()) && pad === this.session.pad) {
      history.replaceState(null, "", `#${pad.name}`);
      return;
    }
    location.hash = hash;
    this.enterNamed();
  }

  // A new pad begins with the template that is chosen.
  async create(name) {
    let text = "";
    try { text = await templateText(this.session); } catch (error) { say($("open-error"), reason(error)); return; }
    await this.enter("create", name, text);
  }

  // Where several pads are asked for, the last one is opened. `found` is what was found in its text, and is shown.
  async enter(how, name, text = "", found = null) {
    say($("open-error"), "");
    this.list.stop();
    if (this.session.pad && !this.session.entering && !(await this.onLeave())) return;
    try {
      await this.session[how](name);
      if (this.isAtDoor) await this.door.introduce();
    } catch (error) {
      if (error instanceof Superseded) return;
      const code = error.reply?.code, isKept = code === CLOSED && (await this.kept.unsent()).includes(name);
      const text = code === DENIED || (code === NO_PAD && this.isAtDoor) ? WORDS.noRight : reason(error) + (isKept ? ` ${WORDS.closedKept}` : "");
      if (this.isAtDoor) this.door.show(text); else say($("open-error"), text);
      if (error.reply && code !== CLOSED) this.onRefused(name);
      return;
    }
    begin(this.session, text);
    this.search?.stop();
    this.onPad(found);
  }
}
