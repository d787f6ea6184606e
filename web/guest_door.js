// The way in for guests: a link names the pad, and who follows it chooses a name, and needs no account.
import { reason } from "./enter.js";
import { guestBy, keepGuest } from "./guest_secrets.js";
import { doubt, forgetLogIn, setPad, stayAsGuest } from "./log_in_link.js";
import { $, fill, say } from "./page.js";
import { NOT_JOINED } from "../clients/js/src/connection.js";
import { newSecret } from "../clients/js/src/guests.js";
import { WORDS } from "./words.js";

// An older server knows no such request.
const NOT_REQUEST = 102, WRONG_TOKEN = 201, HAVE_SESSION = 202;
const CONTROL = /\p{Cc}+/gu, LONGEST = 60;

// A name as the server takes it.
const nameOf = (text) => [...text.replace(CONTROL, " ").trim()].slice(0, LONGEST).join("");

export class GuestDoor {
  // `enter` opens pads, `kept` is what the browser keeps of them, and `onIn` is called after a log-in.
  constructor(session, { enter, kept, onIn }) {
    Object.assign(this, { session, enter, kept, onIn, guest: null, coming: null, isUnknown: false });
    $("guest").addEventListener("submit", (event) => { event.preventDefault(); this.comeIn(); });
    session.on("state", () => { if (this.isUnknown && session.pad && !session.isLost) this.introduce(); });
    enter.door = this;
  }

  // `pad` and `link` are those of the link. A tab that has come in before does so again; a browser is the guest that it was by this
  // link.
  begin({ pad, link, own, as }) {
    const known = guestBy(pad, link);
    // (the name may have been corrected in another tab since)
    this.guest = { pad, link, own, as: (known && (!own || known.own === own) ? known.as : as) ?? "" };
    fill($("guest-name"), this.guest.as);
    return as ? this.comeIn() : this.show();
  }

  // A link is followed on the page (log_in.js). A guest who is here by it goes back to its pad.
  async follow(given, logIn) {
    const { session, guest } = this, { pad, link } = given;
    if (!link) logIn.followBroken({ name: "" }, WORDS.cutOff);
    else if (session.login && session.isGuest && guest?.link === link && guest.pad === pad) logIn.open(pad);
    else if (session.login || session.pad || session.isOver) await logIn.changeTo(given);
    else {
      forgetLogIn();
      await this.begin(given);
    }
  }

  show(fault = "") {
    for (const id of ["log-in", "choose", "here", "pad-name", "work", "tools", "tools-button", "log-in-again"]) $(id).hidden = true;
    for (const id of ["enter", "guest"]) $(id).hidden = false;
    $("log-out").hidden = !this.session.login;
    say($("state"), "");
    say($("guest-pad"), WORDS.guestOf(this.guest.pad));
    say($("guest-error"), fault);
    this.kept.show();
    $("guest-name").focus();
  }

  // A second click on the button, while the guest comes in, does nothing.
  comeIn() {
    this.coming ??= this.tryComeIn().finally(() => { this.coming = null; });
    return this.coming;
  }

  async tryComeIn() {
    const { session, guest } = this, as = nameOf($("guest-name").value);
    if (!as) { this.show(WORDS.guestUnnamed); return; }
    guest.as = as;
    guest.own ??= guestBy(guest.pad, guest.link)?.own ?? newSecret(); // of another tab that came in meanwhile, or a new one
    if (session.isOver) { stayAsGuest(guest); setPad(guest.pad); location.reload(); return; }
    for (const id of ["log-in", "guest", "kept", "choose"]) $(id).hidden = true;
    say($("state"), WORDS.connecting);
    if (!session.login && !(await this.logIn())) return;
    stayAsGuest(guest);
    keepGuest(guest, session.name);
    await this.enter.enter("join", guest.pad);
  }

  // Resolves to whether the guest is logged in.
  async logIn() {
    const { session, guest } = this;
    try { await session.logInAsGuest(`${guest.link}.${guest.own}`); } catch (error) {
      const code = error.reply?.code;
      doubt(error);
      // A proxy has logged somebody in, who has an account and needs no link.
      if (code === HAVE_SESSION) { forgetLogIn(); setPad(guest.pad); location.reload(); return false; }
      this.show(code === WRONG_TOKEN || code === NOT_REQUEST ? WORDS.noGuests : reason(error));
      return false;
    } finally { say($("state"), ""); }
    this.onIn();
    return true;
  }

  // The guest has joined the pad, and is called there as it wants to be. Where the connection breaks, that is done once there is one.
  async introduce() {
    const { session, guest } = this;
    this.isUnknown = false;
    try {
      const known = (await session.guests()).find(({ author }) => author === session.name);
      if (known?.name !== guest.as) await session.introduce(guest.as);
    } catch (error) { this.isUnknown = !error.reply || error.reply.code === NOT_JOINED; } // the pad was closed meanwhile
  }
}
