// Who is here: the form to log in, log-in links, a tab that stays logged in, users of a proxy, and logging out.
import { reason } from "./enter.js";
import { doubt, forgetLogIn, onLink, setPad, stay, stayAsGuest, stayed } from "./log_in_link.js";
import { $, fill, later, say } from "./page.js";
import { forget } from "./storage.js";
import { user } from "./user.js";
import { WORDS, refusal } from "./words.js";

const WRONG_TOKEN = { code: 201 }, HAVE_SESSION = 202;

export class LogIn {
  // `enter` is the list of pads, and `kept` what the browser keeps of them. `onAgain` gets the token of a link for the author whose
  // pad was opened without a log-in, and resolves to whether it is right. `onStay` and `onUnsent` say what keeps the author here,
  // and `onIn` is called after a log-in.
  constructor(session, { kept, enter, onAgain, onStay, onUnsent, onIn }) {
    Object.assign(this, { session, kept, enter, onAgain, onStay, onUnsent, onIn });
    Object.assign(this, { loggingIn: null, lastLink: Promise.resolve(), isLeaving: false });
    this.loadDoor = later(async () => new (await import("./guest_door.js")).GuestDoor(session, { enter, kept, onIn }));
    $("log-in").addEventListener("submit", (event) => { event.preventDefault(); this.logIn(); });
    for (const id of ["log-out", "menu-log-out"]) $(id).addEventListener("click", () => this.logOut());
    session.on("over", doubt);
  }

  // The page begins: with a log-in link, as the tab was before, as the user of a proxy, or with the form.
  begin() {
    const login = stayed();
    if (onLink((link) => this.take(link))) return;
    if (login?.link) this.atDoor((door) => door.begin(login)); else if (login) this.logInAs(login); else this.beginAsUser();
  }

  // What guests need is loaded once one comes.
  atDoor(act) { return this.loadDoor().then(act, () => this.refuse(WORDS.noServer)); }

  // ---- logging in

  // Whoever a proxy has logged in needs no form.
  async beginAsUser() {
    const { author, words } = await user();
    if (this.session.login || this.loggingIn) return;
    if (author) { await this.logInAs({ name: author.split("@")[0], token: "" }); return; }
    this.ask();
    if (words) this.refuse(words);
  }

  ask() {
    for (const id of ["choose", "guest", "here", "pad-name", "log-out"]) $(id).hidden = true;
    for (const id of ["enter", "log-in"]) $(id).hidden = false;
    this.kept.show();
    $($("name").value ? "token" : "name").focus();
  }

  // Logs in without the form, which is shown if that fails.
  logInAs({ name, token, isOnce = false }) {
    fill($("name"), name);
    $("token").value = token;
    if (isOnce) $("stay").checked = false;
    for (const id of ["log-in", "guest", "kept", "choose"]) $(id).hidden = true;
    return this.logIn();
  }

  // A second click on the button, while the first log-in is under way, does nothing.
  logIn() {
    this.loggingIn ??= this.tryLogIn($("name").value, $("token").value).finally(() => { this.loggingIn = null; });
    return this.loggingIn;
  }

  async tryLogIn(name, token) {
    say($("log-in-error"), "");
    say($("state"), WORDS.connecting);
    try {
      await this.session.logIn(name, token);
    } catch (error) {
      doubt(error);
      // A proxy has logged in somebody else than the tab had.
      if (error.reply?.code === HAVE_SESSION && stayed()) {
        forgetLogIn();
        location.reload();
        return;
      }
      this.refuse(reason(error));
      return;
    } finally { say($("state"), ""); }
    this.onIn();
    if ($("stay").checked && !this.session.isUser) stay(name, token); else forgetLogIn();
    // Browsers that keep passwords take a form for sent once it is gone and the history has moved.
    $("log-in").hidden = true;
    history.replaceState(null, "", location.href);
    $("token").value = "";
    await this.enter.show();
    this.enter.enterNamed();
  }

  refuse(text) {
    if ($("log-in").hidden) this.ask();
    say($("log-in-error"), text);
    $("token").select();
  }

  // ---- log-in links

  // Links are followed one behind the other.
  take(link) {
    this.lastLink = this.lastLink.then(() => this.follow(link)).catch((error) => say($("open-error"), reason(error)));
  }

  async follow(link) {
    const { session } = this, { name, token, pad } = link;
    await this.loggingIn;
    await session.lastEntry;
    const { login } = session;
    if (link.link !== undefined) await this.atDoor((door) => door.follow(link, this));
    else if (!name || !token) this.followBroken(link);
    else if (login?.name === name && login.token === token) this.open(pad);
    else if (session.isAway && session.name === name) { if (await this.onAgain(token)) this.open(pad); }
    else if (login || session.pad || session.isOver) await this.changeTo(link);
    else {
      forgetLogIn();
      await this.logInAs(link);
    }
  }

  followBroken({ name }, why = refusal(WRONG_TOKEN)) {
    const { login, pad } = this.session;
    setPad(pad?.name ?? "");
    if (login || pad) return;
    fill($("name"), name);
    this.refuse(why);
  }

  // The author of the link is here already.
  open(pad) {
    setPad(pad || (this.session.pad?.name ?? ""));
    if (pad) this.enter.follow();
  }

  // For somebody else a new page begins, unless words that are not sent keep the author here. Where the browser keeps nothing for
  // that page, this one goes on.
  async changeTo(link) {
    const { session } = this, before = session.pad?.name ?? "";
    if (!(await this.leave())) { setPad(before); return; }
    const isKept = link.link ? stayAsGuest(link) : stay(link.name, link.token, !$("stay").checked);
    setPad(link.pad);
    if (isKept || session.isOver || session.isLost) { location.reload(); return; }
    session.logOut();
    this.enter.search?.stop();
    await (link.link ? this.atDoor((door) => door.begin(link)) : this.logInAs(link));
  }

  // ---- logging out

  // Closes the pad that is open, if one is, and shows no list in its place. Resolves to whether nothing keeps the author here.
  async leave() {
    const { session } = this;
    if (!session.pad) {
      if (session.kept.areWaiting) this.onStay();
      return !session.kept.areWaiting;
    }
    this.isLeaving = true;
    try { return await this.enter.onLeave(); } finally { this.isLeaving = false; }
  }

  // Nothing of a pad stays in the browser. What is not sent of pads would be lost, so that is said first.
  async logOut(isForced = false) {
    const isOpen = this.session.pad !== null;
    if (isOpen && !(await this.leave())) return;
    const unsent = isForced ? [] : await this.kept.unsentOnLeaving();
    if (unsent.length) {
      if (isOpen) await this.enter.show();
      this.onUnsent(WORDS.unsentPads(unsent.join(", ")));
      return;
    }
    forget();
    forgetLogIn();
    setPad("");
    await this.kept.forget();
    location.reload();
  }
}
