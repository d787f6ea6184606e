// An open pad: its text, who is here, comments, the slider, and what the buttons do.
import { fullName, named } from "./authors.js";
import { Carets } from "./carets.js";
import { authorsOf, colourOf, giveColours } from "./colours.js";
import { Editor } from "./editor.js";
import { reason } from "./enter.js";
import { ExportMenu } from "./export_menu.js";
import { FormatBar } from "./format_bar.js";
import { letterOf } from "./input.js";
import { Legend } from "./legend.js";
import { Notice } from "./notice.js";
import { $, element, gather, later, say } from "./page.js";
import { Past } from "./past.js";
import { Phone } from "./phone.js";
import { Remarks } from "./remarks.js";
import { StateLine } from "./state_line.js";
import { Steps } from "./steps.js";
import { timeOf } from "./times.js";
import { Told } from "./told.js";
import { Views } from "./views.js";
import { WORDS, refusal } from "./words.js";

const NEARLY_FULL = 0.9, LISTED = 300;
// Refusals that say that a pad can take no more.
const FULL = [314, 324, 325, 327, 328], DENIED = 312;

export class Desk {
  // `onClose` is called when the pad is closed, and `onLogOut` when the author logs out though changes are lost.
  constructor(session, { displays, onClose, onLogOut }) {
    Object.assign(this, { session, displays, onClose, isOpen: false, isShutOut: false, percent: 0, rights: null, closed: null, find: null, who: null });
    this.place = gather(() => this.placeAll());
    this.legend = new Legend();
    this.told = new Told();
    this.phone = new Phone();
    this.stateLine = new StateLine(session);
    this.list = gather(() => this.listAuthors(), (act) => setTimeout(act, LISTED));
    this.editor = new Editor($("text"), {
      author: () => session.me, runs: () => session.pad.runs,
      onType: (delta) => this.type(delta), onRestStep: () => session.pad?.steps.rest(),
      onUndo: () => this.steps.undo(false), onRedo: () => this.steps.undo(true),
      // The browser can tell of the caret once more after the pad was closed.
      onCaret: (at) => { session.moveCaret(at); this.legend.sayWriter(session.pad?.runs ?? [], at); },
      onDrawn: () => { this.place(); this.list(); },
      onNoText: () => this.notice.show(WORDS.onlyText), onRest: () => this.remarks.draw(),
      onSuggest: (change) => this.remarks.box.open(change),
      roomAbove: () => Math.max(0, $("bar").getBoundingClientRect().bottom) + 10,
    });
    this.remarks = new Remarks(this);
    this.carets = new Carets($("carets"));
    this.past = new Past(session, {
      displays,
      onShow: () => { this.who?.hide(); this.loadWho().catch(() => {}); this.showEditable(); this.views.other(); this.remarks.draw(); this.place(); this.list(); this.find?.changed(); },
      onRestore: (delta, rev) => this.steps.restore(delta, rev),
    });
    this.loadGoOn = later(async () => {
      const { GoOnBox } = await import("./go_on.js");
      return new GoOnBox(session, { onDone: () => this.open(), onGone: () => this.leave().then(() => this.onClose()) });
    });
    this.notice = new Notice(session.kept, {
      onGoOn: () => this.loadGoOn().then((box) => box.open(), () => this.notice.show(WORDS.noServer)), onClose: () => this.close(true), onLogOut, onForget: () => session.drafts.dropRefused(),
    });
    this.loadRights = later(async () => { this.rights = new (await import("./rights.js")).RightsBox(session, (text) => say($("news"), text)); });
    this.loadClosed = later(async () => { this.closed = new (await import("./closing.js")).ClosedBar(this); });
    this.steps = new Steps(this);
    this.format = new FormatBar(this.editor);
    this.loadFind = later(async () => { this.find = new (await import("./find_bar.js")).FindBar({
      source: () => this.searched, onClose: () => (this.past.shown ? $("past") : $("text")).focus(),
      onOpen: () => { if (this.views.mode === "minutes") this.views.setMode("text"); },
    }); });
    this.views = new Views(this);
    this.loadWho = later(async () => { this.who = new (await import("./who_wrote.js")).WhoWrote(this); });
    this.exports = new ExportMenu(() => (this.isOpen ? this.revision : null), () => this.views.ready().then(() => $("minutes")));
    this.acts = {
      m: () => this.remarks.ask(), n: () => this.remarks.next(), s: () => this.remarks.suggest(), f: () => { $("find").focus(); this.toFind(() => this.find.open(true)); },
      o: () => this.views.outline.open(), v: () => this.views.next(), h: () => $("history").click(), w: () => this.askWho(),
    };
    this.listen();
  }

  listen() {
    const on = (id, act, kind = "click") => $(id).addEventListener(kind, act);
    // The mouse leaves the keyboard to the text.
    for (const id of ["undo", "redo", "comment", "suggest", "who-wrote", "menu-who-wrote"]) on(id, (event) => event.preventDefault(), "mousedown");
    for (const id of ["who-wrote", "menu-who-wrote"]) on(id, () => this.askWho());
    $("paper").addEventListener("pointerover", (event) => this.loadWho().then(() => this.who.pointed(event), () => {}), { once: true });
    on("rights", () => this.loadRights().then(() => this.rights.open(), () => this.notice.show(WORDS.noServer)));
    on("find", () => this.toFind(() => this.find.open(!this.find.isOpen)));
    on("close", () => this.close());
    addEventListener("keydown", (event) => this.keyDown(event));
    addEventListener("beforeunload", (event) => {
      if (this.session.isUnsent || this.session.kept.areWaiting) event.preventDefault();
    });
    new ResizeObserver(() => this.place()).observe($("paper"));
    new ResizeObserver(() => {
      const height = `${$("bar").offsetHeight}px`;
      for (const node of [document.documentElement, $("format"), $("minutes")]) node.style.setProperty("--bar", height);
    }).observe($("bar"));
  }

  // Letters with Ctrl and Alt, unless these keys type a letter of the keyboard, as Alt Gr does. Escape closes the history.
  keyDown(event) {
    if (!this.isOpen) return;
    const act = event.ctrlKey && event.altKey && !event.getModifierState("AltGraph") && this.acts[letterOf(event)];
    if (act) {
      event.preventDefault();
      act();
    }
    const isTaken = event.defaultPrevented || document.querySelector("dialog[open]");
    if (event.key === "Escape" && this.past.isOpen && !isTaken) this.past.close();
  }

  // What tells who wrote a character is loaded once somebody may want to know.
  askWho() { this.loadWho().then(() => this.who.ask(), () => this.notice.show(WORDS.noServer)); }

  // So is what finds words. Until it is there, nothing that is typed goes into the text.
  toFind(act) { this.loadFind().then(act, () => this.notice.show(WORDS.noServer)); }

  // ---- opening and closing

  // Whether what is drawn is the pad that is open.
  get isShowing() { return this.isOpen && this.pad === this.session.pad; }

  open() {
    const { pad } = this.session;
    Object.assign(this, { isOpen: true, pad });
    history.replaceState(null, "", `#${pad.name}`);
    document.title = WORDS.title(pad.name);
    say($("pad-name"), pad.name);
    $("enter").hidden = true;
    this.showWho();
    for (const id of ["work", "tools", "tools-button", "here", "pad-name"]) $(id).hidden = false;
    // What was drawn of another pad can look the same by its key.
    Object.assign(this, { percent: 0, peopleKey: null, isShutOut: false });
    this.steps.forget();
    this.find?.open(false);
    this.told.forget();
    this.phone.open(false);
    this.displays.forget();
    this.legend.forget();
    this.remarks.forget();
    this.carets.clear();
    this.past.start(pad);
    this.notice.hide();
    if (pad.isAdopted && pad.isUnsent && !this.session.isAway) this.notice.show(WORDS.adopted(timeOf(this.session.keptAt)));
    else if (this.session.kept.areWaiting) this.notice.show(""); // of a full pad that goes on in this one, or of an earlier page
    giveColours(authorsOf(this.session));
    this.showEditable(); // before there are lines, whose style depends on it
    this.editor.show(pad.text);
    this.views.start();
    this.showAll();
    this.warnWhenFull();
    say($("keys"), WORDS.keys);
    $("text").focus();
    this.editor.select(0);
  }

  // Where authors have other colours than before, everything is drawn in them. Who has lost the right sees no rights, and
  // the colours stay as they were.
  giveColours() {
    const { pad, rights } = this.session;
    if (!pad || !rights.length || !giveColours(authorsOf(this.session))) return;
    this.editor.lines.recolour();
    this.past.lines.recolour();
    this.showPeople();
    this.remarks.draw();
    this.listAuthors();
  }

  // Authors have other display names than those that are drawn.
  renamed() {
    if (!this.isShowing) return;
    this.peopleKey = null;
    this.legend.forget();
    this.past.describe();
    this.showAll();
  }

  // The display names of all who are to be seen.
  askNames() {
    const { pad, presence } = this.session;
    if (pad) this.displays.ask([...authorsOf(this.session), ...presence.people.map(({ author }) => author)]);
  }

  showAll() {
    this.showRights();
    this.showPeople();
    this.remarks.draw();
    this.listAuthors();
    this.showState();
  }

  // Leaves the pad once everything is sent, or is kept until it can be. Words that cannot be sent in some seconds keep it here, and words
  // that were refused and not copied, unless the author has decided to lose them. Resolves to whether the pad is left.
  async close(isForced = false) {
    if (this.editor.suggests) this.remarks.suggest(false); // what is being written there is kept
    const { session } = this, { pad } = session, isSettled = isForced || (session.isShut && session.drafts.areKept) || await session.settle();
    if (!pad || pad !== session.pad) return false;
    if (!isSettled) { this.showUnsaved(); return false; }
    if (!isForced && session.kept.areWaiting) { this.notice.show(WORDS.uncopied, { canClose: true }); return false; }
    await this.leave(isForced);
    this.onClose();
    return true;
  }

  // From here on nothing can be typed, also while the server takes its time.
  async leave(isLost = false) {
    if (this.past.isOpen) this.past.close();
    this.who?.hide();
    this.isOpen = false;
    $("work").hidden = $("tools").hidden = $("tools-button").hidden = true;
    document.body.classList.remove("is-offline");
    this.notice.forget();
    await this.session.leave(isLost);
    history.replaceState(null, "", location.pathname);
  }

  showUnsaved() {
    const { isOver, unsentWords: unsent } = this.session;
    const text = isOver ? WORDS.unsavedForGood : unsent ? WORDS.unsaved : WORDS.unsavedChange;
    this.notice.show(text, { unsent, canClose: true });
  }

  // ---- what the session tells

  showState() {
    const { session } = this;
    if (!this.isOpen) return;
    this.stateLine.draw();
    this.showWho();
    if (session.state === "saved") this.notice.takeBack(WORDS.unsaved, WORDS.unsavedChange);
    else if (session.isUnsent && this.notice.canClose) this.showUnsaved();
    this.steps.show();
  }

  // Who is not logged in can log in, and who is can log out. A guest has no list of pads to go back to.
  showWho() {
    const { isAway, isGuest } = this.session;
    $("close").hidden = isGuest;
    $("log-in-again").hidden = !isAway;
    $("log-out").hidden = $("menu-log-out").hidden = isAway || this.session.isUser;
  }

  showRights() {
    const { session } = this;
    if (!this.isOpen) return;
    if (session.right !== "none") {
      this.isShutOut = false;
      this.notice.takeBack(WORDS.shutOut);
    }
    this.giveColours();
    this.showEditable();
    this.past.describe();
    this.rights?.draw();
    if (session.isClosed || this.closed) this.loadClosed().then(() => this.closed.draw(), () => this.notice.show(WORDS.closed));
    this.remarks.draw();
    this.showState();
  }

  showEditable() {
    const { editor, session } = this, mayComment = session.mayComment && !this.past.isOpen, isEditable = session.mayWrite && !this.past.isOpen;
    if (editor.suggests && !mayComment) { this.remarks.suggest(false); return; }
    editor.isEditable = editor.suggests || isEditable;
    this.format.isEnabled = isEditable && !editor.suggests;
    this.views.minutes.setEditable(isEditable && !editor.suggests);
    this.steps.show();
    $("comment").disabled = $("suggest").disabled = !mayComment;
    $("history").disabled = session.isShut && !this.past.isOpen; // nothing is told to who was put out
  }

  type(delta) {
    if (!this.isShowing) return;
    this.pad.type(delta);
    this.steps.told = "";
    this.showState();
  }

  receive(delta) {
    this.editor.receive(delta);
    this.told.received(delta, this.session.me);
  }

  // The pad was read again, since the page had another text than the server.
  reread() {
    this.past.start(this.pad);
    this.editor.show(this.pad.text);
    this.views.other();
    this.notice.show(WORDS.reread);
    this.showAll();
  }

  // A pad cannot be opened, and what was not sent of it can only be copied.
  async notOpened(name) {
    const { drafts, kept } = this.session, words = await drafts.wordsOf(name);
    if (!words.length) return;
    kept.addMissing(words);
    this.notice.show(WORDS.notOpened(name));
  }

  // What an earlier page had not sent cannot be sent, and is kept.
  returned() { this.notice.show(WORDS.returned); }

  moved() {
    this.past.grow();
    this.warnWhenFull();
  }

  showPeople() {
    const { me, presence } = this.session, visits = presence.people.map(({ visit }) => visit).join();
    if (visits !== this.visits) this.displays.forgetGuests();
    this.visits = visits;
    this.giveColours();
    this.askNames();
    const authors = [...new Set(presence.people.map(({ author }) => author))];
    const key = JSON.stringify(authors.map((author) => [author, named(author), colourOf(author)]));
    if (key !== this.peopleKey) {
      this.peopleKey = key;
      $("here").replaceChildren(...authors.map((author) => {
        const isMe = author === me, title = isMe ? WORDS.you(fullName(author)) : fullName(author);
        return element("li", { className: `${colourOf(author)}${isMe ? " is-me" : ""}`, textContent: named(author), title });
      }));
    }
    this.place();
  }

  async came(author) {
    this.displays.forgetGuests();
    await this.displays.ask([author]);
    say($("news"), WORDS.came(named(author)));
  }

  went(author) { say($("news"), WORDS.went(named(author))); }

  // The session cannot go on. What was typed and not sent is shown, to be copied.
  over(text) {
    this.session.right = "none";
    this.showEditable();
    this.closed?.draw();
    this.notice.show(text, { unsent: this.session.unsentWords });
    this.showState();
  }

  refused(reply, words) {
    if (reply.code === DENIED && !words) { this.shutOut(); return; }
    this.notice.show(refusal(reply), { canGoOn: FULL.includes(reply.code) });
  }

  // The page asks on, and is refused again and again. It says so once.
  shutOut() {
    if (!this.isShutOut) this.notice.show(WORDS.shutOut);
    this.isShutOut = true;
  }

  warnWhenFull() {
    const { used, left } = this.session.room, percent = Math.floor(used * 100);
    if (used < NEARLY_FULL || percent === this.percent) return;
    this.percent = percent;
    this.notice.show(used >= 1 ? WORDS.full : WORDS.nearlyFull(percent, left), { canGoOn: true });
  }

  // What is searched: what is shown, and the editor if its text may be changed.
  get searched() {
    const { editor, lines, past } = this, mayChange = !past.shown && editor.isEditable && !editor.suggests;
    return { text: lines.text ?? "", lines, editor: mayChange ? editor : null };
  }

  // ---- places on the screen

  get lines() { return this.past.shown ? this.past.lines : this.editor.lines; }

  // Once a frame at most: carets and cards go beside their words.
  placeAll() {
    const { session, past, views } = this, isRead = views.mode === "minutes" && past.compared === null;
    if (!this.isOpen) return;
    const { lines } = this, rectAt = (unit) => {
      const place = Math.min(unit, lines.text.length);
      return isRead ? { top: views.minutes.topOf(lines.lineAt(place).index) } : lines.rectAt(place);
    };
    if (past.shown || isRead) this.carets.clear();
    else if (!this.editor.isWaiting) this.carets.draw(session.presence.others, rectAt);
    if (!past.compared) this.remarks.place(rectAt);
    this.who?.place();
  }

  listAuthors() {
    const { past, session } = this;
    if (!this.isOpen || !session.pad) return;
    this.giveColours();
    this.askNames();
    this.legend.draw(past.shown ?? session.pad);
  }

  // ---- exports

  // The shown revision, with its comments.
  get revision() {
    const { pad, comments } = this.session, { shown } = this.past;
    const { rev, text, runs } = shown ?? pad;
    return { name: pad.name, rev, text, runs, comments: shown?.comments ?? comments.list };
  }
}
