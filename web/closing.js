// Closing a pad and opening it again: the bar that says that the pad is closed, and the part of the dialog of rights in which an owner
// closes it. Both are loaded once they are wanted, so they make their elements themselves.
import { reason } from "./enter.js";
import { Unsaved } from "../clients/js/src/errors.js";
import { $, element, say } from "./page.js";
import { clockOf } from "./times.js";
import { LABELS, WORDS, refusal } from "./words.js";

const CLOSED = { code: 330 };
// An older server knows no such request.
const NOT_REQUEST = 102;

function button(id, act, className = "") {
  const out = element("button", { type: "button", id, className });
  out.addEventListener("click", act);
  return out;
}

// An element with attributes that not every browser has as properties.
function marked(node, attributes) {
  for (const name in attributes) node.setAttribute(name, attributes[name]);
  return node;
}

// Above the text, as long as the pad is closed.
export class ClosedBar {
  constructor(desk) {
    Object.assign(this, { desk, session: desk.session, closed: null, isAsked: false });
    this.text = marked(element("p", { id: "closed-text" }), { role: "alert" });
    this.answer = marked(element("span", { id: "closed-answer", className: "quiet" }), { role: "status" });
    this.button = button("reopen", () => (this.session.isShut ? this.ask() : this.reopen()));
    this.bar = element("section", { id: "closed", hidden: true }, this.text, this.button, this.answer);
    $("work").prepend(this.bar);
  }

  draw() {
    const { session: { isOver, isShut, pad, right }, bar } = this, isClosed = this.session.isClosed && !isOver;
    const wasClosed = this.closed === pad, hadFocus = bar.contains(document.activeElement);
    this.closed = isClosed ? pad : null;
    bar.hidden = !isClosed;
    if (!wasClosed || !isClosed) say(this.answer, "");
    if (wasClosed && !isClosed && !isOver) say($("news"), WORDS.reopened);
    if (!isClosed) { if (hadFocus) $("text").focus(); return; }
    say(this.text, isShut ? this.shutText : WORDS.closedToOwner);
    say(this.button, isShut ? LABELS.tryAgain : LABELS.reopen);
    this.button.hidden = !isShut && right !== "own";
    if (this.isAsked && isShut) say(this.answer, WORDS.stillClosed(clockOf(Date.now())));
    this.isAsked = false;
  }

  // What was typed and not sent is in the text that is shown, and goes on from there.
  get shutText() {
    const { isUnsent, drafts } = this.session, unsent = drafts.areKept ? WORDS.closedKept : WORDS.closedUnsent;
    return [refusal(CLOSED), WORDS.looksAgain, isUnsent && unsent].filter(Boolean).join(" ");
  }

  // Asks at once whether the pad is open again. If it is not, that is drawn.
  ask() {
    this.isAsked = true;
    say(this.answer, WORDS.connecting);
    this.session.hurry();
  }

  async reopen() {
    try { await this.session.reopen(); } catch (error) { this.desk.notice.show(reason(error)); }
  }
}

// In the dialog of rights, for who may own the pad.
export class CloseQuestion {
  // `box` is the dialog, which makes the change and says what came of it.
  constructor(box) {
    Object.assign(this, { box, isUnknown: false });
    this.help = element("p", { className: "quiet", id: "close-help" });
    this.button = marked(button("close-pad", () => (box.session.isClosed ? this.reopen() : this.ask(true))), { "aria-describedby": "close-help" });
    this.question = element("p", { id: "close-question" });
    this.no = button("close-no", () => { this.ask(false); this.button.focus(); });
    this.yes = button("close-yes", () => this.close(), "strong");
    this.asked = marked(element("div", { hidden: true }, this.question, element("div", { className: "row end" }, this.no, this.yes)), { role: "group", "aria-labelledby": "close-question" });
    this.part = element("div", { id: "closing" }, element("div", { className: "row" }, this.button, this.help), this.asked);
    $("grant-error").before(this.part);
  }

  draw() {
    const { isClosed, right } = this.box.session;
    this.part.hidden = right !== "own" || this.isUnknown;
    say(this.button, isClosed ? LABELS.reopen : LABELS.closePad);
    say(this.help, isClosed ? WORDS.closedToOwner : LABELS.closeHelp);
    say(this.question, WORDS.closeQuestion);
    say(this.no, LABELS.cancel);
    say(this.yes, LABELS.closePad);
    if (isClosed) this.ask(false);
  }

  ask(is) {
    this.asked.hidden = !is;
    this.button.disabled = is;
    if (is) this.yes.focus();
  }

  why = (error) => {
    if (error.reply?.code !== NOT_REQUEST) return reason(error);
    this.isUnknown = true;
    return WORDS.noClosing;
  };

  // What the owner has typed is sent before, since a closed pad takes it no more.
  async close() {
    const { box } = this, { session } = box;
    this.ask(false);
    this.button.focus();
    const close = async () => {
      if (!(await session.settle())) throw new Unsaved(session.pad.name);
      await session.close();
    };
    if (await box.change(close, WORDS.closed, this.why)) $("rights-box").close();
  }

  reopen() { return this.box.change(() => this.box.session.reopen(), WORDS.reopened, this.why); }
}
