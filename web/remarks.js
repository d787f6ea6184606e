// The comments of the open pad: which are seen, where they are marked in the text, and the dialog in which one is written.
import { displayOf, named } from "./authors.js";
import { isGuest } from "../clients/js/src/guests.js";
import { authorsIn } from "../clients/js/src/rights.js";
import { accept } from "../clients/js/src/suggestions.js";
import { reply, threadsOf } from "../clients/js/src/threads.js";
import { reason } from "./enter.js";
import { Margin } from "./margin.js";
import { Mentions } from "./mentions.js";
import { $, element, gather, say } from "./page.js";
import { SuggestBox } from "./suggest_box.js";
import { proposalIn } from "./suggesting.js";
import { LABELS, WORDS } from "./words.js";

const SCROLLED = 150;

export class Remarks {
  constructor(desk) {
    const { session } = desk;
    Object.assign(this, { desk, litId: null, showsResolved: false, parent: null, margin: new Margin($("margin")), mentions: new Mentions(session) });
    this.box = new SuggestBox({
      textOf: () => session.pad.text, place: () => this.placeBox(),
      asked: (stretch) => { session.comments.asked = stretch; this.draw(); },
      onSend: ({ from, to }, text) => session.comment(from, to, text).catch(() => {}),
      onFault: (text) => desk.notice.show(text), onClose: () => $("text").focus(),
    });
    this.drawSoon = gather(() => this.draw());
    this.listen();
  }

  listen() {
    const on = (id, act, kind = "click") => $(id).addEventListener(kind, act);
    on("comment", () => this.ask());
    on("suggest", () => this.suggest());
    on("comment-box", () => this.send(), "close");
    on("resolved", () => { this.showsResolved = !this.showsResolved; this.draw(); });
    addEventListener("scroll", gather(() => { if (this.margin.isCut) this.draw(); }, (act) => setTimeout(act, SCROLLED)));
  }

  // What was drawn of another pad can look the same.
  forget() {
    this.litId = null;
    this.margin.forget();
    if (this.box.isOpen) this.box.close();
  }

  // All threads of the revision that is shown, and those that are seen: resolved ones only if they are asked for.
  get all() { return threadsOf(this.desk.past.shown?.comments ?? this.desk.session.comments.all); }
  get seen() {
    if (this.desk.past.compared) return [];
    return this.all.filter(({ isResolved }) => this.showsResolved || !isResolved);
  }

  // What is marked in the text: the words of comments, with what is suggested for them, and those that the author is about to
  // comment on.
  get marks() {
    const { past, session } = this.desk, { text } = past.shown ?? session.pad, { asked } = session.comments;
    const marks = this.seen.map(({ id, from, to, text: words, isResolved }) => {
      return { id, from, to, isLit: id === this.litId, ...(isResolved ? null : proposalIn(words, text.slice(from, to))) };
    });
    return asked && !past.shown ? [...marks, asked] : marks;
  }

  draw() {
    const { desk } = this, { past, session } = desk;
    if (!desk.isOpen || !session.pad) return;
    desk.giveColours();
    const resolved = this.all.filter(({ isResolved }) => isResolved).length;
    $("resolved").hidden = !resolved;
    say($("resolved"), (this.showsResolved ? WORDS.hideResolved : WORDS.showResolved)(resolved));
    const { text } = past.shown ?? session.pad;
    this.margin.draw(this.seen, text, this.deeds, () => desk.lines.unitAt(innerHeight / 2));
    desk.phone.count(this.seen.length);
    if (!past.shown) desk.editor.setMarks(this.marks);
    this.mention();
    desk.place();
  }

  // The text has changed: what is suggested for changed words looks otherwise.
  changed() {
    if (this.desk.session.comments.asked || this.marks.some((mark) => mark.out)) this.drawSoon();
  }

  // What may be done with comments.
  get deeds() {
    const { past, session } = this.desk, out = { onLit: (id) => this.light(id), onGo: (id) => this.goTo(id) };
    if (past.isOpen || !session.mayComment) return out;
    Object.assign(out, { onResolve: ({ name }) => this.resolve(name), onReply: (thread) => this.askReply(thread) });
    return session.mayWrite ? Object.assign(out, { onAccept: (thread) => this.accept(thread) }) : out;
  }

  place(rectAt) {
    this.margin.place(this.seen, rectAt);
    this.placeBox();
  }

  light(id) {
    const { past, editor } = this.desk;
    if (id === this.litId) return;
    this.litId = id;
    this.margin.light(id);
    if (past.compared) return;
    if (past.shown) past.lines.setMarks(this.marks);
    else editor.setMarks(this.marks);
  }

  // The keyboard goes to the next comment behind the caret, or behind the one that has it.
  next() {
    const { editor, phone } = this.desk, threads = [...this.seen].sort((a, b) => a.from - b.from), held = document.activeElement?.closest?.(".card")?.id;
    const at = threads.findIndex(({ id }) => id === held), behind = threads.findIndex(({ from }) => from >= (editor.selection()?.from ?? 0));
    const found = threads[at < 0 ? Math.max(0, behind) : (at + 1) % threads.length];
    if (!found) return;
    if (phone.isNarrow) phone.open(true);
    document.getElementById(found.id)?.focus();
    document.getElementById(found.id)?.scrollIntoView({ block: "nearest" });
  }

  // Selects the words of a comment.
  goTo(id) {
    const { past, editor } = this.desk, comment = this.seen.find((one) => one.id === id);
    if (!comment || past.isOpen) return;
    $("text").focus();
    editor.select(comment.from, comment.to);
    editor.reveal();
  }

  // ---- comments and replies

  ask() {
    const { editor, notice } = this.desk, selected = editor.selection();
    if ($("comment").disabled) return;
    if (!selected || selected.from === selected.to) { notice.show(WORDS.selectFirst); return; }
    notice.takeBack(WORDS.selectFirst);
    this.openBox(selected, null);
  }

  askReply(thread) { this.openBox(thread, thread); }

  // The dialog for a comment on a stretch, or for a reply to one.
  openBox({ from, to }, parent) {
    const { session } = this.desk;
    this.parent = parent;
    session.comments.asked = { id: "asked", from, to, isLit: true };
    this.draw();
    say($("comment-title"), parent ? WORDS.replyTo(named(parent.author)) : LABELS.comment);
    say($("comment-words"), parent ? parent.text : session.pad.text.slice(from, to));
    $("comment-text").value = "";
    $("comment-box").returnValue = "";
    this.drawNames();
    $("comment-box").showModal();
  }

  // Names of authors, to address them.
  drawNames() {
    const { session } = this.desk, names = authorsIn(session.rights).filter((name) => name !== session.name && !isGuest(name));
    $("mention").replaceChildren(...names.slice(0, 12).map((name) => {
      const button = element("button", { type: "button", className: "small", textContent: `@${name}`, title: displayOf(name) ?? "" });
      button.addEventListener("click", () => {
        const field = $("comment-text");
        field.setRangeText(`@${name} `, field.selectionStart, field.selectionEnd, "end");
        field.focus();
      });
      return button;
    }));
  }

  send() {
    const { editor, session } = this.desk, { comments } = session, { asked } = comments, words = $("comment-text").value, { parent } = this;
    editor.root.focus();
    comments.asked = null;
    if ($("comment-box").returnValue === "send" && words.trim()) {
      session.comment(asked.from, asked.to, parent ? reply(parent.name, words) : words).catch(() => {});
    }
    this.draw();
  }

  async resolve(name) {
    const { notice, session } = this.desk;
    try { await session.resolve(name); } catch (error) { notice.show(reason(error)); }
  }

  // ---- suggestions

  // Turns the mode on or off in which what is typed is a suggestion.
  suggest(is = !this.desk.editor.suggests) {
    const { editor, notice, session } = this.desk, lost = is ? "" : this.box.unsent;
    if (is && $("suggest").disabled) return;
    if (!is && this.box.isOpen) this.box.close();
    if (lost) { session.kept.add(lost); notice.show(""); } // the pad was closed, the right taken, or the history opened meanwhile
    editor.suggests = is;
    $("suggest").setAttribute("aria-pressed", String(is));
    document.body.classList.toggle("is-suggesting", is);
    this.desk.showEditable();
    if (is) notice.show(WORDS.suggesting); else notice.takeBack(WORDS.suggesting);
    $("text").focus();
  }

  // The box is below the words that it is about.
  placeBox() {
    const { stretch } = this.box;
    if (!stretch) return;
    const { bottom } = this.desk.editor.lines.rectAt(Math.min(stretch.to, this.desk.session.pad.text.length));
    $("suggest-box").style.top = `${Math.round(bottom - $("paper").getBoundingClientRect().top + 8)}px`;
  }

  // Its change and its resolution are one step of undo.
  async accept(thread) {
    const { desk } = this, { session } = desk, { pad } = session;
    try {
      const change = await accept(session, thread);
      if (!change) { desk.notice.show(WORDS.decided); return; }
      if (pad !== session.pad) return;
      desk.editor.endComposition();
      const { delta, tag } = change();
      desk.steps.make(delta, tag);
    } catch (error) { desk.notice.show(reason(error)); }
  }

  // ---- comments that address the author

  mention() {
    const { session } = this.desk, { news } = this.mentions;
    if (!news.length) return;
    this.mentions.note(news);
    const [{ id, author }] = news;
    this.desk.notice.show(WORDS.addressed(news.length, named(author)), { onSee: () => {
      this.desk.notice.takeBack(this.desk.notice.text);
      document.getElementById(this.all.find((one) => one.id === id || one.replies.some((other) => other.id === id))?.id)?.focus();
      if (session.pad) this.desk.place();
    } });
  }
}
