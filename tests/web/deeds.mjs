// What authors do on pages at random, and what is known of it in the end. Each character and each comment is typed once, so
// it is known whose it is, and whether it is lost or doubled.
import { accept, stepped } from "../../clients/js/src/suggestions.js";
import { reply, suggestion, suggestionIn } from "../../clients/js/src/threads.js";
import { commentsOf, runsOf, spotsOf } from "./pages.mjs";

const PLANE = 0x20000, SMALL = 0x4e00, json = JSON.stringify;

export class Deeds {
  // `modules` has the History and the deltas of some copy of the library. `isFull`: also undo, redo and restored revisions.
  constructor({ dice, modules, padNames, isFull, pause }) {
    Object.assign(this, { dice, modules, padNames, isFull, pause, pages: [], written: new Map(), comments: new Map(), fresh: 0 });
    this.seen = { switches: 0, undone: 0, restored: 0, comments: 0, suggested: 0, accepted: 0, late: 0, replies: 0, ticks: 0, typed: 0, saved: 0 };
  }

  fault(text) { throw Object.assign(new Error(text), { isFound: true }); }

  add(page) {
    this.pages.push(Object.assign(page, { mine: new Map(), isSwitching: false, wantsPad: false, drawn: null }));
    page.session.on("change", (delta) => { if (page.drawn) page.drawn.since = this.modules.delta.compose(page.drawn.since, delta); });
  }
  remove(page) { this.pages = this.pages.filter((one) => one !== page); }

  // ---- what an author does

  // Characters that a page had kept when it ended. Answers how many of them have to be there in the end.
  keep(words) {
    const letters = [...words].map((character) => this.written.get(character)).filter((letter) => letter && !letter.isErased);
    for (const letter of letters) letter.isKept = true;
    return letters.length;
  }

  // A page ends before it was told what became of its comments.
  forget(session) {
    for (const { text } of session.comments.unsent.list) if (this.comments.has(text)) this.comments.get(text).isForgotten = true;
  }

  // Characters that nobody has typed yet, most of them beyond 16 bits.
  characters(count) {
    return Array.from({ length: count }, () => String.fromCodePoint((this.dice(4) ? PLANE : SMALL) + this.fresh++)).join("");
  }

  act(page) {
    const { dice, isFull } = this;
    if (!page.session.pad || page.isSwitching) return;
    if (dice(3) === 0) this.typeAt(page);
    if (isFull && dice(20) === 0) this.undoAt(page);
    if (isFull && dice(50) === 0) this.restoreAt(page);
    if (dice(25) === 0) this.commentAt(page);
    if (dice(60) === 0) this.resolveAt(page);
    if (dice(30) === 0) this.suggestAt(page);
    if (dice(12) === 0) this.acceptAt(page);
    if (dice(40) === 0) this.replyAt(page);
    if (dice(15) === 0) this.tickAt(page);
    if (dice(40) === 0) this.switchAt(page);
  }

  // A caret is told where the author has one window: two windows' carets could stand at the same words by chance.
  typeAt(page) {
    const { dice } = this, { pad } = page.session, spots = spotsOf(pad.text), last = spots.length - 1, from = dice(spots.length);
    const isLarge = dice(6) === 0, to = dice(3) ? from : Math.min(last, from + dice(isLarge ? 60 : 6));
    const text = from === to || dice(2) ? this.characters(1 + dice(isLarge ? 60 : 5)) : "";
    this.note(page, pad, pad.text.slice(spots[from], spots[to]), text);
    page.type(spots[from], spots[to] - spots[from], text);
    if (!this.pages.some((one) => one !== page && one.session.name === page.session.name)) page.session.moveCaret(spots[from] + text.length);
  }

  note(page, pad, dropped, typed) {
    for (const character of dropped) if (this.written.has(character)) this.written.get(character).isErased = true;
    for (const character of typed) {
      const letter = { pad: pad.name, isErased: false, isSaved: false };
      this.seen.typed++;
      this.written.set(character, letter);
      if (!page.mine.has(pad.name)) page.mine.set(pad.name, []);
      page.mine.get(pad.name).push(letter);
    }
  }

  // A delta that the page makes of itself: what it drops is erased.
  makes(page, delta, pad) {
    let at = 0;
    for (const step of delta) {
      if (step.drop) this.note(page, pad, pad.text.slice(at, at + step.drop), "");
      at += step.keep ?? step.drop ?? 0;
    }
    page.shown = this.modules.delta.apply(page.shown, delta);
  }

  undoAt(page) {
    const { pad } = page.session, { undos, redos } = pad.steps, steps = this.dice(3) ? undos : redos, next = steps[steps.length - 1];
    if (!next?.length) return;
    this.makes(page, next, pad);
    const delta = steps === redos ? pad.redo() : pad.undo(), made = delta.tag?.suggestion;
    if (made && this.comments.has(made.text)) this.comments.get(made.text).isMadeAgain = true;
    if (made) stepped(page.session, delta, steps === redos, this.modules.delta.extent(delta));
    this.seen.undone++;
  }

  async restoreAt(page) {
    const { pad } = page.session, rev = this.dice(pad.rev + 1), from = pad.rev;
    const history = new this.modules.History(pad);
    let delta = null;
    try { delta = pad.carriedDelta(await history.back(rev, from, pad.me), from); } catch { return; } // the connection was lost
    if (!delta || page.session.pad !== pad || page.isSwitching) return;
    this.makes(page, delta, pad);
    pad.type(delta);
    this.seen.restored++;
  }

  commentAt(page) {
    const { session } = page, spots = spotsOf(session.pad.text), last = spots.length - 1, from = this.dice(last), text = `c${this.comments.size}`;
    if (!last) return;
    const comment = { pad: session.pad.name, outcome: "" }, to = Math.min(last, from + 1 + this.dice(5));
    this.comments.set(text, comment);
    const made = session.comment(spots[from], spots[to], text);
    made.then(() => { comment.outcome = "made"; }, (error) => { comment.outcome = `${error.reply?.code}`; });
    this.seen.comments++;
  }

  // Words of the text are to be others, which nobody has typed yet.
  suggestAt(page) {
    const { pad } = page.session, spots = spotsOf(pad.text), last = spots.length - 1;
    if (!last) return;
    const from = spots[this.dice(last)], to = spots[Math.min(last, spots.indexOf(from) + 1 + this.dice(4))];
    this.say(page, from, to, suggestion(pad.text.slice(from, to), this.characters(this.dice(4))));
    this.seen.suggested++;
  }

  // Says something on a stretch, and notes what becomes of it.
  say(page, from, to, text) {
    const comment = { pad: page.session.pad.name, outcome: "" };
    if (this.comments.has(text)) return;
    this.comments.set(text, comment);
    page.session.comment(from, to, text).then(() => { comment.outcome = "made"; }, (error) => { comment.outcome = `${error.reply?.code}`; });
  }

  // Accepts a suggestion. Several pages can do so at the same time, and its words come once.
  async acceptAt(page) {
    const { session } = page, { pad } = session, open = session.comments.list.filter(({ isResolved, text }) => !isResolved && suggestionIn(text));
    if (!open.length) return;
    let change = null;
    try { change = await (this.modules.accept ?? accept)(session, open[this.dice(open.length)]); } catch (error) { if (error.name === "Lost" || error.code) return; throw error; }
    if (!change) this.seen.late++;
    if (!change || session.pad !== pad || page.isSwitching || session.isOver) return;
    const { delta, tag } = change();
    this.makes(page, delta, pad);
    this.note(page, pad, "", delta.map(({ insert = "" }) => insert).join(""));
    pad.steps.rest();
    pad.type(delta, true, tag);
    pad.steps.rest();
    this.seen.accepted++;
  }

  replyAt(page) {
    const { list } = page.session.comments, one = list[this.dice(list.length)];
    if (!one || one.from >= one.to) return;
    this.say(page, one.from, one.to, reply(one.name, `r${this.comments.size}`));
    this.seen.replies++;
  }

  // One character of the text as it was a while ago becomes another, as a box of minutes is ticked: it is found in the text as it
  // is now by what has changed since.
  tickAt(page) {
    const { delta: { move } } = this.modules, { pad } = page.session;
    if (page.drawn?.pad === pad && page.drawn.text) {
      const { text, since } = page.drawn, spots = spotsOf(text), from = spots[this.dice(spots.length - 1)], [letter] = text.slice(from);
      const at = move(from, since, true), is = pad.text.slice(at, at + letter.length) === letter;
      if (!is && pad.text.includes(letter) && !this.isFull) this.fault(`${letter} is not found where it has moved`);
      if (is) {
        const mark = this.characters(1);
        this.note(page, pad, letter, mark);
        page.type(at, letter.length, mark);
        this.seen.ticks++;
      }
    }
    if (this.dice(2)) page.drawn = { pad, text: pad.text, since: [] };
  }

  resolveAt(page) {
    const { list } = page.session.comments, one = list[this.dice(list.length)];
    if (one && !one.isResolved) page.session.resolve(one.name).catch(() => {});
  }

  // Asks for one to three pads, one shortly after the other. The last one is open in the end, or the present one stays.
  async switchAt(page) {
    const { dice, padNames } = this, { session } = page, joins = [];
    page.isSwitching = true;
    for (let k = dice(3); k >= 0; k--) {
      joins.push(session.join(padNames[dice(padNames.length)]).then((pad) => pad, (error) => error));
      if (k) await this.pause(dice(400));
    }
    const last = (await Promise.all(joins)).pop();
    page.isSwitching = false;
    page.shown = session.pad?.text ?? "";
    page.wantsPad = !session.pad;
    if (session.pad && session.pad === last) this.seen.switches++;
    else if (session.pad && !(last instanceof Error) && !session.isOver) page.faults.push(new Error(`${session.pad.name} is open, and not ${last.name}`));
  }

  // What the author sees now: which characters are called saved. Where no pad is open, one is opened.
  look(page) {
    const { session } = page;
    if (session.pad && session.state === "saved") for (const letter of page.mine.get(session.pad.name) ?? []) letter.isSaved = true;
    if (page.wantsPad && !session.isLost && !session.isOver && !page.isSwitching) this.switchAt(page);
  }

  // ---- what has to hold in the end

  // `have` is what the server has of a page's pad.
  comparePage(page, have) {
    const { session, shown } = page, { pad } = session;
    if (pad.text !== have.text || shown !== have.text) this.fault(`at the end of ${pad.name}: ${json([pad.text, shown, have.text])}`);
    if (json(runsOf(page)) !== json(have.runs)) this.fault(`the authors of ${pad.name}: ${json([runsOf(page), have.runs])}`);
    const listed = (list) => json(list.map(({ name, author, text, at, len, resolved }) => [name, author, text, at, len, resolved]).sort());
    if (listed(commentsOf(page)) !== listed(have.comments)) this.fault(`the comments of ${pad.name}: ${listed(commentsOf(page))}, ${listed(have.comments)}`);
    const refusals = page.refusals.filter(([code]) => code !== 322);
    if (refusals.length) this.fault(`refused: ${refusals.join("; ")}`);
    if (page.faults.length) this.fault(`a page has met ${page.faults[0].stack}`);
  }

  // Each character that a page called saved, and that no page erased, is there once. None is there twice, unless one that was
  // erased was brought back. `texts` has the text of each pad.
  compareLetters(texts, isLost = () => false) {
    const times = new Map();
    for (const [pad, text] of texts) for (const character of text) times.set(`${pad} ${character}`, (times.get(`${pad} ${character}`) ?? 0) + 1);
    for (const [character, { pad, isErased, isSaved, isKept }] of this.written) {
      const there = times.get(`${pad} ${character}`) ?? 0;
      if (isSaved) this.seen.saved++;
      if ((isSaved || isKept) && !isErased && there !== 1 && !isLost(pad)) this.fault(`${character} of ${pad} is there ${there} times`);
      if (there > 1 && !(isErased && this.isFull)) this.fault(`${character} of ${pad} is there ${there} times`);
      for (const other of this.padNames) if (other !== pad && times.has(`${other} ${character}`)) this.fault(`${character} of ${pad} is in ${other}`);
    }
  }

  // Each comment is made once, if its author was told so, and not at all if it was refused. `made` has the texts of those of
  // each pad.
  compareComments(made, isLost = () => false) {
    for (const [text, { pad, outcome, isForgotten, isMadeAgain }] of this.comments) {
      const times = made.get(pad).filter((one) => one === text).length;
      if (isLost(pad) || isMadeAgain || (isForgotten && times <= 1)) continue;
      if (outcome === "made" ? times !== 1 : times) this.fault(`the comment ${text} of ${pad} is ${outcome || "open"}, and was made ${times} times`);
    }
  }
}
