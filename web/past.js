// The slider: earlier revisions, who made them and when, what differs between two of them, and the way back to one.
import { hint, named } from "./authors.js";
import { placed } from "../clients/js/src/comments.js";
import { reason } from "./enter.js";
import { Lost } from "../clients/js/src/errors.js";
import { Lines } from "./lines.js";
import { $, element, later, say } from "./page.js";
import { pause } from "../clients/js/src/clock.js";
import { clockOf, dateOf, timeOf } from "./times.js";
import { LABELS, WORDS } from "./words.js";

const STEP = 90, MOST_STEPS = 300, DATES = 5;
const QUESTIONS = ["at", "entry", "time", "birth", "marks", "mark", "timesBy", "revAt", "back", "compare"];

// The server is asked for all of it, so what asks is loaded with the first question.
const loadHistory = later(() => import("../clients/js/src/history.js").catch(() => { throw new Lost("not loaded"); }));

function historyOf(pad) {
  const history = later(async () => new (await loadHistory()).History(pad));
  return Object.fromEntries(QUESTIONS.map((ask) => [ask, async (...given) => (await history())[ask](...given)]));
}

export class Past {
  // `onShow` is called when another revision is shown, or none. `onRestore` gets what makes the text of a revision the
  // present one again, a delta over what the pad shows.
  constructor(session, { displays, onShow, onRestore }) {
    Object.assign(this, { session, displays, onShow, onRestore, lines: new Lines($("past")) });
    Object.assign(this, { shown: null, compared: null, wanted: null, isPlaying: false, isOpen: false, isCompareSet: false, names: null });
    this.loadNames = later(async () => { this.names = new (await import("./named_revisions.js")).NamedRevisions(this); });
    const on = (id, kind, act) => $(id).addEventListener(kind, act);
    on("history", "click", () => { if (this.isOpen) this.close(); else this.open(); });
    on("back", "click", () => this.close());
    on("restore", "click", () => this.restore());
    on("rev", "input", () => { this.stop(); this.go(Number($("rev").value)); });
    on("older", "click", () => { this.stop(); this.step(-1); });
    on("newer", "click", () => { this.stop(); this.step(1); });
    on("play", "click", () => { if (this.isPlaying) this.stop(); else this.play(); });
    on("compare-rev", "input", () => { this.isCompareSet = $("compare-rev").value !== ""; });
    on("compare", "submit", (event) => { event.preventDefault(); this.compare(); });
    on("as-of", "submit", (event) => { event.preventDefault(); this.goTo(new Date($("moment").value)); });
  }

  // Another pad is open.
  start(pad) {
    this.history = historyOf(pad);
    this.pad = pad;
    if (this.isOpen) this.close();
  }

  // There are further revisions.
  grow() {
    if (!this.isOpen) return;
    $("rev").max = this.pad.now;
    this.describe();
  }

  async open() {
    Object.assign(this, { isOpen: true, isCompareSet: false });
    $("slider").hidden = false;
    $("history").setAttribute("aria-pressed", "true");
    $("rev").max = $("compare-rev").max = this.pad.rev;
    this.scale();
    this.loadNames().then(() => this.names.read(), () => {}); // without a connection, there are none
    await this.go(this.pad.rev);
    $("rev").focus();
  }

  // Below the slider stands when some revisions were made, spread over it.
  async scale() {
    const { pad: { rev }, history } = this, step = Math.max(1, Math.floor((rev - 1) / (DATES - 1)));
    try {
      const times = rev ? await history.timesBy(step, Math.min(DATES, rev)) : [];
      if (history !== this.history) return;
      const dates = times.map(dateOf), words = times.map((time, k) => (dates[k] === dates[k - 1] ? clockOf(time) : dates[k]));
      $("dates").replaceChildren(...words.map((word, k) => element("span", { textContent: word === words[k - 1] ? "" : word })));
    } catch { $("dates").replaceChildren(); } // the connection broke
  }

  // Shows the pad as it was at a moment.
  async goTo(moment) {
    this.stop();
    try {
      await this.go(await this.history.revAt(moment.getTime()));
    } catch (error) { say($("rev-made"), reason(error)); }
  }

  close() {
    this.stop();
    Object.assign(this, { isOpen: false, shown: null, compared: null, wanted: null });
    $("slider").hidden = $("past").hidden = true;
    $("text").hidden = false;
    $("paper").classList.remove("is-old");
    $("history").setAttribute("aria-pressed", "false");
    this.onShow();
    $("text").focus();
  }

  // Shows a revision. While one is fetched, only the last one that is wanted is kept.
  async go(rev) {
    $("rev").value = rev;
    const isBusy = this.wanted !== null;
    this.wanted = rev;
    if (isBusy) return;
    try {
      while (this.isOpen && this.wanted !== null) {
        const next = this.wanted, text = await this.history.at(next), entry = await this.history.entry(next), time = await this.history.time(next);
        const comments = this.isPlaying ? [] : placed((await this.pad.call({ do: "comments", rev: next })).comments, text.text);
        if (!this.isOpen) return;
        this.show({ ...text, entry, time, comments });
        if (this.wanted === next) this.wanted = null;
      }
    } catch (error) { say($("rev-made"), reason(error)); }
    this.wanted = null;
  }

  show(shown) {
    this.shown = shown;
    this.compared = null;
    // A revision is compared with the one before it, unless the author has named another.
    if (!this.isCompareSet) $("compare-rev").value = Math.max(0, shown.rev - 1);
    say($("compare-go"), LABELS.compare);
    $("past").classList.remove("is-compared");
    this.draw(shown.text, shown.runs, shown.comments);
    this.describe();
  }

  draw(text, runs, marks) {
    $("past").hidden = false;
    $("text").hidden = true;
    $("paper").classList.add("is-old");
    this.lines.show(text, runs, marks);
    this.onShow();
  }

  // Says which revision it is, who made it, and when.
  describe() {
    const { shown, compared, pad } = this;
    if (!shown) return;
    this.names?.draw();
    $("restore").disabled = !this.session.mayWrite || compared !== null || shown.text === pad.text;
    if (compared) {
      const { from, to, inserted, dropped } = compared;
      say($("rev-made"), [WORDS.comparing(from, to), WORDS.inserted(inserted), WORDS.dropped(dropped)].join(" · "));
      return;
    }
    const { rev, entry, time } = shown, parts = [WORDS.old(rev, pad.now)];
    parts.push(entry ? WORDS.madeBy(entry.kind, named(entry.author)) : WORDS.start);
    if (time) parts.push(timeOf(time));
    parts.push(...(this.names?.of(rev) ?? []));
    say($("rev-made"), parts.join(" · "));
    $("rev-made").title = entry ? hint(entry.author) : "";
    $("rev").setAttribute("aria-valuetext", parts.join(", "));
  }

  // Compares the shown revision with another one, or ends that.
  async compare() {
    if (this.compared) { await this.go(this.shown.rev); return; }
    this.stop();
    const other = Number($("compare-rev").value), { rev } = this.shown;
    try {
      const compared = await this.history.compare(Math.min(other, rev), Math.max(other, rev));
      if (this.shown?.rev !== rev) return;
      this.compared = compared;
    } catch (error) { say($("rev-made"), reason(error)); return; }
    say($("compare-go"), LABELS.endCompare);
    $("past").classList.add("is-compared");
    this.draw(this.compared.text, this.compared.runs, []);
    this.describe();
  }

  // Makes the shown text the present one again, with what others do meanwhile.
  async restore() {
    const { pad, history, shown: { rev } } = this;
    this.stop();
    try {
      let delta = null;
      while (!delta) {
        const from = pad.rev;
        delta = pad.carriedDelta(await history.back(rev, from, pad.me), from);
      }
      if (pad !== this.pad || !this.isOpen || !this.session.mayWrite) return;
      this.close();
      this.onRestore(delta, rev);
    } catch (error) { say($("rev-made"), reason(error)); }
  }

  step(by) { return this.go(Math.max(0, Math.min(Number($("rev").max), Number($("rev").value) + by))); }

  async play() {
    const last = Number($("rev").max), stride = Math.max(1, Math.ceil(last / MOST_STEPS));
    this.isPlaying = true;
    this.drawPlay();
    if (Number($("rev").value) >= last) await this.go(0);
    while (this.isPlaying && Number($("rev").value) < last) {
      await Promise.all([this.step(stride), pause(STEP)]);
    }
    if (this.isPlaying) { this.stop(); await this.step(0); }
  }

  stop() {
    this.isPlaying = false;
    this.drawPlay();
  }
  drawPlay() { say($("play"), this.isPlaying ? LABELS.pauseIt : LABELS.play); }
}
