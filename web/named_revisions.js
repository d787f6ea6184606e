// The names of revisions, in the history: marks on its slider, a list that leads to them, and a field that names the revision that is
// shown. A name is never changed or taken away.
import { hint, named } from "./authors.js";
import { reason } from "./enter.js";
import { $, element, say, wordsOf } from "./page.js";
import { timeOf } from "./times.js";
import { WORDS, spoken } from "./words.js";

const NOT_REQUEST = 102, TOO_MUCH = 323;

export class NamedRevisions {
  // `all` is null where the server does not tell, as an older one does not.
  constructor(past) {
    Object.assign(this, { past, history: null, all: null, drawn: "", placed: "" });
    $("name-revision").addEventListener("submit", (event) => { event.preventDefault(); this.name(); });
  }

  // Asks which revisions have a name. Without a connection, what is known stays.
  async read() {
    const { past } = this, { history } = past;
    if (history !== this.history) Object.assign(this, { history, all: null });
    this.draw();
    try {
      const all = await history.marks();
      if (history === this.history) this.all = all.sort((a, b) => a.rev - b.rev);
      past.displays.ask(all.map(({ author }) => author));
    } catch (error) { if (error.code === NOT_REQUEST && history === this.history) this.all = null; }
    past.describe();
  }

  // What a revision is called, in words.
  of(rev) { return (this.all ?? []).filter((one) => one.rev === rev).map(({ text }) => WORDS.called(text)); }

  // Draws what is known of the pad that is open, where the revision that is shown has been drawn.
  draw() {
    const { all, past: { session, shown, compared, pad } } = this, known = this.history === this.past.history && all ? all : [];
    $("named").hidden = !all || (!known.length && !session.mayWrite);
    $("name-revision").hidden = !session.mayWrite;
    $("name-it").disabled = !shown || compared !== null;
    const names = JSON.stringify([spoken(), pad.name, known.map((one) => [one.rev, one.text, named(one.author)])]), places = names + pad.now;
    if (names !== this.drawn) this.list(known);
    if (places !== this.placed) $("marks").replaceChildren(...this.marks(known, pad.now));
    Object.assign(this, { drawn: names, placed: places });
    const rows = $("names-list").querySelectorAll("button");
    rows.forEach((row, k) => row.setAttribute("aria-current", known[k].rev === shown?.rev));
  }

  list(known) {
    $("names").hidden = !known.length;
    say($("names-count"), WORDS.namedRevisions(known.length));
    $("names-list").replaceChildren(...known.map((one) => this.row(one)));
  }

  row({ rev, author, time, text }) {
    const button = element("button", { type: "button", className: "plain" }, wordsOf("b", "", text), ` · ${WORDS.inRevision(rev)}`);
    const made = element("span", { className: "quiet", textContent: `${named(author)}, ${timeOf(time)}`, title: hint(author) });
    button.addEventListener("click", () => this.go(rev));
    return element("li", {}, button, " ", made);
  }

  // One mark for each revision with a name. The list has the same for whoever does not see or point.
  marks(known, now) {
    return [...new Set(known.map(({ rev }) => rev))].map((rev) => {
      const mark = element("span", { title: [...this.of(rev), WORDS.inRevision(rev)].join(" · ") });
      mark.style.insetInlineStart = `${now ? 100 * rev / now : 0}%`;
      mark.addEventListener("click", () => this.go(rev));
      return mark;
    });
  }

  go(rev) {
    this.past.stop();
    this.past.go(rev);
  }

  // Names the revision that is shown.
  async name() {
    const { past, history } = this, field = $("revision-name"), text = field.value.trim();
    if (!text || !past.shown || past.compared) return;
    past.stop();
    try {
      await history.mark(past.shown.rev, text);
      field.value = "";
      await this.read();
    } catch (error) { say($("rev-made"), error.code === TOO_MUCH ? WORDS.namesFull : reason(error)); }
  }
}
