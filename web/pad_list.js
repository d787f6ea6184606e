// The list of pads: the author's own and those that others share, the last used on this device first, with a search by name.
import { named } from "./authors.js";
import { glance } from "./glance.js";
import { timeOf } from "./times.js";
import { $, element, say } from "./page.js";
import { WORDS } from "./words.js";

export const TEMPLATE = /^template-./;
// Of so many pads the last change is asked for.
const MOST_ASKED = 100;
// So many are shown at once: the last used here, or the first of those that a search finds.
const MOST_SHOWN = 500;

// A closed pad is read by those alone who may own it.
export const isReadable = ({ isClosed, right }) => !isClosed || right === "own";

// The pads with these letters in their names, and how many there are.
export function found(pads, letters) {
  const all = pads.filter(({ name }) => name.includes(letters.toLowerCase()));
  return { shown: all.slice(0, MOST_SHOWN), count: all.length };
}

export class PadList {
  // `onOpen` gets the name of a pad.
  constructor(session, displays, onOpen) {
    Object.assign(this, { session, displays, onOpen, pads: [], lines: new Map(), last: new Map(), asks: 0 });
    $("pads-search").addEventListener("input", () => this.draw());
  }

  // `pads` are { name, right, now, isClosed, isUnsent, keptAt }: `keptAt` is when this browser has shown it last, or 0.
  show(pads) {
    this.pads = pads.map((pad, order) => ({ ...pad, order })).sort((a, b) => b.keptAt - a.keptAt || b.order - a.order);
    $("no-pads").hidden = pads.length > 0;
    $("search").hidden = !pads.length;
    this.draw();
    this.askLast();
  }

  get words() { return $("pads-search").value.trim(); }

  draw() {
    const { shown, count } = found(this.pads, this.words);
    const groups = [["own", shown.filter(({ right }) => right === "own")], ["shared", shown.filter(({ right }) => right !== "own")]];
    this.lines.clear();
    for (const [group, pads] of groups) {
      $(`pads-${group}`).hidden = !pads.length;
      $(`pads-${group}`).querySelector("ul").replaceChildren(...pads.map((pad) => this.row(pad)));
    }
    const told = [this.words && WORDS.padsFound(count), shown.length < count && WORDS.padsShown(shown.length)];
    say($("pads-found"), told.filter(Boolean).join(" · "));
  }

  row(pad) {
    const said = element("span", { textContent: this.lineOf(pad) });
    const button = element("button", { type: "button" }, element("b", { textContent: pad.name }), said);
    button.addEventListener("click", () => this.onOpen(pad.name));
    this.lines.set(pad.name, said);
    return element("li", { className: pad.isClosed ? "is-closed" : "" }, button);
  }

  lineOf({ name, right, now, isClosed, isUnsent, keptAt }) {
    const { rev, kind, author } = this.last.get(name) ?? {};
    return WORDS.padLine(right, now, rev === now ? WORDS.madeBy(kind, named(author)) : "", keptAt ? timeOf(keptAt) : "", isUnsent, isClosed);
  }

  // Who changed each pad last. The list of the server has only the number of changes, so each pad is asked, one behind the
  // other, until one is opened. The lines are written anew one by one, since a button may have the keyboard.
  async askLast() {
    const asks = ++this.asks, { session } = this;
    for (const pad of this.pads.slice(0, MOST_ASKED)) {
      const { name, now } = pad;
      if (!now || this.last.get(name)?.rev === now || !isReadable(pad)) continue;
      try {
        const { entries: [entry] } = await glance(session, name, { do: "entries", from: now, count: 1 });
        if (entry) { this.last.set(name, entry); this.displays.ask([entry.author]); }
      } catch (error) { if (!error.reply) return; } // a pad that cannot be visited is passed over
      if (asks !== this.asks) return;
      if (this.lines.has(name)) say(this.lines.get(name), this.lineOf(pad));
    }
  }

  // The lines are written anew where an author has another display name.
  renamed() { for (const pad of this.pads) if (this.lines.has(pad.name)) say(this.lines.get(pad.name), this.lineOf(pad)); }

  stop() { this.asks++; }
}
