// The search in the texts of all pads that the author may read. The server tells each text, one pad behind the other.
import { findAll } from "./finding.js";
import { glance } from "./glance.js";
import { $, element, say } from "./page.js";
import { isReadable } from "./pad_list.js";
import { WORDS } from "./words.js";

const MOST_LINES = 5, BEFORE = 40, LONGEST = 160;

// The lines of a text that have the words, so many at most: { number, at, words }, of which `words` are a part of the line that
// begins at `start` and has the place.
export function linesWith(text, words, most = MOST_LINES) {
  const out = [];
  let number = 1, counted = 0, last = 0;
  for (const { from, to } of findAll(text, words)) {
    const begin = text.lastIndexOf("\n", from - 1) + 1, next = text.indexOf("\n", to), end = next < 0 ? text.length : next;
    for (; counted < begin; counted++) if (text[counted] === "\n") number++;
    if (number === last) continue;
    last = number;
    const start = from - begin > BEFORE ? from - BEFORE : begin;
    out.push({ number, from, to, start, words: text.slice(start, Math.min(end, start + LONGEST)) });
    if (out.length === most) break;
  }
  return out;
}

export class PadSearch {
  // `list` has the pads and the words, and `onOpen` gets the name of a pad, and what to find in it: { words, at }.
  constructor(session, list, { onOpen, onFault }) {
    Object.assign(this, { session, list, onOpen, onFault, searches: 0 });
    $("pads-search").addEventListener("input", () => this.stop());
  }

  stop() {
    this.searches++;
    $("texts-found").replaceChildren();
    say($("texts-state"), "");
  }

  async search() {
    const { list: { words, pads } } = this;
    this.stop();
    if (!words) return;
    const number = this.searches;
    let places = 0;
    say($("texts-state"), WORDS.searching);
    for (const { name } of pads.filter(isReadable)) {
      let text = "";
      try { ({ text } = await glance(this.session, name, { do: "text" })); } catch (error) {
        if (number === this.searches && !error.reply) { say($("texts-state"), ""); this.onFault(error); return; }
      }
      if (number !== this.searches) return;
      const lines = linesWith(text, words);
      places += lines.length;
      if (lines.length) $("texts-found").append(this.foundIn(name, lines, words));
    }
    say($("texts-state"), places ? WORDS.linesFound(places) : WORDS.notFound);
  }

  foundIn(name, lines, words) {
    const rows = lines.map(({ number, from, to, start, words: line }) => {
      const [a, b] = [from - start, to - start], mark = element("mark", { textContent: line.slice(a, b) });
      const said = element("span", { dir: "auto" }, line.slice(0, a), mark, line.slice(b));
      const button = element("button", { type: "button" }, element("b", { textContent: WORDS.lineNumber(number) }), said);
      button.addEventListener("click", () => this.onOpen(name, { words, at: from }));
      return element("li", {}, button);
    });
    return element("section", {}, element("h3", { textContent: name }), element("ul", { className: "pads lines" }, ...rows));
  }
}
