// One line of a text as a block of the document, in the colours of its authors.
import { colourOf } from "./colours.js";

// The pieces of a text between two units: { text, author, kind, marks, looks }, cut where an author, a mark or a stretch that
// looks otherwise (looks.js) begins or ends. `place` is in the runs before `from`, and is moved up to it: whoever makes many lines
// goes through the runs once.
export function piecesBetween(text, runs, marks, from, to, spans = [], place = { run: 0, unit: 0 }) {
  const here = marks.filter((mark) => mark.from < to && mark.to > from && mark.from < mark.to), cuts = [from, to];
  const within = (unit) => Math.min(to, Math.max(from, unit));
  for (const { from: start, to: end, out = [] } of here) cuts.push(within(start), within(end), ...out.map((unit) => within(start + unit)));
  for (const [start, end] of spans) cuts.push(from + start, from + end);
  while (place.run < runs.length && place.unit + runs[place.run][1] <= from) place.unit += runs[place.run++][1];
  const owners = [];
  for (let { run, unit: end } = place; run < runs.length && end < to; run++) {
    const [author, units, kind] = runs[run];
    end += units;
    owners.push({ end, author, kind });
    if (end < to) cuts.push(end);
  }
  cuts.sort((a, b) => a - b);
  const out = [];
  let owner = 0;
  for (let k = 1; k < cuts.length; k++) {
    const [start, stop] = [cuts[k - 1], cuts[k]];
    if (start === stop) continue;
    while (owner + 1 < owners.length && owners[owner].end <= start) owner++;
    const { author = "", kind } = owners[owner] ?? {};
    const over = here.filter((mark) => mark.from <= start && mark.to >= stop);
    const looks = spans.filter(([first, last]) => from + first <= start && from + last >= stop).map(([, , name]) => name);
    out.push({ text: text.slice(start, stop), author, kind, marks: over, looks, start, stop });
  }
  return out;
}

export function makeBlock(pieces, look = "") {
  const block = document.createElement("div");
  block.className = look ? `line ${look}` : "line";
  block.dir = "auto";
  for (const piece of pieces) block.append(...proposed(piece, makeRun(piece)));
  if (!pieces.length) block.append(document.createElement("br"));
  return block;
}

// Words under a comment are told to be marked, and where the comment is; who wrote them is said at the caret (desk.js).
function makeRun({ text, author, kind, marks, looks }) {
  const node = document.createElement(kind === "insert" ? "ins" : kind === "drop" ? "del" : "span");
  node.className = ["run", colourOf(author), ...looks].join(" ");
  node.dataset.author = author;
  node.textContent = text;
  if (!marks.length) return node;
  node.classList.add("marked");
  node.classList.toggle("lit", marks.some((mark) => mark.isLit));
  node.dataset.marks = marks.map((mark) => mark.id).join(" ");
  node.setAttribute("role", "mark");
  node.setAttribute("aria-details", node.dataset.marks);
  return node;
}

// Where a mark suggests other words (suggesting.js), what goes is struck, and what comes is behind it. That is no text of the
// document: style.css shows it.
function proposed({ start, stop, marks }, run) {
  const out = [run];
  for (const { from, out: [first, last] = [], proposed: words } of marks) {
    if (words === undefined) continue;
    if (start >= from + first && stop <= from + last) run.classList.add("goes");
    const node = document.createElement("span");
    Object.assign(node, { className: "comes" });
    node.dataset.words = words;
    if (words && stop === from + last) out.push(node);
    else if (words && last === 0 && start === from) out.unshift(node);
  }
  return out;
}

// The text of nodes that a browser may have changed, for an input method or by itself. Each block is a line; a trailing
// <br> is only there to keep an empty line open.
export function textOf(nodes) {
  const lines = [];
  let isOpen = false;
  const put = (text) => {
    if (isOpen) lines[lines.length - 1] += text; else lines.push(text);
    isOpen = true;
  };
  for (const node of nodes) {
    if (node.nodeName === "DIV") { lines.push(textOf(node.childNodes)); isOpen = false; }
    else if (node.nodeName === "BR") put(node.nextSibling ? "\n" : "");
    else put(node.textContent);
  }
  return lines.join("\n");
}
