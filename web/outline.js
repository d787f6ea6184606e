// The headings of the text, to jump by.
import { element } from "./page.js";

const HEADING = /^ {0,3}(#{1,6})[ \t]+(.*?)[ \t#]*$/, FENCE = /^ {0,3}(`{3,}|~{3,})/;

// The headings of a text: { level, text, line }. In a block of code there are none.
export function headingsOf(text) {
  const out = [];
  let fence = null;
  text.split("\n").forEach((words, line) => {
    const [, mark] = words.match(FENCE) ?? [];
    if (mark && !fence) fence = mark;
    else if (mark && mark[0] === fence[0] && mark.length >= fence.length) fence = null;
    const found = !fence && words.match(HEADING);
    if (found) out.push({ level: found[1].length, text: plain(found[2]), line });
  });
  return out;
}

// Without the marks of emphasis, code and links.
const plain = (words) => words.replace(/\[([^\]]*)\]\([^)]*\)/g, "$1").replace(/[*_`~]{1,3}(\S|\S.*?\S)[*_`~]{1,3}/g, "$1");

// The list of headings, of which each is a button that calls `onGo` with its line.
export function drawOutline(root, headings, onGo) {
  const least = Math.min(...headings.map(({ level }) => level));
  root.replaceChildren(...headings.map(({ level, text, line }) => {
    const button = element("button", { type: "button", className: `plain level-${level - least}`, textContent: text, dir: "auto" });
    button.addEventListener("click", () => onGo(line));
    return element("li", {}, button);
  }));
}
