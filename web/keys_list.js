// The list of keys.
import { element } from "./page.js";
import { LABELS, WORDS } from "./words.js";

// Keys, and the label of what they do.
const KEYS = [
  ["?", "keys"], ["Ctrl+Z", "undo"], ["Ctrl+Y", "redo"],
  ["Ctrl+B", "bold"], ["Ctrl+I", "italic"], ["Ctrl+K", "link"], ["Ctrl+Shift+7", "heading"], ["Ctrl+Shift+8", "list"], ["Ctrl+Shift+9", "task"],
  ["Tab", "itemIn"], ["Shift+Tab", "itemOut"], ["Esc, Tab", "leaveText"],
  ["Ctrl+Alt+M", "comment"], ["Ctrl+Alt+N", "nextComment"], ["Ctrl+Alt+S", "suggest"], ["Enter", "commentWords"],
  ["Ctrl+Alt+F", "find"], ["Ctrl+Alt+O", "outline"], ["Ctrl+Alt+V", "nextView"], ["Ctrl+Alt+H", "history"], ["Ctrl+P", "print"],
  ["Ctrl+Alt+W", "whoWrote"], ["←, →", "whoWroteNext"],
];

export function drawKeys(list) {
  list.replaceChildren(...KEYS.flatMap(([keys, label]) => {
    const parts = keys.split(/([+,] ?)/).map((part, k) => (k % 2 ? part : element("kbd", { textContent: WORDS.key(part) })));
    return [element("dt", {}, ...parts), element("dd", { textContent: LABELS[label] })];
  }));
}
