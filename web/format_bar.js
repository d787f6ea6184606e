// The buttons and keys that write Markdown for those who do not know it.
import { letterOf } from "./input.js";
import { $ } from "./page.js";
import { heading, link, list, wrap } from "./writing.js";

const DEEDS = {
  bold: (text, from, to) => wrap(text, from, to, "**"),
  italic: (text, from, to) => wrap(text, from, to, "*"),
  heading,
  list: (text, from, to) => list(text, from, to),
  task: (text, from, to) => list(text, from, to, true),
  link,
};
// With Ctrl, and with Ctrl and Shift.
const LETTERS = { b: "bold", i: "italic", k: "link" }, DIGITS = { Digit7: "heading", Digit8: "list", Digit9: "task" };

export class FormatBar {
  constructor(editor) {
    this.editor = editor;
    for (const name of Object.keys(DEEDS)) {
      $(name).addEventListener("click", () => this.make(name));
      $(name).addEventListener("mousedown", (event) => event.preventDefault()); // the mouse leaves the keyboard to the text
    }
    editor.root.addEventListener("keydown", (event) => this.keyDown(event));
  }

  set isEnabled(is) { for (const name of Object.keys(DEEDS)) $(name).disabled = !is; }

  make(name) {
    if (!this.editor.isEditable) return;
    this.editor.edit(DEEDS[name]);
    this.editor.root.focus();
  }

  keyDown(event) {
    if (!(event.ctrlKey || event.metaKey) || event.altKey || event.isComposing) return;
    const name = event.shiftKey ? DIGITS[event.code] : LETTERS[letterOf(event)];
    if (!name) return;
    event.preventDefault();
    this.make(name);
  }
}
