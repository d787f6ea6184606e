// Dragging. Selected words that are dropped elsewhere in the text move there, or come there as well if Ctrl is held; words
// from outside are inserted.
import { plainText, placeAt } from "./input.js";
import { edgeBefore } from "../clients/js/src/units.js";

export class Drag {
  constructor(editor) {
    this.editor = editor;
    this.dragged = null; // the stretch { from, to } that is on its way
    const on = (kind, act) => editor.root.addEventListener(kind, act);
    on("dragstart", (event) => this.start(event));
    on("dragend", () => { this.dragged = null; });
    on("drop", (event) => this.drop(event));
  }

  start(event) {
    const selected = this.editor.selection(), { dataTransfer } = event;
    if (!selected || selected.from === selected.to || !dataTransfer) { event.preventDefault(); return; }
    this.dragged = { from: selected.from, to: selected.to };
    dataTransfer.clearData();
    dataTransfer.setData("text/plain", this.editor.text.slice(selected.from, selected.to));
    dataTransfer.effectAllowed = this.editor.isEditable ? "copyMove" : "copy";
  }

  drop(event) {
    event.preventDefault();
    this.editor.endComposition();
    const { editor, dragged } = this, place = placeAt(event.clientX, event.clientY), text = plainText(event.dataTransfer);
    const unit = place && editor.lines.unitOf(place.node, place.offset);
    this.dragged = null;
    if (!editor.isEditable || unit === null) return;
    editor.root.focus();
    const at = edgeBefore(editor.text, unit);
    if (dragged && !event.ctrlKey) editor.moveWords(dragged, at);
    else if (text) editor.replace(at, at, text);
    else editor.onNoText();
  }
}
