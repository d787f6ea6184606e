// A pad in a <textarea>.
import { apply, isEmpty, move, typed } from "../src/delta.js";
import { Binding } from "./editor.js";

export function bindTextarea(area, session) {
  let shown = "";
  const binding = new Binding(session, {
    draw(delta) {
      const { scrollTop, selectionDirection, selectionEnd, selectionStart } = area;
      area.value = shown = apply(shown, delta);
      area.setSelectionRange(move(selectionStart, delta), move(selectionEnd, delta), selectionDirection);
      area.scrollTop = scrollTop;
    },
    setEditable(isEditable) { area.readOnly = !isEditable; },
  });
  area.value = shown = binding.shown;

  // The one change that leads to what the area has now.
  const read = () => {
    const change = typed(shown, area.value, area.selectionEnd);
    shown = area.value;
    if (!isEmpty(change)) binding.typed(change);
  };
  // The browser's own undo knows only what was typed here, at places that others have moved.
  const undo = (event) => {
    const key = event.key?.toLowerCase(), isRedo = event.inputType === "historyRedo" || key === "y" || (key === "z" && event.shiftKey);
    const isStep = event.inputType?.startsWith("history") || ((event.ctrlKey || event.metaKey) && !event.altKey && (key === "z" || key === "y"));
    if (!isStep) return;
    event.preventDefault();
    if (isRedo) binding.pad.redo(); else binding.pad.undo();
  };
  const caret = () => { if (area.ownerDocument.activeElement === area) binding.caretAt(area.selectionEnd); };
  const listeners = {
    input: read, beforeinput: undo, keydown: undo, compositionstart: () => binding.hold(),
    compositionend: () => { read(); binding.release(); },
  };
  for (const [kind, act] of Object.entries(listeners)) area.addEventListener(kind, act);
  area.ownerDocument.addEventListener("selectionchange", caret);
  return () => {
    binding.end();
    for (const [kind, act] of Object.entries(listeners)) area.removeEventListener(kind, act);
    area.ownerDocument.removeEventListener("selectionchange", caret);
  };
}
