// A pad in an editor of CodeMirror 5, with the carets of others.
import { apply, splice } from "../src/delta.js";
import { Binding } from "./editor.js";

const ORIGIN = "vindrughe"; // of changes that are the pad's

// The place of a position of the editor in its text.
function placeOf(text, { line, ch }) {
  let at = 0;
  for (let left = line; left > 0; left--) at = text.indexOf("\n", at) + 1;
  return at + ch;
}

export function bindCodeMirror(editor, session) {
  let shown = "", carets = [];
  const binding = new Binding(session, {
    draw(delta) {
      shown = apply(shown, delta);
      editor.operation(() => {
        let at = 0;
        const replace = (text, erased) => editor.replaceRange(text, editor.posFromIndex(at), editor.posFromIndex(at + erased), ORIGIN);
        for (const step of delta) {
          if (step.drop) replace("", step.drop);
          if (step.insert) replace(step.insert, 0);
          at += step.keep ?? step.insert?.length ?? 0;
        }
      });
    },
    setEditable(isEditable) { editor.setOption("readOnly", !isEditable); },
  });
  editor.setValue(shown = binding.shown);

  // Each change has its places in what was there before it, and after those before it in the list.
  const read = (_, changes) => {
    for (const { from, to, text, origin } of changes) {
      if (origin === ORIGIN) continue;
      const at = placeOf(shown, from), change = splice(at, placeOf(shown, to) - at, text.join("\n"));
      shown = apply(shown, change);
      binding.typed(change);
    }
  };
  // What was typed is read first.
  const caret = () => queueMicrotask(() => binding.caretAt(editor.indexFromPos(editor.getCursor())));
  const drawCarets = () => {
    for (const one of carets.splice(0)) one.clear();
    if (binding.waiting || session.pad !== binding.pad) return;
    for (const { at, author } of session.presence.others.filter((person) => person.at !== null)) {
      const widget = Object.assign(document.createElement("span"), { className: "caret-of-another", title: author });
      carets.push(editor.setBookmark(editor.posFromIndex(binding.placeOf(at)), { widget, insertLeft: true }));
    }
  };
  const ends = [session.on("presence", drawCarets), session.on("receive", drawCarets)];
  const undo = () => { binding.pad.undo(); }, redo = () => { binding.pad.redo(); };
  const keys = { "Ctrl-Z": undo, "Cmd-Z": undo, "Ctrl-Y": redo, "Cmd-Y": redo, "Shift-Ctrl-Z": redo, "Shift-Cmd-Z": redo };
  const field = editor.getInputField(), hold = () => binding.hold(), release = () => queueMicrotask(() => binding.release());
  editor.addKeyMap(keys);
  editor.on("changes", read);
  editor.on("cursorActivity", caret);
  field.addEventListener("compositionstart", hold);
  field.addEventListener("compositionend", release);
  return () => {
    for (const end of [...ends, () => binding.end(), () => editor.removeKeyMap(keys)]) end();
    for (const one of carets.splice(0)) one.clear();
    editor.off("changes", read);
    editor.off("cursorActivity", caret);
    field.removeEventListener("compositionstart", hold);
    field.removeEventListener("compositionend", release);
  };
}
