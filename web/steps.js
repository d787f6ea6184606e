// Steps of the author's own: undo and redo, a revision that is restored, a suggestion that is accepted.
import { named } from "./authors.js";
import { extent } from "../clients/js/src/delta.js";
import { stepped } from "../clients/js/src/suggestions.js";
import { $ } from "./page.js";
import { WORDS } from "./words.js";

export class Steps {
  constructor(desk) {
    Object.assign(this, { desk, told: "" });
    $("undo").addEventListener("click", () => this.undo(false));
    $("redo").addEventListener("click", () => this.undo(true));
  }

  forget() { this.told = ""; }

  undo(isRedo) {
    const { editor, session } = this.desk, { pad } = session;
    if (!editor.isEditable || editor.suggests) return;
    editor.endComposition();
    if (!this.mayTakeOver(isRedo)) return;
    const delta = isRedo ? pad.redo() : pad.undo();
    if (delta) {
      editor.made(delta);
      stepped(session, delta, isRedo, extent(delta));
    }
    this.desk.showState();
  }

  // Words that others wrote come back as the author's own. The page says so first, and does it when it is asked again.
  mayTakeOver(isRedo) {
    const { notice, session: { pad } } = this.desk, owners = pad.ownersOfStep(isRedo), { told } = this;
    this.told = owners.length ? (isRedo ? WORDS.redoTakes : WORDS.undoTakes)(owners.map(named).join(", ")) : "";
    if (this.told && this.told !== told) { notice.show(this.told); return false; }
    if (told) notice.takeBack(told);
    this.told = "";
    return true;
  }

  // Makes a change of what is shown, as one step of undo with a tag.
  make(delta, tag = null) {
    const { editor, session: { pad } } = this.desk;
    pad.steps.rest();
    pad.type(delta, true, tag);
    pad.steps.rest();
    editor.made(delta);
    this.desk.showState();
  }

  // The text of an earlier revision comes back, as a change of the author's own.
  restore(delta, rev) {
    this.make(delta);
    this.desk.notice.show(WORDS.restored(rev));
  }

  // Whether there is something to undo and to redo. A button that has done its last step leaves the keyboard to the text.
  show() {
    const { pad } = this.desk.session, { isEditable, suggests } = this.desk.editor, { activeElement } = document;
    $("undo").disabled = !isEditable || suggests || !pad?.canUndo;
    $("redo").disabled = !isEditable || suggests || !pad?.canRedo;
    if (activeElement?.disabled && ["undo", "redo"].includes(activeElement.id)) $("text").focus();
  }
}
