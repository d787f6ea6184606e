// One notice above the text, for what the author has to know or do.
import { $, say } from "./page.js";
import { LABELS, WORDS } from "./words.js";

export class Notice {
  // `kept` are words of the author's that were not taken. They are shown with any text until the author has copied or
  // dismissed them. `onGoOn` opens the dialog for a new pad, `onClose` closes the pad though words would be lost, and `onLogOut`
  // logs out though changes would be. `onForget` is called when kept words are dismissed.
  constructor(kept, { onGoOn, onClose, onLogOut, onForget }) {
    Object.assign(this, { kept, onForget, text: "", canClose: false });
    $("notice-dismiss").addEventListener("click", () => this.forget());
    $("notice-go-on").addEventListener("click", () => onGoOn());
    $("notice-close").addEventListener("click", () => onClose());
    $("notice-log-out").addEventListener("click", () => onLogOut());
    $("notice-see").addEventListener("click", () => this.onSee?.());
    $("notice-copy").addEventListener("click", async () => {
      const words = $("notice-words");
      getSelection().selectAllChildren(words);
      try { await navigator.clipboard.writeText(words.textContent); } catch { document.execCommand("copy"); }
      say($("notice-copy"), WORDS.copied);
      kept.copied();
    });
  }

  // `unsent` words are still in the pad, and are shown with this text only.
  show(text, { unsent = "", canGoOn = false, canClose = false, canLogOut = false, onSee = null } = {}) {
    const shown = [this.kept.text, unsent].filter(Boolean).join("\n");
    $("notice").hidden = false;
    say($("notice-words"), shown);
    $("notice-words").hidden = $("notice-copy").hidden = !shown;
    say($("notice-copy"), LABELS.copy);
    $("notice-go-on").hidden = !canGoOn;
    $("notice-close").hidden = !canClose;
    $("notice-log-out").hidden = !canLogOut;
    $("notice-see").hidden = !onSee;
    say($("notice-text"), shown && !canClose ? `${text} ${WORDS.kept}`.trim() : text);
    Object.assign(this, { text, canClose, onSee });
  }

  // Takes back these texts, once they do not hold any more. Words that are kept stay.
  takeBack(...texts) {
    if (!texts.includes(this.text)) return;
    if (this.kept.text) this.show(""); else this.hide();
  }

  hide() {
    $("notice").hidden = true;
    $("notice-words").textContent = "";
    Object.assign(this, { text: "", canClose: false });
  }

  // The same, and the words that were kept are not needed any more.
  forget() {
    this.kept.clear();
    this.onForget();
    this.hide();
  }
}
