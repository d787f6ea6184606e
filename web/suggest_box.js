// The box beside the text in which other words are suggested: it opens with the first key in the mode for it, and what is written
// in it is shown in the text at once.
import { suggestion } from "../clients/js/src/threads.js";
import { $, say } from "./page.js";
import { proposalOf, stretchFor } from "./suggesting.js";
import { WORDS } from "./words.js";

export class SuggestBox {
  // `textOf` answers what is shown. `asked` gets the stretch that is asked about, which moves with the text, or null; `onSend` gets
  // it with the text of the comment; `onFault` what is wrong; `onClose` is called when the box is closed.
  constructor({ textOf, asked, onSend, onFault, onClose, place }) {
    Object.assign(this, { textOf, asked, onSend, onFault, onClose, place, stretch: null });
    $("suggest-box").addEventListener("submit", (event) => { event.preventDefault(); this.send(); });
    $("suggest-cancel").addEventListener("click", () => this.close());
    $("suggest-words").addEventListener("input", () => this.changed());
    $("suggest-box").addEventListener("keydown", (event) => this.keyDown(event));
  }

  get isOpen() { return this.stretch !== null; }

  // Enter sends, and Shift+Enter is a new line. Escape closes the box, and nothing else.
  keyDown(event) {
    if (event.isComposing) return;
    if (event.key === "Escape") { event.preventDefault(); this.close(); }
    if (event.key === "Enter" && !event.shiftKey && event.target.id !== "suggest-cancel") { event.preventDefault(); this.send(); }
  }

  // What was typed, pasted or erased between two places.
  open({ from, to, text }) {
    if (this.isOpen) this.send();
    const made = !this.isOpen && stretchFor(this.textOf(), from, to, text);
    if (!made) { if (made === null) this.onFault(WORDS.nothingToSuggest); return; }
    this.stretch = { id: "asked", from: made.from, to: made.to, isLit: true };
    this.asked(this.stretch);
    $("suggest-box").hidden = false;
    $("suggest-words").value = made.words;
    $("suggest-reason").value = "";
    this.changed();
    this.place();
    $("suggest-words").focus();
    $("suggest-words").setSelectionRange(made.caret, made.caret);
  }

  // What is being written, where it says something else than the text.
  get unsent() {
    const words = $("suggest-words").value, reason = $("suggest-reason").value.trim();
    return this.isOpen && words !== this.had ? [words, reason].filter(Boolean).join("\n") : "";
  }

  get had() { return this.textOf().slice(this.stretch.from, this.stretch.to); }

  // The text shows what is suggested.
  changed() {
    if (!this.isOpen) return;
    const words = $("suggest-words");
    say($("suggest-for"), WORDS.suggestFor(this.had.replace(/\s+/g, " ")));
    words.rows = Math.min(8, words.value.split("\n").length + Math.floor(words.value.length / 60));
    this.asked(Object.assign(this.stretch, proposalOf(this.had, words.value)));
  }

  send() {
    const { had, stretch } = this, words = $("suggest-words").value, reason = $("suggest-reason").value.trim();
    const text = stretch.from < stretch.to ? suggestion(had, words, reason) : null;
    if (words !== had && text === null) { this.onFault(stretch.from < stretch.to ? WORDS.suggestionTooLong : WORDS.erased); return; }
    this.close();
    if (words !== had) this.onSend(stretch, text);
  }

  close() {
    this.stretch = null;
    $("suggest-box").hidden = true;
    this.asked(null);
    this.onClose();
  }
}
