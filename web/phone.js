// Where there is little room: the tools are behind a button, the bar of formats stays above the keyboard, and the comments are a
// sheet that is opened and closed.
import { $, say } from "./page.js";
import { WORDS } from "./words.js";

const NARROW = matchMedia("(max-width: 56rem)");

export class Phone {
  constructor() {
    const view = globalThis.visualViewport, button = $("comments-button");
    // Where the keyboard covers the page instead of making it lower, as on some phones, the bar is moved.
    const move = () => $("format").style.setProperty("--keyboard", `${Math.max(0, innerHeight - view.height - view.offsetTop)}px`);
    view?.addEventListener("resize", move);
    view?.addEventListener("scroll", move);
    button.addEventListener("click", () => this.open(!this.isOpen));
    $("tools-button").addEventListener("click", () => this.showTools(!$("tools").classList.contains("is-open")));
    // What is pressed closes them again, unless it opens a list of its own.
    $("tools").addEventListener("click", ({ target }) => { if (target.closest("button") && !target.closest(".opens")) this.showTools(false); });
    $("comments-close").addEventListener("click", () => this.open(false));
    $("side").addEventListener("keydown", (event) => {
      if (event.key !== "Escape" || !this.isOpen) return;
      event.preventDefault();
      this.open(false);
    });
  }

  showTools(is) {
    $("tools").classList.toggle("is-open", is);
    $("tools-button").setAttribute("aria-expanded", String(is));
  }

  get isNarrow() { return NARROW.matches; }
  get isOpen() { return $("side").classList.contains("is-open"); }

  open(is) {
    $("side").classList.toggle("is-open", is);
    $("comments-button").setAttribute("aria-expanded", String(is));
    if (is) $("comments-close").focus();
    else if ($("side").contains(document.activeElement)) $("comments-button").focus();
  }

  count(threads) { say($("comments-button"), WORDS.commentsButton(threads)); }
}
