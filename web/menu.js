// A list that a button opens and closes. It is a button and a list of its own: in Chromium, one closed `details` element anywhere
// on the page makes Ctrl+A in a long text take seconds, since each line of the selection then looks for hidden content above it.
import { $ } from "./page.js";

export class Menu {
  // The button and the list have these ids. `onOpen` draws the list before it is shown.
  constructor(button, list, onOpen = () => {}) {
    Object.assign(this, { button: $(button), list: $(list), onOpen });
    this.button.addEventListener("click", () => this.show(!this.isOpen));
    addEventListener("pointerdown", ({ target }) => { if (!this.has(target)) this.show(false); });
    addEventListener("keydown", (event) => { if (event.key === "Escape") this.escape(event); });
  }

  // The first of the list has the keyboard then.
  open() {
    this.show(true);
    this.list.querySelector("button, a")?.focus();
  }

  get isOpen() { return !this.list.hidden; }
  has(node) { return this.button.contains(node) || this.list.contains(node); }

  show(is) {
    if (is) this.onOpen();
    this.list.hidden = !is;
    this.button.setAttribute("aria-expanded", String(is));
  }

  // Closes the list, and nothing else that Escape would close.
  escape(event) {
    if (!this.isOpen) return;
    event.preventDefault();
    this.show(false);
    this.button.focus();
  }
}
