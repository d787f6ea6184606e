// The page of keys, which `?` opens wherever it types nothing.
import { $, later } from "./page.js";

const loadList = later(() => import("./keys_list.js"));

export class KeysBox {
  constructor() {
    $("keys-button").addEventListener("click", () => this.open());
    addEventListener("keydown", (event) => {
      const { target } = event, writes = target.isContentEditable || ["INPUT", "TEXTAREA", "SELECT"].includes(target.nodeName);
      if (event.key !== "?" || event.ctrlKey || event.metaKey || writes || document.querySelector("dialog[open]")) return;
      event.preventDefault();
      this.open();
    });
  }

  async open() {
    const list = await loadList().catch(() => null); // without a connection, there is none
    list?.drawKeys($("keys-list"));
    if (list && !$("keys-box").open) $("keys-box").showModal();
  }
}
