// The menu that gives out the shown revision: as minutes in HTML, as a text, as Markdown, or on paper.
import { save, toMarkdown } from "./exports.js";
import { letterOf } from "./input.js";
import { Menu } from "./menu.js";
import { headOf, toHtml } from "./paper.js";
import { $ } from "./page.js";

export class ExportMenu {
  // `revision` is a function that answers what is shown: { name, rev, text, runs, comments }, or null if nothing is. `minutes`
  // resolves to the element with its minutes.
  constructor(revision, minutes) {
    Object.assign(this, { revision, minutes, menu: new Menu("export", "export-menu") });
    $("as-html").addEventListener("click", () => this.exportAs("html"));
    $("as-text").addEventListener("click", () => this.exportAs("txt"));
    $("as-markdown").addEventListener("click", () => this.exportAs("md"));
    $("print").addEventListener("click", () => this.print());
    addEventListener("keydown", (event) => this.keyDown(event));
    addEventListener("beforeprint", () => this.preparePrint());
    addEventListener("afterprint", () => { document.body.classList.remove("prints-minutes"); });
  }

  // Ctrl+P waits for the minutes. A browser's own menu prints them if they are seen, and else the text.
  keyDown(event) {
    if (!(event.ctrlKey || event.metaKey) || event.altKey || event.shiftKey || letterOf(event) !== "p" || !this.revision()) return;
    event.preventDefault();
    this.print();
  }

  async exportAs(ending) {
    const revision = this.revision(), name = `${revision.name}-${revision.rev}.${ending}`;
    this.menu.show(false);
    if (ending === "html") save(name, "text/html", toHtml(revision, await this.minutes()));
    else if (ending === "md") save(name, "text/markdown", toMarkdown(revision));
    else save(name, "text/plain", revision.text);
  }

  async print() {
    this.menu.show(false);
    await this.minutes();
    document.body.classList.add("prints-minutes");
    print();
  }

  preparePrint() {
    const revision = this.revision();
    if (!revision) return;
    $("print-head").replaceChildren(headOf(revision));
    if (!$("minutes").hidden) document.body.classList.add("prints-minutes");
  }
}
