// Minutes as a document of their own: what stands above them on paper, and the whole as a file of HTML that needs nothing else.
import { fullName, named } from "./authors.js";
import { headingsOf } from "./outline.js";
import { element } from "./page.js";
import { dayOf } from "./times.js";
import { WORDS } from "./words.js";

const STYLE = `
:root { color-scheme: light; }
body { max-width: 44rem; margin: 2rem auto; padding: 0 1rem; color: #111; background: #fff; font: 1.05rem/1.55 Charter, Georgia, serif; overflow-wrap: anywhere; }
header { border-bottom: 1px solid #999; margin-bottom: 1.5rem; } header p { margin: .3rem 0; color: #444; }
h1, h2, h3, h4 { line-height: 1.25; } blockquote { margin-inline: 0; padding-inline-start: 1rem; border-inline-start: 3px solid #999; color: #444; }
table { border-collapse: collapse; } th, td { border: 1px solid #999; padding: .25rem .6rem; text-align: start; }
pre, code { font-family: ui-monospace, monospace; font-size: .92em; } pre { white-space: pre-wrap; background: #f3f3f3; padding: .7rem; }
li.task { list-style: none; margin-inline-start: -1.4em; } aside { margin-top: 2rem; border-top: 1px solid #999; font-size: .92rem; }
@page { margin: 22mm 20mm; @bottom-center { content: counter(page) " / " counter(pages); font: 9pt sans-serif; } }
`;
const POLICY = "default-src 'none'; style-src 'unsafe-inline'";

// What a text is called: by its first heading, or by its pad.
export function titleOf({ name, text }) { return headingsOf(text)[0]?.text || name; }

// Title, pad, revision, date and participants: who has written or commented. A text that begins with its title has it there.
export function headOf({ name, rev, text, runs, comments }) {
  const date = dayOf(Date.now());
  const people = [...new Set([...runs.map(([author]) => author), ...comments.map(({ author }) => author)])].map((author) => fullName(author));
  const title = titleOf({ name, text }), isWritten = /^\s*#\s/.test(text), head = element("header");
  if (!isWritten) head.append(element("p", { className: "paper-title", textContent: title }));
  head.append(element("p", { textContent: WORDS.printed(name, rev, date) }));
  if (people.length) head.append(element("p", { textContent: WORDS.participants(people.join(", ")) }));
  return head;
}

// Comments that are not resolved, below the minutes.
function notesOf({ text, comments }) {
  const open = comments.filter(({ isResolved }) => !isResolved).sort((a, b) => a.from - b.from);
  const list = element("ol", {}, ...open.map(({ author, from, to, text: words }) => {
    const quote = text.slice(from, to).replace(/\s+/g, " ");
    return element("li", { dir: "auto" }, element("b", { textContent: named(author) }), quote ? `, “${quote}”: ${words}` : `: ${words}`);
  }));
  return open.length ? [element("aside", {}, element("h2", { textContent: WORDS.commentsAtEnd }), list)] : [];
}

// `minutes` is the element that shows them. Boxes are as they are ticked, and cannot be changed.
export function toHtml(revision, minutes) {
  const page = document.implementation.createHTMLDocument(titleOf(revision)), body = element("main");
  for (const leaf of minutes.querySelectorAll(".leaf")) body.append(...leaf.cloneNode(true).childNodes);
  for (const box of body.querySelectorAll("input")) {
    box.toggleAttribute("checked", box.checked);
    box.disabled = true;
    box.removeAttribute("data-line");
  }
  page.documentElement.lang = navigator.language;
  page.head.prepend(
    element("meta", { httpEquiv: "Content-Security-Policy", content: POLICY }),
    element("meta", { name: "viewport", content: "width=device-width, initial-scale=1" }),
  );
  page.head.prepend(Object.assign(page.createElement("meta"), { name: "generator", content: "Vindrughe" }));
  page.body.append(headOf(revision), body, ...notesOf(revision));
  // The policy of this page allows no style in a document, not even in one that nobody sees.
  return `<!doctype html>\n${page.documentElement.outerHTML.replace("<head>", () => `<head><meta charset="utf-8"><style>${STYLE}</style>`)}\n`;
}
