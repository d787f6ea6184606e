// A revision as a file: its text alone, or Markdown with authors and comments.
import { displayOf, fullName } from "./authors.js";
import { WORDS } from "./words.js";

const safe = (text) => text.replaceAll("&", "&amp;").replaceAll("<", "&lt;");

// A display name is text, whatever signs of Markdown are in it.
const plain = (name) => safe(name).replace(/[\\`*_[\]~^|]/g, "\\$&");

const fully = (author) => (displayOf(author) ? plain(fullName(author, author)) : author);

// A name for each author: the display name, or the other one without the server's number, unless two authors have the same.
function namesOf(authors) {
  const bare = (author) => displayOf(author) ?? author.split("@")[0], all = [...new Set(authors)];
  const isShared = (author) => all.some((other) => other !== author && bare(other) === bare(author));
  return new Map(all.map((author) => [author, !isShared(author) ? plain(bare(author)) : fully(author)]));
}

const oneLine = (text) => safe(text).replace(/\s+/g, " ").trim();

// Markdown: each stretch begins with its author's name where the author changes, and each comment is a footnote behind its
// words. The text's own Markdown stays; only `<` and `&` are escaped.
export function toMarkdown({ name, rev, text, runs, comments }) {
  const notes = [...comments].sort((a, b) => a.to - b.to || a.from - b.from), out = [];
  const names = namesOf([...runs.map(([author]) => author), ...comments.map(({ author }) => author)]);
  let at = 0, next = 0, last = "";
  const put = (to) => {
    for (; next < notes.length && notes[next].to <= to; next++) {
      out.push(safe(text.slice(at, notes[next].to)), `[^${next + 1}]`);
      at = notes[next].to;
    }
    out.push(safe(text.slice(at, to)));
    at = to;
  };
  for (const [author, units] of runs) {
    const end = at + units, blank = text.slice(at, end).match(/^\s*/)[0].length;
    if (author !== last && blank < units) {
      put(at + blank);
      out.push(`<sup>${names.get(author)}</sup>`);
      last = author;
    }
    put(end);
  }
  const footnotes = notes.map(({ author, from, to, text: words, isResolved }, k) => {
    const quote = from < to ? `“${oneLine(text.slice(from, to))}”: ` : "";
    const state = isResolved ? ` (${WORDS.resolved.toLowerCase()})` : "";
    return `[^${k + 1}]: **${names.get(author)}**${state}: ${quote}${oneLine(words)}`;
  });
  const authors = [...new Set(runs.map(([author]) => author))].map(fully).join(", ");
  const head = `# ${WORDS.markdownTitle(name, rev)}\n\n${authors && `*${authors}*\n\n`}`;
  return `${head}${out.join("")}\n${footnotes.length ? `\n${footnotes.join("\n")}\n` : ""}`;
}

// Offers a file to the browser.
export function save(name, kind, text) {
  const url = URL.createObjectURL(new Blob([text], { type: `${kind};charset=utf-8` })), link = document.createElement("a");
  link.href = url;
  link.download = name;
  link.click();
  setTimeout(() => URL.revokeObjectURL(url), 10000);
}
