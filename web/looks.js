// How Markdown looks in the editor, line by line: { name, spans }, the name of a line and stretches [from, to, name] of it. Each
// character of the text stays where it is, so these are only marks: a line in a block of code may look like a heading.
const HEADING = /^(#{1,6})[ \t]+\S/, QUOTE = /^[ \t]*>+/, ITEM = /^[ \t]*(?:[-*+]|\d{1,9}[.)])[ \t]+(\[([ xX])\][ \t])?/;
// Code, strong, emphasis, struck words, a link.
const INLINE = new RegExp([
  "(`+)(?!`)(?:.*?[^`])\\1(?!`)",
  "(\\*\\*|__)(?=\\S)(?:.*?\\S)\\2(?![*_])",
  "(\\*)(?=[^\\s*])(?:[^*]*[^\\s*])\\3(?!\\*)",
  "(?<![\\p{L}\\p{N}_])(_)(?=[^\\s_])(?:[^_]*[^\\s_])\\4(?![\\p{L}\\p{N}_])",
  "(~~)(?=\\S)(?:.*?\\S)\\5",
  "(\\[)[^\\]\\[]+\\](\\([^()\\s]*\\))",
].join("|"), "gu");
const INTERESTING = /[#>*_`~\[+]|^[ \t]*[-\d]/, LONGEST = 2000, PLAIN = { name: "", spans: [] };

export function looksOf(line) {
  if (!INTERESTING.test(line) || line.length > LONGEST) return PLAIN;
  const spans = [], heading = line.match(HEADING), item = !heading && line.match(ITEM), quote = !heading && !item && line.match(QUOTE);
  if (heading) spans.push([0, heading[1].length, "md-mark"]);
  if (item) spans.push([0, item[0].length, "md-mark"]);
  if (quote) spans.push([0, quote[0].length, "md-mark"]);
  for (const found of line.matchAll(INLINE)) spans.push(...spansOf(found));
  return { name: nameOf(heading, item, quote), spans };
}

function nameOf(heading, item, quote) {
  if (heading) return `md-heading md-h${heading[1].length}`;
  if (item) return item[2] && item[2] !== " " ? "md-item md-done" : "md-item";
  return quote ? "md-quote" : "";
}

function spansOf({ index, 0: words, 1: code, 2: strong, 3: star, 4: line, 5: struck, 6: link, 7: address }) {
  const end = index + words.length, edge = code ?? strong ?? star ?? line ?? struck;
  if (link) return [[index, index + 1, "md-mark"], [index, end, "md-link"], [end - address.length - 1, end, "md-mark"]];
  const name = code ? "md-code" : strong ? "md-strong" : struck ? "md-struck" : "md-em";
  return [[index, index + edge.length, "md-mark"], [index, end, name], [end - edge.length, end, "md-mark"]];
}
