// How the text of a pad becomes minutes: Markdown as CommonMark has it, with tables, tasks, struck words and links that are
// written out. There is no HTML in it: markup of an author's is text. A line break is one, as it is in the pad. A line of dashes
// under words is a rule, and makes no heading of them.
const TASK = /^\[([ xX])\][ \t]/, OUT = "noopener noreferrer nofollow";

const plainOf = (inline) => (inline.children ?? []).map(({ type, content }) => (type.endsWith("break") ? " " : content)).join("");

// A task's box, and what it is for. Its line is counted from the block that it is in.
function boxOf(md, inline, isDone) {
  const box = new md.Token("task", "input", 0);
  box.meta = { line: inline.map[0], isDone, label: plainOf(inline) };
  return box;
}

// An item of a list that begins with a box is a task.
function findTasks(state, md) {
  state.tokens.forEach((inline, k) => {
    const found = inline.type === "inline" && state.tokens[k - 2]?.type === "list_item_open" && inline.content.match(TASK);
    const [first] = inline.children ?? [];
    if (!found || first?.type !== "text" || !TASK.test(`${first.content} `)) return;
    first.content = first.content.slice(found[0].length);
    inline.children.unshift(boxOf(md, inline, found[1] !== " "));
    state.tokens[k - 2].attrJoin("class", "task");
  });
}

// A link opens elsewhere, unless it names another pad of this server: #NAME. One that logs somebody in is in a tab of its own.
function linkOpen(tokens, index, options, env, self) {
  const token = tokens[index];
  if (!/^#[^=]*$/.test(token.attrGet("href"))) {
    token.attrSet("rel", OUT);
    token.attrSet("target", "_blank");
  }
  return self.renderToken(tokens, index, options);
}

// Answers a function that makes blocks of a text: { html, from, to }, from a line of the text to before another one.
export function minutesOf(markdownit) {
  const md = markdownit({ html: false, linkify: true, breaks: true }), escape = md.utils.escapeHtml;
  // A class of tokens is not exported; each state has it.
  md.core.ruler.push("tasks", (state) => { md.Token = state.Token; findTasks(state, md); });
  md.disable("lheading");
  md.linkify.set({ fuzzyLink: false, fuzzyEmail: false, fuzzyIP: false });
  md.renderer.rules.link_open = linkOpen;
  // The page may load no pictures from elsewhere.
  md.renderer.rules.image = (tokens, index) => {
    const { content, attrs } = tokens[index], [, source] = attrs.find(([name]) => name === "src");
    return `<a href="${escape(source)}" rel="${OUT}" target="_blank">${escape(content || source)}</a>`;
  };
  md.renderer.rules.task = (tokens, index, options, env) => {
    const { line, isDone, label } = tokens[index].meta;
    return `<input type="checkbox" data-line="${line - env.from}" aria-label="${escape(label)}"${isDone ? " checked" : ""}> `;
  };
  return (text) => {
    const env = {}, tokens = md.parse(text, env), blocks = [];
    for (let at = 0; at < tokens.length; ) {
      let end = at + 1;
      for (let depth = tokens[at].nesting; depth > 0; end++) depth += tokens[end].nesting;
      const [from, to] = tokens[at].map ?? [0, 0], html = md.renderer.render(tokens.slice(at, end), md.options, Object.assign(env, { from }));
      blocks.push({ html, from, to });
      at = end;
    }
    return blocks;
  };
}

// What differs between the blocks of two texts: so many are kept at the start and at the end, and these are between.
export function difference(before, after) {
  const most = Math.min(before.length, after.length);
  let start = 0, end = 0;
  while (start < most && before[start].html === after[start].html) start++;
  while (end < most - start && before[before.length - 1 - end].html === after[after.length - 1 - end].html) end++;
  return { start, end, between: after.slice(start, after.length - end).map(({ html }) => html) };
}
