// The card of a comment with the replies to it, or of a suggestion.
import { hint, named } from "./authors.js";
import { suggestionIn } from "../clients/js/src/threads.js";
import { colourOf } from "./colours.js";
import { element, wordsOf } from "./page.js";
import { proposalOf } from "./suggesting.js";
import { WORDS } from "./words.js";

const LONGEST_QUOTE = 80, LONGEST_CONTEXT = 30;

function shortened(words) {
  const line = words.replace(/\s+/g, " ");
  return line.length > LONGEST_QUOTE ? `${line.slice(0, LONGEST_QUOTE)}…` : line;
}

// A small button, which says what it is about to who does not see where it is.
function button(words, about, act) {
  const node = element("button", { type: "button", className: "small", textContent: words });
  node.setAttribute("aria-label", `${words}: ${about}`);
  node.addEventListener("click", (event) => { event.stopPropagation(); act(); });
  return node;
}

// What goes and what comes, each told also to who does not see its colour.
function proposed({ words, reason }, had) {
  const { out: [from, to], proposed: coming } = proposalOf(had, words), node = wordsOf("p", "card-words", "");
  if (from > 0) node.append(shortened(had.slice(Math.max(0, from - LONGEST_CONTEXT), from)));
  if (from < to) node.append(element("del", { textContent: shortened(had.slice(from, to)) }), " ");
  if (coming) node.append(element("ins", { textContent: coming }));
  if (to < had.length) node.append(shortened(had.slice(to, to + LONGEST_CONTEXT)));
  return reason ? [node, wordsOf("p", "card-words", reason)] : [node];
}

// What may be done with a thread, by the author's right: `deeds` has a function for each that may.
function deedsOf(thread, deeds, found) {
  const { isResolved, isUnsent, text, from, to } = thread, out = [], about = found ? found.words : text;
  if (isUnsent || isResolved) return out;
  if (found && deeds.onAccept && from < to) out.push(button(WORDS.accept, about, () => deeds.onAccept(thread)));
  if (deeds.onResolve) out.push(button(found ? WORDS.reject : WORDS.resolve, about, () => deeds.onResolve(thread)));
  if (deeds.onReply && from < to) out.push(button(WORDS.reply, about, () => deeds.onReply(thread)));
  return out;
}

function replyOf({ author, text, isUnsent }) {
  const head = element("p", { className: `card-head ${colourOf(author)}` }, element("b", { textContent: named(author), title: hint(author) }));
  if (isUnsent) head.append(element("span", { className: "quiet", textContent: WORDS.notSent }));
  return element("div", { className: "card-reply" }, head, wordsOf("p", "card-words", text));
}

// `text` is what the thread's words are in. `onLit` gets the thread's id or null, and `onGo` the id when its words are to be seen.
export function cardOf(thread, text, { onLit, onGo, ...deeds }) {
  const { id, author, text: words, isResolved, isUnsent, from, to, replies } = thread, had = text.slice(from, to), found = suggestionIn(words);
  const card = element("article", { id, tabIndex: 0, className: `card ${colourOf(author)}` }), say = found ? WORDS.suggestionOn : WORDS.commentOn;
  card.setAttribute("aria-label", say(named(author), shortened(had), isResolved));
  const head = element("p", { className: "card-head" }, element("b", { textContent: named(author), title: hint(author) }));
  const state = isUnsent ? WORDS.notSent : isResolved ? WORDS.resolved : found ? WORDS.suggests : "";
  if (state) head.append(element("span", { className: "quiet", textContent: state }));
  const quote = from < to ? wordsOf("p", "card-quote", shortened(had)) : element("p", { className: "card-quote", textContent: WORDS.erased });
  card.append(head, ...(found && from < to ? [] : [quote]), ...(found ? proposed(found, had) : [wordsOf("p", "card-words", words)]), ...replies.map(replyOf));
  const acts = deedsOf(thread, deeds, found);
  if (acts.length) card.append(element("p", { className: "card-acts" }, ...acts));
  card.classList.toggle("is-resolved", isResolved);
  listen(card, id, onLit, onGo);
  return card;
}

function listen(card, id, onLit, onGo) {
  for (const [kind, lit] of [["mouseenter", id], ["focus", id], ["mouseleave", null], ["blur", null]]) card.addEventListener(kind, () => onLit(lit));
  card.addEventListener("keydown", (event) => {
    if (event.key !== "Enter" || event.target !== card) return;
    event.preventDefault();
    onGo(id);
  });
  card.addEventListener("dblclick", () => onGo(id));
}
