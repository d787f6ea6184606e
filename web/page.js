// Small helpers for the document, which everything that is seen uses.
import { LABELS, spoken } from "./words.js";

// Where authors' words stand. The page itself is in the language of words.js; that of a pad is known to nobody, and the
// browser's is the best guess for screen readers, hyphenation and the spelling checker.
const WRITTEN = ["text", "past", "comment-words", "comment-text", "notice-words"];

export const $ = (id) => document.getElementById(id);

// An element with properties and children.
export function element(kind, properties = {}, ...children) {
  const node = Object.assign(document.createElement(kind), properties);
  node.append(...children);
  return node;
}

// An element with words of authors, in their direction and, for all that is known, in the language of the reader.
export function wordsOf(kind, className, textContent) {
  return element(kind, { className, textContent, dir: "auto", lang: navigator.language });
}

// Writes a text only where it differs, so that a screen reader says it once.
export function say(node, text) { if (node.textContent !== text) node.textContent = text; }

// Fills in the labels of index.html.
export function label() {
  document.documentElement.lang = spoken();
  for (const node of document.querySelectorAll("[data-text]")) node.textContent = LABELS[node.dataset.text];
  for (const node of document.querySelectorAll("[data-label]")) node.setAttribute("aria-label", LABELS[node.dataset.label]);
  for (const node of document.querySelectorAll("[data-hint]")) node.title = LABELS[node.dataset.hint];
  for (const node of document.querySelectorAll("[data-place]")) node.placeholder = LABELS[node.dataset.place];
  for (const id of WRITTEN) $(id).lang = navigator.language;
  document.querySelectorAll("input[pattern]").forEach(explain);
}

// Gives a field a value that keeps its rule.
export function fill(field, value) {
  field.value = value;
  field.setCustomValidity("");
}

// A field that is filled in against its rule says the rule, where a browser would speak of a format.
function explain(field) {
  field.addEventListener("invalid", () => { if (field.validity.patternMismatch) field.setCustomValidity(field.title); });
  field.addEventListener("input", () => field.setCustomValidity(""));
}

// A part of the page that is loaded once it is wanted. If it does not come, it is asked for again the next time.
export function later(load) {
  let part = null;
  return () => (part ??= load().catch((error) => { part = null; throw error; }));
}

// Runs an act soon, and once for all calls until then.
export function gather(act, later = requestAnimationFrame) {
  let isWaiting = false;
  return () => {
    if (isWaiting) return;
    isWaiting = true;
    later(() => { isWaiting = false; act(); });
  };
}
