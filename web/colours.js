// Each author's colour, one of the twelve in style.css. It depends on who the authors are and on nothing that happened before,
// so it is the same in all windows: authors with a right have colours in the order in which the server lists the rights, and
// the others who wrote or commented come after them, in the order of their names.
import { authorNow } from "./authors.js";
import { authorsIn } from "../clients/js/src/rights.js";

const COLOURS = 12;
let given = new Map();

// Gives these authors their colours, in this order. The answer is whether any author's colour is another one now.
export function giveColours(authors) {
  const next = new Map([...new Set(authors)].map((author, k) => [author, k % COLOURS]));
  const isOther = next.size !== given.size || [...next].some(([author, colour]) => given.get(author) !== colour);
  given = next;
  return isOther;
}

// Who is not among them, such as an author of an earlier revision, has a colour by the name alone.
export function colourOf(author) {
  const now = authorNow(author);
  return `colour-${given.get(now) ?? ofName(now)}`;
}

function ofName(author) {
  let sum = 0;
  for (const character of author) sum = (sum * 31 + character.codePointAt(0)) % 65521;
  return sum % COLOURS;
}

// All who have to have a colour of their own on a pad.
export function authorsOf({ me, pad, comments, rights }) {
  const origin = me.slice(me.indexOf("@"));
  const others = new Set([...pad.runs.map(([author]) => author), ...comments.list.map(({ author }) => author)].map(authorNow));
  return [...authorsIn(rights).map((name) => name + origin), ...[...others].sort()];
}
