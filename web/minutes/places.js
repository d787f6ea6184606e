// Places of minutes in the text of the pad.
import { move } from "../../clients/js/src/delta.js";

const BOX = /^\[[ xX]\]/;

// Where a line of a text begins.
export function startOfLine(text, line) {
  let start = 0;
  for (let k = 0; k < line; k++) start = text.indexOf("\n", start) + 1;
  return start;
}

// The unit of the mark in the first box of a line of the text `drawn`, in the text `now`, to which the change `since` leads. Null
// if there is no box any more.
export function boxAt(drawn, line, since, now) {
  const start = startOfLine(drawn, line), end = drawn.indexOf("\n", start);
  const found = drawn.slice(start, end < 0 ? undefined : end).search(/\[[ xX]\]/);
  if (found < 0) return null;
  const open = move(start + found, since, true);
  return BOX.test(now.slice(open, open + 3)) ? open + 1 : null;
}
