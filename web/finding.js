// Where words are in a text, and what replaces them.
const MOST = 10000;

// The stretches { from, to } of a text that have the words, so many at most. `isExact`: large and small letters differ.
export function findAll(text, words, isExact = false) {
  const out = [];
  if (!words) return out;
  const form = new RegExp(words.replace(/[\\^$.*+?()[\]{}|/]/g, "\\$&"), isExact ? "gu" : "giu");
  for (const { index, 0: { length } } of text.matchAll(form)) {
    out.push({ from: index, to: index + length });
    if (out.length === MOST) break;
  }
  return out;
}

// The index of the first stretch that does not end before a place, or of the first of all.
export function indexFrom(found, place) {
  const index = found.findIndex(({ to }) => to > place);
  return index < 0 ? 0 : index;
}
