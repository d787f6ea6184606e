// What helps to write Markdown, as changes [at, dropped, inserted] of a text and the selection after them: { changes, from, to }, or
// null where there is nothing to do. Places are of the text before; `from` and `to` of the text after.
const ITEM = /^([ \t]*)([-*+]|(\d{1,9})([.)]))([ \t]+)(\[[ xX]\][ \t]+)?/, INDENT = "    ", HEADING = /^(#{1,6})[ \t]+/;
const TWICE = /^([ \t]*(\d{1,9}[.)]|[-*+]) +)\2$/;
const LIST = /^([ \t]*)(?:[-*+]|\d{1,9}[.)])[ \t]+(?:\[[ xX]\][ \t]+)?/, TASK = /^[ \t]*(?:[-*+]|\d{1,9}[.)])[ \t]+\[[ xX]\][ \t]/;

// The lines that a stretch touches: { at, line } each.
export function linesOf(text, from, to) {
  const out = [];
  for (let at = text.lastIndexOf("\n", from - 1) + 1; ; ) {
    const found = text.indexOf("\n", at), end = found < 0 ? text.length : found;
    out.push({ at, line: text.slice(at, end) });
    if (found < 0 || end >= to) return out;
    at = end + 1;
  }
}

// Where a place of the text is after changes. What is inserted there is before it.
function moved(place, changes) {
  let by = 0;
  for (const [at, dropped, inserted] of changes) if (at <= place) by += inserted.length - Math.min(dropped, place - at);
  return place + by;
}
const withSelection = (changes, from, to) => (changes.length ? { changes, from: moved(from, changes), to: moved(to, changes) } : null);

// Enter in a list goes on with it, and ends it in an empty item.
export function enter(text, from, to) {
  const [{ at, line }] = linesOf(text, from, from), found = line.match(ITEM);
  if (!found || from < at + found[0].length) return null;
  const [marker, space, , number, stop, gap, box] = found;
  if (marker.length === line.length && from === to) return { changes: [[at, marker.length, ""]], from: at, to: at };
  const next = `\n${space}${number ? `${Number(number) + 1}${stop}` : found[2]}${gap}${box ? "[ ] " : ""}`, end = from + next.length;
  return { changes: [[from, to - from, next]], from: end, to: end };
}

// Who types the marker that Enter has put there already gets it once.
export function once(text, from, to) {
  const [{ at, line }] = linesOf(text, from, from), found = line.slice(0, from - at).match(TWICE);
  return found && from === to ? { changes: [[from - found[2].length, found[2].length, ""]], from: from - found[2].length, to: from - found[2].length } : null;
}

// Tab moves items of a list in, and Shift+Tab out. In other lines it does nothing, and leaves the text.
export function tab(text, from, to, isBack) {
  const items = linesOf(text, from, to).filter(({ line }) => LIST.test(line)), changes = [];
  for (const { at, line } of items) {
    const [, space] = line.match(LIST), out = space.startsWith("\t") ? 1 : Math.min(INDENT.length, space.match(/^ */)[0].length);
    if (!isBack) changes.push([at, 0, INDENT]);
    else if (out) changes.push([at, out, ""]);
  }
  return withSelection(changes, from, to);
}

// Whether `mark` is among as many of its character as there are on both sides: three are those of strong emphasis.
const isIn = (count, mark) => (mark.length === 1 ? count === 1 || count >= 3 : count >= mark.length);

// How many characters of a mark are before one place and behind another.
function around(text, from, to, [character]) {
  let count = 0;
  while (count < 3 && text[from - 1 - count] === character && text[to + count] === character) count++;
  return count;
}

// Words between two marks, such as ** for strong ones, or without them where they had them.
export function wrap(text, from, to, mark) {
  const size = mark.length, words = text.slice(from, to);
  if (isIn(around(text, from, to, mark), mark)) return { changes: [[from - size, size, ""], [to, size, ""]], from: from - size, to: to - size };
  const [edge] = words.match(/^[*~]*/), back = words.match(/[*~]*$/)[0];
  if (words.length > 2 * size && edge === back && isIn(edge.length, mark)) {
    return { changes: [[from, size, ""], [to - size, size, ""]], from, to: to - 2 * size };
  }
  return { changes: [[from, 0, mark], [to, 0, mark]], from: from + size, to: to + size };
}

// A heading of the first level, then of the second and the third, and then none again.
export function heading(text, from, to) {
  const changes = linesOf(text, from, to).map(({ at, line }) => {
    const [marker = "", { length = 0 } = ""] = line.match(HEADING) ?? [];
    return [at, marker.length, length < 3 ? `${"#".repeat(length + 1)} ` : ""];
  });
  return withSelection(changes, from, to);
}

// Lines as items of a list, or as tasks; and without that where all of them are.
export function list(text, from, to, isTask = false) {
  const lines = linesOf(text, from, to).filter(({ line }, k, all) => line.trim() || all.length === 1), form = isTask ? TASK : LIST;
  const areAll = lines.every(({ line }) => form.test(line) && (isTask || !TASK.test(line)));
  const changes = lines.map(({ at, line }) => {
    const [marker = "", space = line.match(/^[ \t]*/)[0]] = line.match(LIST) ?? [];
    return [at, marker.length || space.length, areAll ? space : `${space}- ${isTask ? "[ ] " : ""}`];
  });
  return withSelection(changes, from, to);
}

// Words as a link, whose address is selected then.
export function link(text, from, to) {
  const words = text.slice(from, to), isAddress = /^https?:\/\/\S+$/.test(words);
  if (isAddress) return { changes: [[from, 0, "["], [to, 0, `](${words})`], ], from: from + 1, to: to + 1 };
  const address = "https://";
  return { changes: [[from, 0, "["], [to, 0, `](${address})`]], from: to + 3, to: to + 3 + address.length };
}
