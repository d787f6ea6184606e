// What the events of a browser say: about the text, and about keys.
const DELETING = /^delete/, COMPOSING = ["insertCompositionText", "deleteCompositionText", "insertFromComposition"];
const INSERTING = /^insert(Text|ReplacementText|FromPaste|FromYank|Transpose)/;

export const isDeleting = ({ inputType }) => DELETING.test(inputType ?? "");
export const isComposing = ({ inputType }) => COMPOSING.includes(inputType);

// What an event inserts, "" for a deletion, or null for what a pad has not, such as bold type.
export function insertedBy(event) {
  const { inputType, data, dataTransfer } = event;
  if (isDeleting(event)) return "";
  if (inputType === "insertParagraph" || inputType === "insertLineBreak") return "\n";
  return INSERTING.test(inputType) ? data ?? plainText(dataTransfer) : null;
}

export function plainText(dataTransfer) { return (dataTransfer?.getData("text/plain") ?? "").replace(/\r\n?/g, "\n"); }

// The place of the document at a point of the window: { node, offset }, or null. Browsers have one of two functions for it.
export function placeAt(x, y) {
  if (document.caretPositionFromPoint) {
    const place = document.caretPositionFromPoint(x, y);
    return place && { node: place.offsetNode, offset: place.offset };
  }
  const place = document.caretRangeFromPoint?.(x, y);
  return place ? { node: place.startContainer, offset: place.startOffset } : null;
}

// The letter of a key, for a shortcut: what the key types, as on a Dvorak keyboard, unless that is a letter of another script
// than the Latin. Then it is the letter at the key's place on a keyboard of the United States, so that Ctrl+Z is the same key
// on Cyrillic, Greek and Hebrew ones.
export function letterOf({ key, code }) {
  const typed = key.toLowerCase(), isForeign = /^(?!\p{Script=Latin})\p{L}$/u.test(typed);
  return isForeign ? code.match(/^Key([A-Z])$/)?.[1].toLowerCase() ?? typed : typed;
}
