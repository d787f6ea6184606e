// Who this browser is as a guest: for each link by which it came to a pad, its own secret (`own`), the name that it chose (`as`) and the
// author that the server makes of both secrets. Who logs out leaves the browser to others, who are other guests then.
import { SEEN, storage } from "./storage.js";

const KEY = `${SEEN}guest `;
const keyOf = (pad, link) => `${KEY}${pad} ${link}`;

function read(key) {
  try { return JSON.parse(storage().getItem(key)); } catch { return null; }
}

export const guestBy = (pad, link) => read(keyOf(pad, link));

export function keepGuest({ pad, link, own, as }, author) {
  try { storage().setItem(keyOf(pad, link), JSON.stringify({ own, as, author })); } catch { /* it is another guest the next time */ }
}

// The guest with an author's name, { pad, link, own, as }, or null.
export function guestNamed(author) {
  for (const key of Object.keys(storage())) {
    const guest = key.startsWith(KEY) && read(key);
    if (guest?.author !== author) continue;
    const [pad, link] = key.slice(KEY.length).split(" ");
    return { ...guest, pad, link };
  }
  return null;
}
