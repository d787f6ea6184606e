// What the browser keeps for the page from one visit to the next, such as the comments that were shown. An author can have
// blocked that, and then merely to name localStorage is an error. So nothing is kept, and all else goes on.
export const SEEN = "seen "; // begins each key that names a pad

const BLOCKED = { getItem: () => null, setItem: () => {}, removeItem: () => {} };

export function storage() {
  try { return localStorage ?? BLOCKED; } catch { return BLOCKED; }
}

// Forgets all that names a pad: an author who logs out may leave the browser to others.
export function forget() {
  const kept = storage();
  for (const key of Object.keys(kept)) if (key.startsWith(SEEN)) kept.removeItem(key);
}
