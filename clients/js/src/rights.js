// Who has which right on a pad.
import { isGuest, isLink, linkOf } from "./guests.js";

const RIGHTS = ["none", "read", "comment", "write", "own"];

// Who stands in a list of rights for all authors.
export const EVERYONE = "*";

// The list of rights, or an empty one for who has lost them all; and whether the pad is `closed`.
export async function rightsOn(pad) {
  try { return await pad.call({ do: "rights" }); } catch (error) { if (error.reply?.code === 312) return { rights: [] }; throw error; }
}

// An author's right: the greater of the author's own and that of everyone, or for a guest, that of the guest's link.
export function rightOf(name, rights) {
  const shared = isGuest(name) ? linkOf(name) : EVERYONE, held = rights.filter(([author]) => author === name || author === shared).map(([, right]) => RIGHTS.indexOf(right));
  return RIGHTS[Math.max(0, ...held)];
}

// The authors that a list of rights names.
export const authorsIn = (rights) => rights.map(([author]) => author).filter((author) => author !== EVERYONE && !isLink(author));
