// Guests are authors without an account, who come by a link. Their names say so: a link is called `guest-` and 13 letters, and a guest
// who came by it has the link's name and 13 letters more. The server makes both names from secrets that browsers have drawn.
const MARK = "guest-", LINK = 19, GUEST = 32, BYTES = 16, DIGITS = 22;

const isOf = (name, length) => name.length === length && name.startsWith(MARK);
export const isLink = (name) => isOf(name, LINK);
export const isGuest = (name) => isOf(name, GUEST);

// The name of the link by which a guest came.
export const linkOf = (guest) => guest.slice(0, LINK);

// 16 random bytes, in base64url.
export function newSecret() {
  const bytes = crypto.getRandomValues(new Uint8Array(BYTES));
  return btoa(String.fromCharCode(...bytes)).slice(0, DIGITS).replaceAll("+", "-").replaceAll("/", "_");
}
