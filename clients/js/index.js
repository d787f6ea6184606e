// The library for browsers. In Node, node.js has the same and connects over TCP, too.
import { Session } from "./src/session.js";
import { webSocket } from "./src/wire.js";

export * as delta from "./src/delta.js";
export { Lost, LostRevisions, Misfit, PadClosed, Refused, Superseded, Taken, Unsaved } from "./src/errors.js";
export { isGuest, isLink, newSecret } from "./src/guests.js";
export { History } from "./src/history.js";
export { LIMITS } from "./src/limits.js";
export { PACE, Pad } from "./src/sync.js";
export { count, unit } from "./src/units.js";
export { Session, webSocket };

// How a connection to an address is opened, by the address's scheme.
const OPENERS = { "ws:": webSocket, "wss:": webSocket };

export function opener(address, openers = OPENERS) {
  const { protocol } = new URL(address), open = openers[protocol];
  if (!open) throw new RangeError(`${address}: an address begins with ${Object.keys(openers).map((scheme) => `${scheme}//`).join(", ")}`);
  return open(address);
}

// Connects to a server and logs in, as an author or with the token of a guest. Resolves to a session, which opens pads.
export async function connect(address, { name, token, guest, open = opener(address), ...options }) {
  const session = new Session({ open, ...options });
  await (guest === undefined ? session.logIn(name, token) : session.logInAsGuest(guest));
  return session;
}
