// The library for Node: index.js, and connections over TCP and TLS.
import { connect as connectBy, opener as openerOf, webSocket } from "./index.js";
import { tcp } from "./tcp.js";

export * from "./index.js";
export { tcp };

const OPENERS = { "tcp:": tcp, "tls:": tcp };
// Node has a WebSocket from version 22 on.
if (globalThis.WebSocket) Object.assign(OPENERS, { "ws:": webSocket, "wss:": webSocket });

export const opener = (address) => openerOf(address, OPENERS);
export const connect = (address, { open = opener(address), ...options }) => connectBy(address, { ...options, open });
