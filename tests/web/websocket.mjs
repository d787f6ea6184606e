// A WebSocket client for the page's modules, since Node 20 has none without a flag. Each client counts what it sends.
import { createHash, randomBytes } from "node:crypto";
import net from "node:net";

const MAGIC = "258EAFA5-E914-47DA-95CA-C5AB0DC85B11"; // RFC 6455, section 1.3
const TEXT = 1, CLOSE = 8, PING = 9, PONG = 10;

// One whole frame, masked as a client's has to be.
function frame(kind, data) {
  const { length } = data, head = [0x80 | kind], mask = randomBytes(4), masked = Buffer.from(data);
  if (length < 126) head.push(0x80 | length);
  else if (length < 65536) head.push(0x80 | 126, length >> 8, length & 255);
  else head.push(0x80 | 127, 0, 0, 0, 0, ...[24, 16, 8, 0].map((shift) => (length >>> shift) & 255));
  for (let k = 0; k < length; k++) masked[k] ^= mask[k & 3];
  return Buffer.concat([Buffer.from(head), mask, masked]);
}

// The first frame of some bytes and how long it is, or null. A server's frame has no mask, and here it is whole.
function unframe(bytes) {
  if (bytes.length < 2) return null;
  const isWhole = (bytes[0] & 0xf0) === 0x80 && !(bytes[1] & 0x80);
  if (!isWhole) throw new Error(`the server sent a frame that begins with ${bytes[0]}, ${bytes[1]}`);
  let length = bytes[1], at = 2;
  if (length === 126) { if (bytes.length < 4) return null; length = bytes.readUInt16BE(2); at = 4; }
  else if (length === 127) { if (bytes.length < 10) return null; length = Number(bytes.readBigUInt64BE(2)); at = 10; }
  return bytes.length < at + length ? null : { kind: bytes[0] & 15, data: bytes.subarray(at, at + length), size: at + length };
}

// Reads the head of the response to a handshake: what follows it, or null if it is not whole.
function afterHead(bytes, key) {
  const end = bytes.indexOf("\r\n\r\n");
  if (end < 0) return null;
  const head = bytes.subarray(0, end).toString("latin1"), accept = createHash("sha1").update(key + MAGIC).digest("base64");
  const answer = /^sec-websocket-accept: *(\S+)$/im.exec(head)?.[1];
  if (!head.startsWith("HTTP/1.1 101 ") || answer !== accept) throw new Error(`no socket: ${head}`);
  return bytes.subarray(end + 4);
}

// Opens a socket at `ws://HOST:PORT/PATH`, as wire.js wants it. `count.lines` counts the messages that are sent.
export const webSocket = (address, count = { lines: 0 }) => () => {
  const { hostname, port, pathname, host } = new URL(address), key = randomBytes(16).toString("base64");
  const socket = net.connect(Number(port), hostname);
  let bytes = Buffer.alloc(0), isOpen = false, handlers = {};
  const read = (data) => {
    bytes = Buffer.concat([bytes, data]);
    if (!isOpen) {
      const rest = afterHead(bytes, key);
      if (!rest) return;
      bytes = rest;
      isOpen = true;
      handlers.onopen();
    }
    for (let one; (one = unframe(bytes)); ) {
      bytes = bytes.subarray(one.size);
      if (one.kind === TEXT) handlers.onmessage({ data: one.data.toString() });
      else if (one.kind === PING) socket.write(frame(PONG, one.data));
      else if (one.kind === CLOSE) socket.end(frame(CLOSE, one.data));
    }
  };
  socket.setNoDelay(true);
  socket.on("connect", () => socket.write([
    `GET ${pathname} HTTP/1.1`, `Host: ${host}`, "Connection: Upgrade", "Upgrade: websocket", "Sec-WebSocket-Version: 13",
    `Sec-WebSocket-Key: ${key}`, `Origin: http://${host}`, "", "",
  ].join("\r\n")));
  socket.on("data", (data) => { try { read(data); } catch (error) { console.log(error.message); socket.destroy(); } });
  socket.on("error", () => {});
  socket.on("close", () => handlers.onclose());
  return {
    socket,
    send: (text) => { count.lines++; socket.write(frame(TEXT, Buffer.from(text))); },
    close: () => (isOpen ? socket.end(frame(CLOSE, Buffer.from([0x03, 0xe8]))) : socket.destroy()), // 1000
    listen: (given) => { handlers = given; },
  };
};
