// Serves web/ and the library as they are on disk, and passes each message of a WebSocket on to a server over TCP as a line, and back:
//
//     node tests/web/dev.mjs PORT SERVER_PORT [FOLDER]
//
// For work on the page, and for its tests. A file that is also in FOLDER is served from there, also `kept`, `me`
// and `earlier-numbers`.
import { createHash } from "node:crypto";
import fs from "node:fs";
import http from "node:http";
import net from "node:net";
import path from "node:path";
import { fileURLToPath } from "node:url";

const [port, serverPort, folder] = process.argv.slice(2);
const TOP = path.join(path.dirname(fileURLToPath(import.meta.url)), "..", "..");
const WEB = path.join(TOP, "web"), LIBRARY = "clients/js/src";
const KINDS = { ".html": "text/html", ".js": "text/javascript", ".css": "text/css", ".svg": "image/svg+xml" };
const HEADERS = {
  "content-security-policy": "default-src 'none'; script-src 'self'; style-src 'self'; img-src 'self'; connect-src 'self'; base-uri 'none'; form-action 'none'; frame-ancestors 'none'",
  "x-content-type-options": "nosniff", "referrer-policy": "no-referrer", "cache-control": "no-store",
};

// What a server says of itself that has no standby, no user that a proxy has logged in, and had no other number.
const ANSWERS = { "/kept": '{"machines":0}', "/me": '{"code":200,"error":"NoSession","ok":false}\n', "/earlier-numbers": '{"numbers":[]}' };

const tagOf = (data) => `"${createHash("sha256").update(data).digest("hex").slice(0, 32)}"`;

// The list of files for the service worker, as tests/pages writes it.
function list() {
  const names = fs.readdirSync(WEB, { recursive: true }).map(String).filter((name) => KINDS[path.extname(name)] && name !== "sw.js");
  const files = [...names, ...fs.readdirSync(path.join(TOP, LIBRARY)).map((name) => `${LIBRARY}/${name}`)];
  return files.map((name) => `${tagOf(fs.readFileSync(fileOf(name)))} /${name === "index.html" ? "" : name}\n`).join("");
}

function fileOf(name) {
  const own = folder && path.join(folder, name);
  if (own && fs.existsSync(own)) return own;
  return path.join(name.replace(/^\//, "").startsWith(LIBRARY) ? TOP : WEB, name);
}

const server = http.createServer((request, response) => {
  const { pathname } = new URL(request.url, "http://localhost"), name = pathname === "/" ? "index.html" : pathname;
  if (name === "/files.txt") { response.writeHead(200, { ...HEADERS, "content-type": "text/plain; charset=utf-8" }).end(list()); return; }
  if (name in ANSWERS && !fs.existsSync(fileOf(name))) {
    response.writeHead(200, { ...HEADERS, "content-type": "application/json" }).end(ANSWERS[name]);
    return;
  }
  fs.readFile(fileOf(name), (error, data) => {
    if (error) response.writeHead(404).end();
    else response.writeHead(200, { ...HEADERS, etag: tagOf(data), "content-type": `${KINDS[path.extname(name)]}; charset=utf-8` }).end(data);
  });
});

// One frame with a text or a close, without a mask.
function frame(kind, data) {
  const { length } = data, head = length < 126 ? [length] : length < 65536 ? [126, length >> 8, length & 255]
    : [127, 0, 0, 0, 0, ...[24, 16, 8, 0].map((shift) => (length >>> shift) & 255)];
  return Buffer.concat([Buffer.from([0x80 | kind, ...head]), data]);
}

// Takes frames off the front of what came: the rest, and what each whole frame says.
function unframe(bytes) {
  const frames = [];
  for (;;) {
    if (bytes.length < 6) break;
    let length = bytes[1] & 127, at = 2;
    if (length === 126) { length = bytes.readUInt16BE(2); at = 4; }
    else if (length === 127) { if (bytes.length < 14) break; length = Number(bytes.readBigUInt64BE(2)); at = 10; }
    if (bytes.length < at + 4 + length) break;
    const mask = bytes.subarray(at, at + 4), data = Buffer.from(bytes.subarray(at + 4, at + 4 + length));
    for (let k = 0; k < length; k++) data[k] ^= mask[k & 3];
    frames.push({ isLast: Boolean(bytes[0] & 0x80), kind: bytes[0] & 15, data });
    bytes = bytes.subarray(at + 4 + length);
  }
  return [bytes, frames];
}

function pass(socket, head) {
  const up = net.connect(Number(serverPort), "127.0.0.1");
  let bytes = head, message = [], lines = Buffer.alloc(0);
  const end = () => { socket.destroy(); up.destroy(); };
  const read = (data) => {
    let frames;
    [bytes, frames] = unframe(Buffer.concat([bytes, data]));
    for (const one of frames) {
      if (one.kind === 8) { socket.end(frame(8, one.data)); up.end(); continue; }
      if (one.kind > 8) continue;
      message.push(one.data);
      if (!one.isLast) continue;
      up.write(Buffer.concat([...message, Buffer.from("\n")]));
      message = [];
    }
  };
  up.on("data", (data) => {
    lines = Buffer.concat([lines, data]);
    for (let at; (at = lines.indexOf(10)) >= 0;) {
      socket.write(frame(1, lines.subarray(0, at)));
      lines = lines.subarray(at + 1);
    }
  });
  for (const stream of [socket, up]) stream.on("error", end).on("close", end);
  socket.setNoDelay(true);
  up.setNoDelay(true);
  socket.on("data", read);
  read(Buffer.alloc(0));
}

server.on("upgrade", (request, socket, head) => {
  const key = createHash("sha1").update(`${request.headers["sec-websocket-key"]}258EAFA5-E914-47DA-95CA-C5AB0DC85B11`).digest("base64");
  socket.write(`HTTP/1.1 101 Switching Protocols\r\nupgrade: websocket\r\nconnection: upgrade\r\nsec-websocket-accept: ${key}\r\n\r\n`);
  pass(socket, head);
});
server.listen(Number(port), "127.0.0.1", () => console.log(`serving http://127.0.0.1:${port}`));
