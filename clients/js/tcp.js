// Connections over TCP and TLS, for Node: a line each way is what a WebSocket's message is.
import net from "node:net";
import tls from "node:tls";

const PORT = 7878;

// Opens tcp://HOST:PORT, or tls://HOST:PORT with options of Node's tls.connect, such as `ca`.
export const tcp = (address, options = {}) => () => {
  const { protocol, hostname, port } = new URL(address), host = hostname.replace(/^\[(.*)\]$/, "$1");
  const isTls = protocol === "tls:", place = { host, port: Number(port || PORT) };
  const socket = isTls ? tls.connect({ servername: net.isIP(host) ? "" : host, ...place, ...options }) : net.connect(place);
  const begun = []; // the pieces of a line whose end has not come yet
  let handlers = {};
  socket.setNoDelay(true);
  socket.setEncoding("utf8");
  socket.on(isTls ? "secureConnect" : "connect", () => handlers.onopen());
  socket.on("data", (data) => {
    const lines = data.split("\n");
    begun.push(lines[0]);
    for (const next of lines.slice(1)) handlers.onmessage({ data: begun.splice(0, begun.length, next).join("") });
  });
  socket.on("error", (error) => handlers.onerror?.(error)); // `close` comes behind it
  socket.on("close", () => handlers.onclose());
  return {
    socket,
    listen: (given) => { handlers = given; },
    send: (text) => socket.write(`${text}\n`),
    close: () => socket.destroy(),
  };
};
