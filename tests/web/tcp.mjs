// The library's connections over TCP, which count the lines that are sent.
import { tcp as open } from "../../clients/js/tcp.js";

export const connections = { lines: 0 };

export const tcp = (port) => () => {
  const channel = open(`tcp://127.0.0.1:${port}`)(), { send } = channel;
  return Object.assign(channel, { send: (text) => { connections.lines++; send(text); } });
};
