// The library for JavaScript as a client that tests/conformance/run can try.
import readline from "node:readline";
import { connect, count, unit } from "../../../clients/js/node.js";

const { PADS_ADDRESS, PADS_NAME, PADS_PAD, PADS_TOKEN } = process.env;
const session = await connect(PADS_ADDRESS, { name: PADS_NAME, token: PADS_TOKEN }), pad = await session.join(PADS_PAD);

const runs = () => {
  let at = 0;
  return pad.runs.map(([author, units]) => [author, count(pad.text, at, (at += units))]);
};

const listed = ({ author, text, from, to, isResolved }) => [author, text, count(pad.text, 0, from), count(pad.text, from, to), isResolved];

function act({ do: what, at = 0, erase = 0, len, text }) {
  if (what === "show") return { text: pad.text, runs: runs(), state: session.state };
  if (what === "comments") return { comments: session.comments.all.map(listed) };
  const from = unit(pad.text, at), to = unit(pad.text, len ?? erase, from);
  if (what === "type") {
    const erased = pad.text.slice(from, to);
    pad.replace(from, to - from, text);
    return { erased };
  }
  if (what === "comment") session.comment(from, to, text).catch(() => {});
  else return { error: `no such command: ${what}` };
  return {};
}

for await (const line of readline.createInterface({ input: process.stdin })) console.log(JSON.stringify(act(JSON.parse(line))));
