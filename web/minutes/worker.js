// Makes minutes of texts beside the page, so that typing waits for nothing. It answers what differs from the text before.
import { markdownit } from "../vendor/markdown-it.js";
import { difference, minutesOf } from "./rules.js";

const make = minutesOf(markdownit);
let before = [];

self.onmessage = ({ data: { number, text } }) => {
  const blocks = make(text), lines = Uint32Array.from(blocks.flatMap(({ from, to }) => [from, to]));
  self.postMessage({ number, ...difference(before, blocks), lines }, [lines.buffer]);
  before = blocks;
};
