// Prints what the clients of rounds of tests/web/simulation.mjs asked, and when, and the text in the end: a line of JSON for each
// round, which tests/clients/python_client.py compares with the same rounds of the library for Python.
//
//     node tests/clients/rounds.mjs FIRST LAST
import * as delta from "../../clients/js/src/delta.js";
import { History } from "../../clients/js/src/history.js";
import { Pad } from "../../clients/js/src/sync.js";
import { round } from "../web/simulation.mjs";

const [first, last] = process.argv.slice(2).map(Number);
for (let number = first; number <= last; number++) {
  const { end, pages } = await round(number, { Pad, History, delta });
  console.log(JSON.stringify({ number, end, pages: pages.map(({ asked, author }) => ({ author, asked })) }));
}
