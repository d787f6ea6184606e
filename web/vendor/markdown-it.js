// Loads markdown-it from its parts (tests/vendor), as the beginning of its own file does.
import "./markdown-it-1.js";
import "./markdown-it-2.js";
import "./markdown-it-3.js";
import "./markdown-it-4.js";
import "./markdown-it-5.js";

const MAIN = 67, modules = Object.assign({}, ...globalThis.vendored), made = {};

function load(number) {
  if (!made[number]) {
    const [make, names] = modules[number], module = { exports: {} };
    made[number] = module;
    make.call(module.exports, (name) => load(names[name]), module, module.exports);
  }
  return made[number].exports;
}

export const markdownit = load(MAIN);
