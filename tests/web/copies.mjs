// The library that the page stands on, as it is or with one passage replaced, and its modules.
import fs from "node:fs";
import os from "node:os";
import path from "node:path";
import { fileURLToPath, pathToFileURL } from "node:url";

export const LIBRARY = path.join(path.dirname(fileURLToPath(import.meta.url)), "..", "..", "clients", "js", "src");

// The modules of a folder that the random runs need.
export async function loadLibrary(folder) {
  const of = (name) => import(pathToFileURL(path.join(folder, name)));
  return { ...(await of("errors.js")), ...(await of("sync.js")), ...(await of("session.js")), ...(await of("history.js")), ...(await of("limits.js")), ...(await of("suggestions.js")), delta: await of("delta.js") };
}

// A copy of the library with passages of one file replaced, each of which is there once: [passage, other, ..].
export async function planted(file, ...passages) {
  const folder = fs.mkdtempSync(path.join(os.tmpdir(), "planted-"));
  for (const name of fs.readdirSync(LIBRARY)) fs.copyFileSync(path.join(LIBRARY, name), path.join(folder, name));
  fs.writeFileSync(path.join(folder, "package.json"), '{"type":"module"}');
  let whole = fs.readFileSync(path.join(folder, file), "utf8");
  for (let at = 0; at < passages.length; at += 2) {
    if (whole.split(passages[at]).length !== 2) throw new Error(`${file} has no single ${passages[at]}`);
    whole = whole.replace(passages[at], () => passages[at + 1]);
  }
  fs.writeFileSync(path.join(folder, file), whole);
  return loadLibrary(folder);
}
