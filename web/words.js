// All that the page says, in the language that the reader has chosen, or that of the browser: languages/ has a file for each.
import { storage } from "./storage.js";

export const KEY = "language", LANGUAGES = { en: "English", de: "Deutsch", fr: "Français", es: "Español" };
export const LABELS = {}, RIGHTS = {}, WORDS = {}, REFUSALS = {}, TEMPLATES = {};
let language = "en";

export const spoken = () => language;

// Everything is said in this language from now on.
export async function speak(name) {
  const words = await import(`./languages/${name}.js`);
  language = name;
  Object.assign(LABELS, words.LABELS);
  Object.assign(RIGHTS, words.RIGHTS);
  Object.assign(WORDS, words.WORDS);
  Object.assign(REFUSALS, words.REFUSALS);
  Object.assign(TEMPLATES, words.TEMPLATES);
}

function wanted() {
  const names = [storage().getItem(KEY), ...(globalThis.navigator?.languages ?? []).map((one) => one.slice(0, 2))];
  return names.find((name) => name in LANGUAGES) ?? "en";
}

await speak(wanted());

// What a refusal means, and what to do.
export const refusal = ({ code, error }) => REFUSALS[code] ?? WORDS.refused(code, error);
