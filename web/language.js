// The language of the page, which the author can change on the way in.
import { $, element, label } from "./page.js";
import { storage } from "./storage.js";
import { KEY, LANGUAGES, speak, spoken } from "./words.js";

// `onSpoken` draws what is shown, once another language is there.
export function offerLanguages(onSpoken) {
  const select = $("language");
  select.replaceChildren(...Object.entries(LANGUAGES).map(([value, name]) => Object.assign(element("option", { value, textContent: name }), { lang: value })));
  select.value = spoken();
  select.addEventListener("change", async () => {
    try { storage().setItem(KEY, select.value); } catch { /* it is asked for again */ }
    await speak(select.value);
    label();
    onSpoken();
  });
}
