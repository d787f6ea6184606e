// What a new pad begins with: nothing, an agenda, minutes, or the text of a pad whose name begins with `template-`.
import { named } from "./authors.js";
import { splice } from "../clients/js/src/delta.js";
import { glance } from "./glance.js";
import { $, element } from "./page.js";
import { TEMPLATE, isReadable } from "./pad_list.js";
import { dayOf } from "./times.js";
import { LABELS, TEMPLATES } from "./words.js";

const OWN = ["blank", "agenda", "minutesTemplate"];

// Offers the templates, with those among these pads.
export function offerTemplates(pads) {
  const select = $("template"), chosen = select.value;
  const names = pads.filter((pad) => TEMPLATE.test(pad.name) && isReadable(pad)).map(({ name }) => name);
  select.replaceChildren(
    ...OWN.map((key) => element("option", { value: key, textContent: LABELS[key] })),
    ...names.map((name) => element("option", { value: `#${name}`, textContent: name.slice("template-".length) })),
  );
  if ([...select.options].some(({ value }) => value === chosen)) select.value = chosen;
}

// The text of the template that is chosen.
export async function templateText(session) {
  const { value } = $("template");
  if (!value.startsWith("#")) return TEMPLATES[value]?.(dayOf(Date.now()), named(session.me)) ?? "";
  return (await glance(session, value.slice(1), { do: "text" })).text;
}

// The new pad has this text, as its author's.
export function begin({ pad, me }, text) { if (text) pad.type(splice(0, 0, text, me)); }
