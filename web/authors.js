// What the page calls authors: by their display names, where the server has them; otherwise those of its own server by their names
// without its number, and others with theirs. A server that took over another's store may have had other numbers before. Who
// wrote under one of these is the same author.
import { isGuest } from "../clients/js/src/guests.js";
import { WORDS } from "./words.js";

const MOST = 100; // that can be asked for at once
const AGAIN = 2000, LETTERS = 5;
// Signs that turn the direction of what follows, letters that run from right to left, and signs that look like nothing.
const TURNS = /[\u061c\u200e\u200f\u202a-\u202e\u2066-\u2069]/g, BACKWARDS = /[\u0590-\u08ff\ufb1d-\ufdff\ufe70-\ufefc\u{10800}-\u{10fff}\u{1e800}-\u{1efff}]/u;
const BLANKS = /[\s\p{Cc}\u115f\u1160\u2800\u3164\uffa0]+/gu;
const shown = new Map();
let origin = "", earlier = new Set();

export function setOrigin(me) { origin = me.slice(me.indexOf("@")); }

// Asks the server for its earlier numbers. One that does not say, as an older one does not, had none.
export async function learnEarlier() {
  try {
    const response = await fetch("/earlier-numbers", { cache: "no-store" });
    const { numbers } = response.ok ? await response.json() : {};
    earlier = new Set((Array.isArray(numbers) ? numbers : []).map((number) => `@${number}`));
  } catch { /* The connection broke: what was known stays. */ }
}

// An author under the number that the server has now.
export function authorNow(author) {
  const at = author.indexOf("@");
  return at >= 0 && earlier.has(author.slice(at)) ? author.slice(0, at) + origin : author;
}

// The name to which words are attributed.
export function accountOf(author) {
  const now = authorNow(author), at = now.indexOf("@");
  return at >= 0 && now.slice(at) === origin ? now.slice(0, at) : now;
}

// The display name, if there is one. A guest has chosen its own, so it is never shown without the word for a guest; before it has
// one, it is called by the last letters of its name.
export function displayOf(author) {
  const account = accountOf(author);
  return isGuest(account) ? WORDS.guest(chosenBy(account)) : shown.get(account) ?? null;
}

const chosenBy = (guest) => shown.get(guest) ?? `…${guest.slice(-LETTERS)}`;

export function named(author) { return displayOf(author) ?? accountOf(author); }

// The display name with the other one behind it.
export function fullName(author, account = accountOf(author)) {
  const display = displayOf(author), name = accountOf(author);
  if (isGuest(name)) return WORDS.guest(chosenBy(name), account);
  return display && display !== account ? `${display} (${account})` : account;
}

// Beside a display name, the other one.
export function hint(author) { return fullName(author) === named(author) ? "" : accountOf(author); }

// A display name cannot turn the sentence that it stands in.
function upright(name) {
  const text = name.replace(TURNS, "").replace(BLANKS, " ");
  return BACKWARDS.test(text) ? `\u2068${text}\u2069` : text;
}

// These are all that the server has of the names that were asked for. The answer is whether any is another one than before.
export function setDisplays(names, people) {
  const found = new Map(people.map(({ author, name }) => [author, upright(name)]));
  let isOther = false;
  for (const name of names) {
    if (shown.get(name) === found.get(name)) continue;
    isOther = true;
    if (found.has(name)) shown.set(name, found.get(name)); else shown.delete(name);
  }
  return isOther;
}

// Asks the server for the display names of authors, each of them once until `forget` is called.
export class Displays {
  constructor(session, onOther) { Object.assign(this, { session, onOther, asked: new Set(), guestsAt: 0, isAgain: false }); }

  forget() { this.asked.clear(); }

  // Somebody comes or goes. A guest may have another name than before, or say it in a moment, so guests are asked for twice.
  forgetGuests() {
    this.isAgain = true;
    for (const name of this.asked) if (isGuest(name)) this.asked.delete(name);
  }

  // An older server has none, and refuses. What is not answered is asked for again with the next authors.
  failed(names, error) {
    if (!error.reply) for (const name of names) this.asked.delete(name);
    return null;
  }

  async ask(authors) {
    const names = [...new Set(authors.map(accountOf))].filter((name) => name && !name.includes("@"));
    const news = names.filter((name) => !isGuest(name) && !this.asked.has(name));
    if (!this.session.login || this.session.isLost) return;
    const guests = this.askGuests(names.filter(isGuest));
    for (const name of news) this.asked.add(name);
    for (let from = 0; from < news.length; from += MOST) {
      const names = news.slice(from, from + MOST), people = await this.session.people(names).catch((error) => this.failed(names, error));
      if (people && setDisplays(names, people)) this.onOther();
    }
    await guests;
  }

  // Guests are known to the pad, and are seen a moment before they have said their name, so who has none is asked for again.
  async askGuests(names) {
    const { session } = this, now = Date.now(), isNew = names.some((name) => !this.asked.has(name));
    if (!session.pad || !(isNew || (now > this.guestsAt + AGAIN && names.some((name) => this.isAgain || !shown.has(name))))) return;
    this.isAgain &&= isNew;
    this.guestsAt = now;
    for (const name of names) this.asked.add(name);
    const guests = await session.guests().catch((error) => this.failed(names, error));
    if (guests && setDisplays(names, guests)) this.onOther();
  }
}
