// What a tab knows of who is logged in: by a log-in link or a link for guests, and from the page before.
//
// A log-in link is `#in=NAME.TOKEN`, or `#in=NAME.TOKEN&pad=PAD` if a pad is to be opened, and a link for guests `#guest=PAD.SECRET`.
// The document loads this module before all others, and it needs none of them: it takes the token out of the address and out of
// the tab's history at once, also where such a link is followed later. What stays in the address is the pad.
//
// A tab stays logged in when the page is loaded again, unless the author does not want that: its sessionStorage has the name and
// the token then, which other tabs do not see, and which end with the tab. Where a browser keeps nothing, each page asks.
export const NAME = /^[a-z0-9-]{1,32}$/;

const SECRET = /^[\w-]{22}$/;
const KEY = "log-in", WRONG_TOKEN = 201;
let waiting = null, follow = null;

// ---- from the page before

// Where `isOnce`, the next page of this tab logs in, and those after it ask. Answers whether the browser keeps it.
export const stay = (name, token, isOnce = false) => keep({ name, token, isOnce });

// The same for a guest of this pad: `link` is the secret of the link. `own` and `as`, the guest's own secret and chosen name, are
// there once it has come in.
export const stayAsGuest = ({ pad, link, own, as }) => keep({ pad, link, own, as });

function keep(login) {
  try { sessionStorage.setItem(KEY, JSON.stringify(login)); } catch { return false; }
  return true;
}

export function forgetLogIn() { try { sessionStorage.removeItem(KEY); } catch { /* nothing is kept */ } }

// A token that the server refuses is not tried again.
export function doubt(error) { if (error.reply?.code === WRONG_TOKEN) forgetLogIn(); }

// Who is logged in, { name, token, isOnce } or a guest, or null.
export function stayed() {
  let login = null;
  try { login = JSON.parse(sessionStorage.getItem(KEY)); } catch { /* nothing is kept */ }
  if (login?.isOnce) forgetLogIn();
  return login;
}

// ---- by a link

function decoded(text) {
  try { return decodeURIComponent(text); } catch { return text; }
}

// What a fragment says: { name, token, pad } or { link, pad }, where what is missing or malformed is empty; null if it is of no
// such link.
export function linkOf(hash) {
  const guest = hash.match(/^#guest=([^&]*)/)?.[1];
  if (guest !== undefined) {
    const [, pad, link] = decoded(guest).match(/^([^.]*)\.?(.*)$/s);
    return { link: SECRET.test(link) && NAME.test(pad) ? link : "", pad: NAME.test(pad) ? pad : "" };
  }
  const [login, pad = ""] = ["in", "pad"].map((field) => hash.match(`[#&]${field}=([^&]*)`)?.[1]);
  if (login === undefined) return null;
  const [, name, token] = decoded(login).match(/^([^.]*)\.?(.*)$/s);
  return { name: NAME.test(name) ? name : "", token, pad: NAME.test(pad) ? pad : "" };
}

// `act` gets the link with which the page was loaded, and each that is followed later. Answers whether there was one.
export function onLink(act) {
  const first = waiting;
  follow = act;
  waiting = null;
  if (first) act(first);
  return first !== null;
}

// The address names this pad from now on, or none, without an entry of the history.
export function setPad(pad) {
  const address = new URL(location.href);
  address.hash = pad;
  history.replaceState(null, "", address);
}

function take(event) {
  const link = linkOf(location.hash);
  if (!link) return;
  setPad(link.pad);
  event?.stopImmediatePropagation();
  if (follow) follow(link); else waiting = link;
}

// Browsers remember with which address a page was loaded, and tell it to scripts. So the page is loaded once more without the
// token, as a tab that stays logged in, and the rest of this one does not begin.
async function begin() {
  take();
  addEventListener("hashchange", take);
  if (!(waiting?.link ? stayAsGuest(waiting) : waiting?.token && waiting.name && stay(waiting.name, waiting.token))) return;
  location.reload();
  await new Promise(() => {});
}

if (globalThis.document) await begin();
