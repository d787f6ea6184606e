// The page begins here.
import { Displays, learnEarlier, setOrigin } from "./authors.js";
import { Desk } from "./desk.js";
import { DraftStore } from "./draft_store.js";
import { Enter, reason } from "./enter.js";
import { KeptPads } from "./kept_pads.js";
import { KeysBox } from "./keys_box.js";
import { offerLanguages } from "./language.js";
import { LogIn } from "./log_in.js";
import { Machines } from "./machines.js";
import { $, label, later, say } from "./page.js";
import { LostRevisions, Taken } from "../clients/js/src/errors.js";
import { Session } from "../clients/js/src/session.js";
import { tellIfUnproved } from "./unproved.js";
import { author } from "./user.js";
import { webSocket } from "../clients/js/src/wire.js";
import { WORDS } from "./words.js";

label();

const store = new DraftStore();
const open = webSocket(`${location.protocol === "https:" ? "wss" : "ws"}://${location.host}/socket`);
const session = new Session({ store, open, user: author });
const kept = new KeptPads(session, store, { onPad: () => desk.open() });
const displays = new Displays(session, () => { desk.renamed(); enter.renamed(); });
const enter = new Enter(session, kept, {
  displays,
  onPad: (found) => { desk.open(); if (found) desk.toFind(() => desk.find.show(found)); }, onLeave: () => desk.close(), onRefused: (name) => desk.notOpened(name),
});
const desk = new Desk(session, { displays, onClose: () => (logIn.isLeaving ? null : enter.show()), onLogOut: () => logIn.logOut(true) });
const machines = new Machines(session);
const loadAgain = later(async () => new (await import("./log_in_again.js")).LogInAgain(session));
const logInAgain = (token) => loadAgain().then((again) => again.ask(token), () => desk.notice.show(WORDS.noServer));
const logIn = new LogIn(session, {
  kept, enter, onIn: () => { machines.logIn(); learnNumbers(); }, onAgain: logInAgain,
  onStay: () => desk.notice.show(""), onUnsent: (text) => desk.notice.show(text, { canLogOut: true }),
});
new KeysBox();
offerLanguages(() => {
  if (!$("guest").hidden) say($("guest-pad"), WORDS.guestOf(enter.door.guest.pad));
  if (session.login && !logIn.loggingIn) enter.show(); else if (!logIn.loggingIn) kept.show();
  tellIfUnproved();
  machines.draw();
});

const whenOpen = (event, act) => session.on(event, (...given) => { if (desk.isShowing) act(...given); });
whenOpen("receive", (delta) => desk.receive(delta));
whenOpen("change", (delta) => { desk.who?.changed(delta); desk.views.changed(delta); desk.remarks.changed(); desk.find?.changed(); });
whenOpen("revision", () => desk.moved());
whenOpen("presence", () => desk.showPeople());
whenOpen("come", (author) => desk.came(author));
whenOpen("go", (author) => desk.went(author));
whenOpen("comments", () => desk.remarks.draw());
whenOpen("rights", () => desk.showRights());
whenOpen("refused", (reply, words) => desk.refused(reply, words));
whenOpen("returned", () => desk.returned());
whenOpen("reread", () => desk.reread());
session.on("over", () => machines.follow());
const why = (error) => (error instanceof LostRevisions ? WORDS.gone : error instanceof Taken ? WORDS.taken : session.isGuest && error.reply?.code === 201 ? WORDS.noGuests : reason(error));
whenOpen("over", (error) => desk.over(why(error)));

// Another server may answer now than before, under a number of its own.
async function learnNumbers() {
  setOrigin(session.me);
  await learnEarlier();
  desk.renamed();
}

let wasLost = false;
session.on("state", () => {
  if (wasLost && !session.isLost) { tellIfUnproved(); learnNumbers(); }
  wasLost = session.isLost;
  machines.follow();
  enter.showState();
  if (desk.isOpen) desk.showState();
});

document.addEventListener("visibilitychange", () => {
  session.isHidden = document.hidden;
  if (session.pad && !document.hidden) session.refresh();
});
addEventListener("online", () => session.hurry());
$("log-in-again").addEventListener("click", () => logInAgain());
$("skip").addEventListener("click", (event) => {
  event.preventDefault();
  $("text").focus();
});
tellIfUnproved();
// Without a service worker, as where the page is not secure, it opens only with a network.
navigator.serviceWorker?.register("/sw.js", { updateViaCache: "none" }).catch(() => {});
logIn.begin();
