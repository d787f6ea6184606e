// The dialog of rights: who has which, and, for owners, giving and taking them, and handing the pad over.
import { accountOf, displayOf, fullName } from "./authors.js";
import { isGuest, isLink, newSecret } from "../clients/js/src/guests.js";
import { EVERYONE } from "../clients/js/src/rights.js";
import { CloseQuestion } from "./closing.js";
import { reason } from "./enter.js";
import { Refused } from "../clients/js/src/errors.js";
import { $, element, fill, say } from "./page.js";
import { Wire } from "../clients/js/src/wire.js";
import { LABELS, RIGHTS, WORDS } from "./words.js";

const ORDER = ["own", "write", "comment", "read", "none"];
const FOR_SEVERAL = ORDER.slice(1), FOR_GUESTS = ["comment", "read", "write"];
const LETTERS = 5;
// What a server says that takes no guests, and one that knows none.
const REFUSED = [201, 102];

function choices(select, chosen, order = ORDER) {
  select.replaceChildren(...order.map((right) => element("option", { value: right, textContent: RIGHTS[right] })));
  select.value = chosen;
}

// Everybody, and all who come by one link.
const areSeveral = (name) => name === EVERYONE || isLink(name);

function shown(name) {
  if (isLink(name)) return WORDS.guestLink(name.slice(-LETTERS));
  return name === EVERYONE ? LABELS.everyone : fullName(name);
}

// The display name, and the name that a right is given to.
function whoIs(name) {
  const display = areSeveral(name) ? null : displayOf(name);
  if (!display) return element("td", { textContent: shown(name) });
  return element("td", {}, display, " ", element("span", { className: "quiet", textContent: accountOf(name) }));
}

export class RightsBox {
  constructor(session, onGranted) {
    Object.assign(this, { session, onGranted, drawn: "", heir: null, takesGuests: null, closing: new CloseQuestion(this) });
    $("pad-address").addEventListener("focus", () => $("pad-address").select());
    $("grant").addEventListener("submit", (event) => {
      event.preventDefault();
      this.give($("grant-name").value, $("grant-right").value);
    });
    $("invite").addEventListener("submit", (event) => { event.preventDefault(); this.invite($("invite-right").value); });
    $("invite-link").addEventListener("focus", () => $("invite-link").select());
    $("invite-copy").addEventListener("click", () => this.copy());
    $("rights-box").addEventListener("close", () => this.showLink(""));
    $("hand-no").addEventListener("click", () => {
      const label = WORDS.handTo(shown(this.heir));
      this.ask(null);
      this.focus(label);
    });
    $("hand-yes").addEventListener("click", () => this.hand(this.heir));
  }

  async open() {
    say($("grant-error"), "");
    this.ask(null);
    this.closing.ask(false);
    choices($("grant-right"), $("grant-right").value || "write");
    choices($("invite-right"), $("invite-right").value || FOR_GUESTS[0], FOR_GUESTS);
    this.showLink("");
    this.drawn = "";
    this.draw();
    $("pad-address").value = new URL(`#${this.session.pad.name}`, location.href).href;
    $("rights-box").showModal();
    if (this.session.isShut) return; // nothing is told to who was put out
    try { await this.session.readRights(); } catch (error) { say($("grant-error"), reason(error)); }
  }

  draw() {
    const { isClosed, rights, right } = this.session, key = JSON.stringify([isClosed, rights, right, rights.map(([name]) => displayOf(name))]);
    if (key === this.drawn) return;
    this.drawn = key;
    $("grant").hidden = $("invite").hidden = !this.mayGive;
    this.closing.draw();
    const isOpen = rights.some(([name]) => name === EVERYONE), rows = rights.map((entry, k) => this.row(entry, k === 0));
    if (this.mayGive && !isOpen) rows.splice(1, 0, this.row([EVERYONE, "none"], false));
    const list = $("rights-list"), held = list.contains(document.activeElement) ? document.activeElement.getAttribute("aria-label") : null;
    list.replaceChildren(...rows);
    this.focus(held);
  }

  // The keyboard is on what has this label, in the rows that were drawn anew.
  focus(label) { if (label) [...$("rights-list").querySelectorAll("select, button")].find((one) => one.getAttribute("aria-label") === label)?.focus(); }

  // On a closed pad no right is changed.
  get mayGive() { return this.session.right === "own" && !this.session.isClosed; }

  // The right of the owner stays, but the owner can hand the pad over. The right of anybody else can be changed by those who
  // may own it.
  row([name, right], isOwner) {
    const cell = element("td"), { session } = this, isKeeper = session.rights[0]?.[0] === session.name;
    if (isOwner || !this.mayGive) cell.append(RIGHTS[right], isOwner ? ` (${WORDS.inCharge})` : "");
    else {
      cell.append(this.choice(name, right));
      if (isKeeper && !areSeveral(name) && !isGuest(name)) cell.append(" ", this.heirButton(name));
    }
    return element("tr", {}, whoIs(name), cell);
  }

  choice(name, right) {
    const select = element("select");
    choices(select, right, areSeveral(name) || isGuest(name) ? FOR_SEVERAL : ORDER);
    select.setAttribute("aria-label", WORDS.rightOf(shown(name)));
    select.addEventListener("change", () => this.give(name, select.value));
    return select;
  }

  heirButton(name) {
    const button = element("button", { type: "button", className: "small", textContent: LABELS.handOver });
    button.setAttribute("aria-label", WORDS.handTo(shown(name)));
    button.addEventListener("click", () => this.ask(name));
    return button;
  }

  // Asks whether the pad is to be handed over to an author; to nobody takes the question back.
  ask(name) {
    this.heir = name;
    $("hand").hidden = !name;
    if (!name) return;
    $("hand-question").textContent = WORDS.handQuestion(shown(name));
    $("hand-yes").focus();
  }

  async hand(name) {
    this.ask(null);
    await this.change(() => this.session.hand(name), WORDS.handed(shown(name)));
  }

  async give(name, right) {
    if (await this.change(() => this.session.grant(name, right), WORDS.granted(shown(name), right))) fill($("grant-name"), "");
  }

  // ---- links for guests

  // A link is shown here and now alone: neither the server nor this browser keeps its secret.
  async invite(right) {
    const { name } = this.session.pad;
    let secret = "";
    const make = async () => {
      await this.askForGuests();
      secret = await this.session.invite(right);
    };
    const why = (error) => (REFUSED.includes(error.reply?.code) ? WORDS.noGuests : reason(error));
    if (!(await this.change(make, WORDS.invited, why))) return;
    this.showLink(new URL(`#guest=${name}.${secret}`, location.href).href);
    $("invite-link").focus();
  }

  // A server that takes no guests makes links that nobody can use. So a connection of its own asks, once, as a guest would. Where a
  // proxy logs in whoever connects, that is not told.
  async askForGuests() {
    const { open, clock } = this.session, wire = new Wire(open, { clock });
    if (this.takesGuests) return;
    try {
      await wire.connect();
      const reply = await wire.ask({ do: "guest", token: `${newSecret()}.${newSecret()}` });
      if (REFUSED.includes(reply.code)) throw new Refused(reply);
      this.takesGuests = true;
    } finally { wire.close(); }
  }

  showLink(address) {
    $("invited").hidden = !address;
    $("invite-link").value = address;
  }

  async copy() {
    $("invite-link").select();
    try { await navigator.clipboard.writeText($("invite-link").value); } catch { document.execCommand("copy"); }
    this.onGranted(WORDS.copied);
  }

  // Tells whether the server has made the change, and says what came of it.
  async change(make, news, why = reason) {
    say($("grant-error"), "");
    try {
      await make();
      this.onGranted(news);
      return true;
    } catch (error) {
      say($("grant-error"), why(error));
      this.drawn = "";
      this.draw();
      return false;
    }
  }
}
