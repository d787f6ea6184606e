// The dialog that logs in again, once there is a connection, with a pad that was opened without one.
import { named } from "./authors.js";
import { reason } from "./enter.js";
import { guestNamed } from "./guest_secrets.js";
import { doubt, forgetLogIn, stay, stayAsGuest, stayed } from "./log_in_link.js";
import { $, say } from "./page.js";
import { WORDS } from "./words.js";

export class LogInAgain {
  constructor(session) {
    this.session = session;
    $("again").addEventListener("submit", (event) => { event.preventDefault(); this.logIn(); });
    $("again-cancel").addEventListener("click", () => $("again-box").close());
  }

  // Asks for the token, unless there is nothing to type: that of a link is given, and that of a guest is known. Resolves to whether the
  // author is logged in.
  async ask(token) {
    this.open(token);
    return (token || guestNamed(this.session.name)) ? this.logIn() : false;
  }

  open(token = this.token) {
    say($("again-who"), WORDS.logInAs(named(this.session.me)));
    say($("again-error"), "");
    $("again-name").value = this.session.name;
    $("again-token").value = token;
    $("again-stay").checked = $("stay").checked;
    if (!$("again-box").open) $("again-box").showModal();
  }

  // That of the tab, if it has stayed this author's, and that of a guest that this browser was.
  get token() {
    const login = stayed(), guest = guestNamed(this.session.name);
    if (guest) return `${guest.link}.${guest.own}`;
    return login?.name === this.session.name ? login.token : "";
  }

  async logIn() {
    const token = $("again-token").value;
    say($("again-error"), "");
    $("again-go").disabled = true;
    try { await this.session.logInAgain(token); } catch (error) {
      doubt(error);
      say($("again-error"), reason(error));
      $("again-token").select();
      return false;
    } finally { $("again-go").disabled = false; }
    $("stay").checked = $("again-stay").checked;
    const guest = guestNamed(this.session.name);
    if (guest) stayAsGuest(guest);
    else if ($("stay").checked) stay(this.session.name, token);
    else forgetLogIn();
    $("again-token").value = "";
    $("again-box").close();
    return true;
  }
}
