// The dialog that goes on in a new pad, since a pad is full.
import { reason } from "./enter.js";
import { $, fill, say } from "./page.js";
import { WORDS } from "./words.js";

export class GoOnBox {
  // `onDone` is called when the session has the new pad, and `onGone` when it has none any more.
  constructor(session, { onDone, onGone }) {
    Object.assign(this, { session, onDone, onGone });
    $("go-on").addEventListener("submit", (event) => { event.preventDefault(); this.goOn(); });
    $("go-on-cancel").addEventListener("click", () => $("go-on-box").close());
  }

  open() {
    const [, stem, last] = this.session.pad.name.match(/^(.*?)(?:-(\d+))?$/);
    fill($("go-on-name"), `${stem.slice(0, 28)}-${Number(last ?? 1) + 1}`);
    say($("go-on-error"), "");
    $("go-on-box").showModal();
  }

  async goOn() {
    const { pad } = this.session;
    try {
      await this.session.goOnIn($("go-on-name").value, WORDS.continues(pad.name, pad.rev));
    } catch (error) {
      say($("go-on-error"), reason(error));
      if (!this.session.pad) { $("go-on-box").close(); this.onGone(); }
      return;
    }
    $("go-on-box").close();
    this.onDone();
  }
}
