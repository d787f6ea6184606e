// Says below everything else if the server that answers was built without proofs: its file unproved.txt has a text then. It is
// asked again after each reconnection, since a proved server may have taken over.
import { $, say } from "./page.js";
import { WORDS } from "./words.js";

export async function tellIfUnproved() {
  try {
    const response = await fetch("/unproved.txt");
    say($("unproved"), response.ok && (await response.text()).trim() ? WORDS.unproved : "");
  } catch { /* The connection is lost: it is asked again after the next one. */ }
}
