// Who the author is by the log-in of a proxy in front of the server, if there is one: the server says it at /me.
import { Lost } from "../clients/js/src/errors.js";

const NO_ANSWER = { author: null, words: "", isUnknown: true };

// The author, such as `ann@1`, or null; and why a user of the proxy is none, in words of the server.
export async function user() {
  try {
    const response = await fetch("/me", { cache: "no-store" });
    if (response.status === 403) return { author: null, words: (await response.text()).trim() };
    if (response.status >= 500) return NO_ANSWER;
    const { author = null } = response.ok ? await response.json() : {};
    return { author, words: "" };
  } catch { return NO_ANSWER; }
}

// The same where the page connects again. Where no answer came, the connection is lost, and nobody else has logged in.
export async function author() {
  const { author, isUnknown } = await user();
  if (isUnknown) throw new Lost("not connected");
  return author;
}
