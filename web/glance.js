// A short look at a pad that need not be open: what the author may ask of it, in a visit of its own, which ends before a pad
// is opened. Its three requests are sent at once, so that hardly anybody sees the author come and go.
import { Refused } from "../clients/js/src/errors.js";

const NOTHING = () => {};

// Resolves to the reply to a request about the pad of this name.
export function glance(session, pad, request) {
  const look = session.lastEntry.then(() => (session.pad?.name === pad ? session.call({ ...request, pad }) : visit(session, pad, request)));
  session.lastEntry = look.then(NOTHING, NOTHING);
  return look;
}

async function visit(session, pad, request) {
  const replies = await Promise.all([{ do: "join" }, request, { do: "leave" }].map((one) => session.ask({ ...one, pad })));
  const refused = replies.find(({ ok }) => !ok);
  if (refused) throw new Refused(refused);
  return replies[1];
}
