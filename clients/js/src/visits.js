// How a session joins a pad.
import { NOT_JOINED } from "./connection.js";

// The server does not know the old visit.
const NO_VISIT = 329;

// The number of a new visit. Where somebody else has ended one on this connection, that takes another connection.
export async function joinFirst(session, how, pad) {
  const join = async () => (await session.call({ do: how, pad })).visit;
  try { return await join(); } catch (error) {
    if (error.reply?.code !== NOT_JOINED) throw error;
    await session.renew();
    return join();
  }
}

// A new visit instead of the last one, of which the server tells what it has made, if it knows it.
export async function joinInstead(session, { name: pad, visit: instead }) {
  try { return await session.call({ do: "join", pad, instead }); } catch (error) {
    if (error.reply?.code !== NO_VISIT) throw error;
    return session.call({ do: "join", pad });
  }
}
