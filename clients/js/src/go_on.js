// A pad that is full goes on in a new one.
import { LIMITS } from "./limits.js";

// Makes a new pad with the text of the open one behind a first line, with the same rights, and leaves the open one. Comments
// that could not be sent are kept for the author.
export async function goOnIn(session, name, firstLine) {
  const { pad, rights, comments } = session, characters = Array.from(`${firstLine}\n\n${pad.text}`);
  await session.call({ do: "create", pad: name });
  for (let at = 0, rev = 0; at < characters.length; at += LIMITS.edit) {
    const text = characters.slice(at, at + LIMITS.edit).join("");
    rev = (await session.call({ do: "insert", pad: name, rev, at, text })).now;
  }
  for (const [author, right] of rights) {
    if (author !== session.name && right !== "none") await session.call({ do: "grant", pad: name, author, right });
  }
  await session.call({ do: "leave", pad: name });
  for (const text of comments.unsent.giveUp()) session.kept.add(text);
  await session.leave(true); // with all that is kept of it: the words go on in the new one
  return session.join(name);
}
