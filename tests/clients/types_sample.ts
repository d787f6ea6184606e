// What a user of the types writes. tsc --strict takes it, and refuses each line behind @ts-expect-error.
import { Delta, History, PadClosed, PadRequests, Refused, Session, connect, count, delta, isGuest, isLink, newSecret, tcp } from "vindrughe";
import { bindTextarea } from "vindrughe/textarea";
import { bindCodeMirror } from "vindrughe/codemirror5";

export async function follow(token: string): Promise<string> {
  const session: Session = await connect("tls://pads.example:7878", { name: "ann", token, open: tcp("tls://pads.example", { ca: "" }) });
  const pad = await session.join("minutes"), [first] = await session.pads();
  const end: () => void = session.on("receive", (change: Delta) => { pad.replace(delta.move(3, change), 0, first.name); });
  session.on("revision", ({ from, to, isOwn }) => { if (isOwn) console.log(to - from); });
  session.on("refused", (reply, words) => console.log(reply.code, words.length));
  pad.type([{ keep: 3 }, { drop: 2 }, { insert: "X" }]);
  const name = await session.comment(0, 2, "why?");
  await session.resolve(name);
  const { entries } = await pad.call({ do: "entries", from: 1, count: 100 }), { changes } = await pad.call({ do: "changes", rev: 1 });
  const { author }: PadRequests["entries"]["reply"]["entries"][0] = entries[0], { runs } = await new History(pad).at(3);
  const { at = 0 } = (await pad.call({ do: "entries", from: 1, count: 1, times: true })).entries[0], { rev } = await pad.call({ do: "birth", rev: 1, at: 0 });
  console.log(new Date(at), rev, (await new History(pad).birth(pad.rev, 0)).time);
  await new History(pad).mark(3, "Approved");
  const { marks } = await pad.call({ do: "marks" }), [{ author: by, text, time }] = await new History(pad).marks();
  console.log(by + text, time - marks[0].at);
  const secret: string = await session.invite("comment"), guest = await connect("ws://a/socket", { guest: `${secret}.${newSecret()}` });
  await guest.introduce("Ben Müller");
  const [{ author: whose, name: called }] = await session.guests(), { guests } = await pad.call({ do: "guests" });
  if (isGuest(whose) && !isLink(whose)) console.log(called + guests[0].name, guest.isGuest);
  await session.close();
  const { closed = false } = await pad.call({ do: "rights" });
  if (session.isClosed && closed && first.isClosed) await session.reopen();
  if (guest.state === "closed") guest.hurry();
  await guest.join("minutes").catch((error: unknown) => { if (error instanceof PadClosed) console.log(error.code, error.reply.error); });
  for (const change of changes) if (change[0] === "insert") console.log(change[2].length);
  for (const [who, units] of runs) console.log(who.length + units);
  if (session.state === "over" && session.endedBy instanceof Refused) console.log(session.endedBy.code);
  end();
  // @ts-expect-error: no such event
  session.on("moved", () => {});
  // @ts-expect-error: no such request
  await pad.call({ do: "read" });
  // @ts-expect-error: the request lacks its count
  await pad.call({ do: "entries", from: 1 });
  // @ts-expect-error: the request lacks its place
  await pad.call({ do: "birth", rev: 1 });
  // @ts-expect-error: the request lacks its text
  await pad.call({ do: "mark", rev: 1 });
  // @ts-expect-error: no such right
  await session.grant("bob", "edit");
  // @ts-expect-error: a link gives no right to own
  await session.invite("own");
  // @ts-expect-error: a guest has a token alone
  await connect("ws://a/socket", { guest: "a.b", name: "ann", token });
  // @ts-expect-error: a step keeps, drops or inserts
  pad.type([{ skip: 3 }]);
  // @ts-expect-error: what is shown is read
  pad.text = "";
  bindTextarea(document.createElement("textarea"), session)();
  bindCodeMirror({}, session);
  return `${author} ${count(pad.text)}`;
}
