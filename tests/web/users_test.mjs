// Who a page is where a proxy has logged its user in: what `hello` and /me say, also after a connection was lost; and a page of a guest.
//
//     node tests/web/users_test.mjs
//
// The last line is `N passed, M failed`.
import { Connection } from "../../clients/js/src/connection.js";
import { Lost } from "../../clients/js/src/errors.js";
import { author, user } from "../../web/user.js";
import { Tally } from "./pages.mjs";

const tally = new Tally(), { tell } = tally;

// A server behind a proxy that has logged `user` in, or nobody, and a connection of a page to it.
function begin(user) {
  const server = { user, hellos: [], channels: [], takesGuests: true };
  const open = () => {
    const channel = {
      signedIn: server.user,
      listen(handlers) { Object.assign(this, handlers); queueMicrotask(() => this.onopen()); },
      send(text) {
        const request = JSON.parse(text);
        server.hellos.push(request);
        const reply = this.signedIn ? { code: 202, error: "HaveSession", ok: false }
          : request.do === "guest" && server.takesGuests ? { author: `guest-${request.token}@1`, ok: true }
          : request.do === "hello" && request.token === "t" ? { author: `${request.name}@1`, ok: true } : { code: 201, error: "BadToken", ok: false };
        queueMicrotask(() => this.onmessage({ data: JSON.stringify(reply) }));
      },
      close() {},
    };
    server.channels.push(channel);
    return channel;
  };
  const page = new Connection({ open, random: () => 0, user: async () => (server.user ? `${server.user}@1` : null) });
  return { server, page };
}

const refusal = async (promise) => promise.then(() => null, (error) => error.reply?.code ?? error.message);
const over = (page) => new Promise((done) => { page.onOver = done; });

await tally.run([
  async () => {
    const { page } = begin("ann");
    await page.logIn("ann", "");
    tell("a user needs no token", page.me === "ann@1" && page.isUser, `${page.me} ${page.isUser}`);
  },
  async () => {
    const { page } = begin("ann");
    tell("nobody is another user, whatever the token", (await refusal(page.logIn("bob", "t"))) === 202 && page.login === null && page.me === "", page.me);
  },
  async () => {
    const { page } = begin(null);
    tell("without a proxy, an empty token is wrong", (await refusal(page.logIn("ann", ""))) === 201 && !page.isUser);
    await page.logIn("ann", "t");
    tell("and a right one logs in", page.me === "ann@1" && !page.isUser, `${page.me} ${page.isUser}`);
  },
  async () => {
    const { server, page } = begin("ann");
    await page.logIn("ann", "");
    server.channels[0].onclose();
    await new Promise((done) => { page.onState = () => { if (!page.isLost) done(); }; });
    tell("a user is back after the connection was lost", page.me === "ann@1" && server.hellos.length === 2, page.me);
  },
  async () => {
    const { server, page } = begin("ann"), { user: who } = page;
    let asked = 0;
    page.user = async () => { if (++asked === 2) throw new Lost("no answer"); return who(); };
    await page.logIn("ann", "");
    server.channels[0].onclose();
    await new Promise((done) => { page.onOver = done; page.onState = () => { if (!page.isLost) done(); }; });
    tell("also where the proxy did not answer at first", page.me === "ann@1" && !page.isOver && !page.isLost && asked === 3, `${page.me}, asked ${asked} times`);
  },
  async () => {
    const answers = [[200, '{"author":"ann@1"}'], [200, "{}"], [404, ""], [403, "Who is this?"], [502, ""], [503, ""]], said = [];
    for (const [status, body] of answers) {
      globalThis.fetch = async () => new Response(body, { status });
      said.push(await author().catch((error) => error.constructor.name));
    }
    tell("a proxy that does not answer has logged nobody else in", said.join() === "ann@1,,,,Lost,Lost", said.join());
    globalThis.fetch = async () => { throw new TypeError("no network"); };
    tell("nor has one that is not reached", (await author().catch((error) => error.constructor.name)) === "Lost");
    globalThis.fetch = async () => new Response("Who is this?", { status: 403 });
    tell("a user who is nobody is told why", (await user()).words === "Who is this?");
  },
  async () => {
    const { server, page } = begin("ann"), ends = over(page);
    await page.logIn("ann", "");
    server.user = "bob";
    server.channels[0].onclose();
    const error = await ends;
    tell("where somebody else has logged in at the proxy, the page ends", error.reply?.code === 202 && page.isOver && page.me === "ann@1", `${error} ${page.me}`);
  },
  async () => {
    const { server, page } = begin("ann"), ends = over(page);
    await page.logIn("ann", "");
    server.user = null;
    server.channels[0].onclose();
    const error = await ends;
    tell("and so it does where nobody is logged in there any more", error.reply?.code === 201 && page.isOver, String(error));
  },
  async () => {
    const { server, page } = begin(null);
    await page.logInAsGuest("secrets");
    server.channels[0].onclose();
    await new Promise((done) => { page.onState = () => { if (!page.isLost) done(); }; });
    const asked = JSON.stringify(server.hellos);
    tell("a guest logs in as one, also after the connection was lost", page.me === "guest-secrets@1" && asked === '[{"do":"guest","token":"secrets"},{"do":"guest","token":"secrets"}]', asked);
  },
  async () => {
    const { server, page } = begin(null), ends = over(page);
    await page.logInAsGuest("secrets");
    server.takesGuests = false;
    server.channels[0].onclose();
    const error = await ends;
    tell("where the server takes no guests any more, the page ends", error.reply?.code === 201 && page.isOver, String(error));
  },
  async () => {
    const { page } = begin("ann");
    tell("a user of a proxy is no guest", (await refusal(page.logInAsGuest("secrets"))) === 202 && page.login === null && page.me === "", page.me);
  },
]);
