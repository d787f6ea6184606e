// Short looks at pads that need not be open, while pads are opened and connections break. Pages over a simulated network, in
// simulated time.
//
//     node tests/web/glances_test.mjs
//
// The last line is `N passed, M failed`.
import { glance } from "../../web/glance.js";
import { dice as makeDice } from "./dice.mjs";
import { Tally } from "./pages.mjs";
import { World } from "./world.mjs";

const tally = new Tally(), json = JSON.stringify, PADS = ["p", "q", "r"];
const same = (name, have, want) => tally.tell(name, json(have) === json(want), json(have) === json(want) ? "" : `${json(have)}, not ${json(want)}`);

// A page of ann's on the pad p, beside two more of hers, and another author's pad.
async function start(seed = 1, delay = 20) {
  const world = new World({ seed, delay }), [ann] = await world.open("text of p", "ann"), { clock } = world;
  for (const pad of ["q", "r"]) {
    await clock.finish(ann.session.create(pad));
    ann.session.pad.type([{ insert: `text of ${pad}`, author: "ann@1" }]);
    await world.settle();
  }
  await clock.finish(ann.session.join("p"));
  const bob = await world.page("bob", "b", { how: "create" });
  return { world, clock, session: ann.session, bob };
}

const look = (session, pad) => glance(session, pad, { do: "text" }).then(({ text }) => text, (error) => error.reply?.code ?? error.constructor.name);

async function one() {
  const { world, clock, session } = await start();
  same("a pad that is not open is read", await clock.finish(look(session, "q")), "text of q");
  same("in a visit that ends", [world.present("q"), world.present("p")], [[], ["ann@1"]]);
  same("the open pad is read in its own visit", await clock.finish(look(session, "p")), "text of p");
  same("which goes on", [world.present("p"), session.pad.name, session.isLost], [["ann@1"], "p", false]);
  same("a pad without a right is refused", await clock.finish(look(session, "b")), 312);
  same("so is one that there is not", await clock.finish(look(session, "absent")), 300);
  const [first, , second] = await clock.finish(Promise.all([look(session, "q"), session.join("q"), look(session, "q")]));
  same("a pad that is opened meanwhile is read before and after", [first, second, session.pad.name], ["text of q", "text of q", "q"]);
  same("and its visit goes on", [world.present("q"), world.present("p")], [["ann@1"], []]);
  world.end();
}

// Looks and entries at random, over a network whose connections break: each look tells the pad's text or that there is no
// connection, and in the end one visit is left, on the pad that is open.
async function many(rounds) {
  const seen = { told: 0, lost: 0, entered: 0 };
  const note = (text, pad, session, round) => {
    if (text === `text of ${pad}`) seen.told++;
    else if (text === "Lost" || (text === 310 && session.pad?.name === pad)) seen.lost++; // the open pad is not joined again yet
    else throw new Error(`round ${round}: ${pad}: ${text}`);
  };
  for (let round = 1; round <= rounds; round++) {
    const dice = makeDice(round), { world, clock, session } = await start(round, () => 1 + dice(120)), looks = [];
    for (let step = 0; step < 40; step++) {
      const pad = PADS[dice(3)];
      if (dice(3)) looks.push(look(session, pad).then((text) => { note(text, pad, session, round); }));
      else session.join(pad).then(() => { seen.entered++; }, () => {});
      if (dice(25) === 0) world.network.of(world.pages[0])?.break(dice(20) * 1000, dice(2) === 0);
      await world.advance(dice(300));
    }
    await clock.finish(Promise.all(looks));
    await world.advance(90000);
    const { name } = session.pad ?? {}, visits = PADS.filter((pad) => world.present(pad).length);
    if (json(visits) !== json([name].filter(Boolean)) || world.present(name ?? "p").length > 1) throw new Error(`round ${round}: ${json(visits)} are visited, and ${name} is open`);
    world.end();
  }
  tally.tell(`looks at random: ${json(seen)}`, seen.told > 100 && seen.lost > 10 && seen.entered > 50);
}

await tally.run([one, () => many(60)]);
