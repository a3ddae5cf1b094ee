// Has a store do what standard input says, and prints what came of it (../../trials.py): trial.js HOST PORT MILLISECONDS
import { readFileSync } from "node:fs";
import { setTimeout as pause } from "node:timers/promises";
import { NoAnswer, Refused, Store, Userset, newest, place, tuple } from "../src/index.js";

const ROUNDS = 100;
const [host, port, limit] = process.argv.slice(2);
const store = new Store(host, Number(port), { timeout: Number(limit) });

// How many answers are wrong where many ask the store at a time, each with a tuple of its own: that of every other one is there.
async function shared(tuples) {
  let wrong = 0;
  const ask = async (text, number) => {
    for (let round = 0; round < ROUNDS; round++) wrong += (await store.check(text)).member !== (number % 2 === 0);
  };
  await Promise.all(tuples.map(ask));
  return wrong;
}

async function explained(text) {
  const { path, walked } = await store.why(text);
  return path === null ? `none: ${walked.join(" ")}` : path.join(" ");
}

// All events up to the first answer without one.
async function watched(token, ...namespaces) {
  const found = [];
  for await (const { events } of store.watch(token, namespaces, 0)) {
    if (events.length === 0) return found.join(" ");
    found.push(...events.map((event) => event.place + event.change[0]));
  }
}

const commands = {
  write: async (text) => (await store.write({ touch: [text] })) && "wrote",
  check: async (text) => (await store.check(text)).member,
  "check-many": async (...tuples) => (await store.checkMany(tuples)).members.join(" "),
  why: explained,
  watch: watched,
  shared: (...tuples) => shared(tuples),
  "give-up": (text) => Promise.race([store.check(text), pause(200, "given up")]),
  close: async () => (await store.close()) ?? "closed",
  // Nothing else runs meanwhile, as where the thread has work to do.
  pause: (time) => Atomics.wait(new Int32Array(new SharedArrayBuffer(4)), 0, 0, Number(time)) && "paused",
  tuple,
  userset: (object, relation, ...who) => tuple(object, relation, new Userset(...who)),
  place,
  newest,
};

for (const line of readFileSync(0, "utf8").split("\x1e")) {
  const [command, ...words] = line.split("\x1f");
  try {
    console.log(String(await commands[command](...words)));
  } catch (fault) {
    const told = [[Refused, `refused ${fault.message}`], [NoAnswer, "no answer"], [TypeError, "not a text"], [Error, "gone"]];
    console.log(told.find(([kind]) => fault instanceof kind)[1]);
  }
}
await store.close();
