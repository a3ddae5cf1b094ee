#!/usr/bin/env node
// Shows each call over a server of store 1: tour.js HOST PORT
import { Store, Userset, absent, newest, start, tuple } from "../src/index.js";

async function main(store) {
  const editor = tuple("doc:plan", "editor", "bob");
  const token = await store.write({
    touch: [tuple("group:staff", "member", "ann"), tuple("doc:plan", "viewer", new Userset("group:staff", "member"))],
  });
  console.log("wrote", token);
  for (const id of ["ann", "bob"]) console.log(`${id} may view:`, (await store.check(tuple("doc:plan", "viewer", id), { at_least: token })).member);
  const later = await store.edit("doc:plan", tuple("doc:plan", "lock", "lock"), () => ({ touch: [editor] }));
  console.log("edited", later);
  console.log("now:", ...(await store.read(["doc:plan"], { at_least: newest(token, later) })).sets[0]);
  console.log("then:", ...(await store.read(["doc:plan"], { exact: token })).sets[0]);
  await store.write({ remove: [editor], conditions: [absent(editor)] }).catch((refused) => console.log("refused", refused.message));
  for await (const { events } of store.watch(start(1), ["doc", "group"])) {
    for (const event of events) console.log(event.place, event.change, event.tuple);
    if (events.length === 0) break;
  }
}

const [host, port, more] = process.argv.slice(2);
if (more !== undefined || !/^\d+$/.test(port ?? "") || Number(port) > 65535) {
  console.error("usage: tour.js HOST PORT");
  process.exit(2);
}
const store = new Store(host, Number(port));
try {
  await main(store);
} catch (fault) {
  console.error(`tour.js: ${fault.message || fault.code}`); // several addresses that were tried have a code alone
  process.exitCode = 1;
}
await store.close();
