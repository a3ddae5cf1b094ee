// What the package does over a server of any content, which ZANSTORE_HOST and ZANSTORE_PORT name: node --test
import assert from "node:assert/strict";
import { randomUUID } from "node:crypto";
import { after, beforeEach, describe, test } from "node:test";
import { Refused, Store, Userset, absent, exists, newest, place, since, start, tuple, user } from "zanstore";

const { ZANSTORE_HOST: host = "127.0.0.1", ZANSTORE_PORT: port } = process.env;

test("texts", () => {
  assert.equal(tuple("doc:a", "viewer", "ann"), "doc:a#viewer@ann");
  assert.equal(tuple("doc:a", "viewer", new Userset("group:b", "member")), "doc:a#viewer@group:b#member");
  for (const wrong of ["group:b#member", "ann@x", "", "a b", "a\n", 7]) assert.throws(() => user(wrong), TypeError);
  assert.equal(start(1), "AQAAAAAAAAAAAQAAAAAAAAAA");
  assert.equal(place(start(7n)), 0);
  assert.throws(() => newest(start(1), start(2)), TypeError);
});

describe("a store", { skip: port ? false : "ZANSTORE_PORT is not set" }, () => {
  const store = new Store(host, Number(port));
  let doc, group, lock, inner, outer, token, viewer;

  beforeEach(async () => {
    const id = randomUUID();
    [doc, group] = [`doc:${id}`, `group:${id}`];
    viewer = (who) => tuple(doc, "viewer", who);
    [lock, inner, outer] = [tuple(doc, "lock", "lock"), tuple(group, "member", "ann"), viewer(new Userset(group, "member"))];
    token = await store.write({ touch: [outer, inner, lock] });
  });
  after(() => store.close());

  test("checks", async () => {
    assert.equal((await store.check(viewer("ann"), { at_least: token })).member, true);
    await store.write({ remove: [inner] });
    const names = Array(100).fill(["ann", "bob"]).flat();
    const many = await store.checkMany(names.map(viewer), { exact: token });
    assert.deepEqual(many, { members: names.map((name) => name === "ann"), zookie: token });
    assert.deepEqual((await store.checkMany([viewer("ann")])).members, [false]);
    await assert.rejects(store.checkMany([]), TypeError);
  });

  test("why", async () => {
    assert.deepEqual((await store.why(viewer("ann"), { at_least: token })).path, [outer, inner]);
    const none = await store.why(viewer("bob"), { exact: token });
    assert.deepEqual(none, { path: null, walked: [`${doc}#viewer`, `${group}#member`], zookie: token });
    assert.deepEqual((await store.why(outer)).path, [outer]);
    await assert.rejects(store.why(doc), TypeError);
  });

  test("writes", async () => {
    const before = start(Buffer.from(token, "base64").readBigUInt64BE(2));
    for (const condition of [absent(outer), exists(viewer("bob")), since(lock, before)]) {
      await assert.rejects(store.write({ remove: [outer], conditions: [condition] }), (fault) => fault instanceof Refused && fault.number === 9);
    }
    const later = await store.write({ touch: [viewer("bob"), lock], conditions: [exists(outer), since(lock, token)] });
    assert.equal(newest(token, later), later);
    assert.deepEqual((await store.read([`${doc}#viewer`, group], { at_least: later })).sets, [[viewer("bob"), outer], [inner]]);
  });

  test("edits at once", async () => {
    const other = new Store(host, Number(port));
    const edit = (one, name) => one.edit(doc, lock, (rows) => ({ touch: [viewer(`${name}${rows.length}`)] }));
    await Promise.all([..."abc"].flatMap((name) => [edit(store, name), edit(other, name.toUpperCase())]));
    await other.close();
    const [rows] = (await store.read([`${doc}#viewer`])).sets;
    assert.deepEqual(rows.filter((row) => row !== outer).map((row) => row.at(-1)).sort(), [..."234567"]);
  });

  test("watches", async () => {
    const later = await store.write({ touch: [viewer("bob")] });
    const found = [];
    for await (const { events } of store.watch(token, ["doc", "group"], 0)) {
      if (events.length === 0) break;
      found.push(...events.filter((event) => event.tuple.startsWith(doc)));
    }
    assert.deepEqual(found, [{ change: "touch", place: place(later), tuple: viewer("bob") }]);
  });
});
