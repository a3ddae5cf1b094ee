"""What the package does over a server of any content, which ZANSTORE_HOST and ZANSTORE_PORT name: python -m unittest discover tests"""

import asyncio
import itertools
import os
import threading
import unittest
import uuid

from zanstore import AsyncStore, Changes, Refused, Store, absent, exists, newest, place, since, start, tuple_of, user, userset
from zanstore.texts import parts

HOST, PORT = os.environ.get("ZANSTORE_HOST", "127.0.0.1"), os.environ.get("ZANSTORE_PORT")


class Texts(unittest.TestCase):
    def test_tuple_of(self):
        self.assertEqual(tuple_of("doc:a", "viewer", "ann"), "doc:a#viewer@ann")
        self.assertEqual(tuple_of("doc:a", "viewer", userset("group:b", "member")), "doc:a#viewer@group:b#member")
        for wrong in ("group:b#member", "ann@x", "", "a b", "a\n"):
            self.assertRaises(ValueError, user, wrong)

    def test_tokens(self):
        self.assertEqual((start(1), place(start(7)), parts(start(7))), ("AQAAAAAAAAAAAQAAAAAAAAAA", 0, (7, 0)))
        self.assertRaises(ValueError, newest, start(1), start(2))


@unittest.skipUnless(PORT, "ZANSTORE_PORT is not set")
class Stores(unittest.TestCase):
    def setUp(self):
        self.id = uuid.uuid4().hex
        self.doc, self.group = f"doc:{self.id}", f"group:{self.id}"
        self.lock, self.inner = tuple_of(self.doc, "lock", "lock"), tuple_of(self.group, "member", "ann")
        self.outer = tuple_of(self.doc, "viewer", userset(self.group, "member"))
        self.store = Store(HOST, int(PORT))
        self.addCleanup(self.store.close)
        self.token = self.store.write([self.outer, self.inner, self.lock])

    def viewer(self, name):
        return tuple_of(self.doc, "viewer", name)

    def test_checks(self):
        self.assertTrue(self.store.check(self.viewer("ann"), at_least=self.token))
        self.assertFalse(self.store.check(self.viewer("bob"), exact=self.token))
        self.store.write(delete=[self.inner])
        names = ["ann", "bob"] * 100
        many = self.store.check_many([self.viewer(name) for name in names], exact=self.token)
        self.assertEqual((many.members, many.zookie), ([name == "ann" for name in names], self.token))
        self.assertEqual(self.store.check_many([self.viewer("ann")]).members, [False])
        self.assertRaises(TypeError, bool, many)
        self.assertRaises(ValueError, self.store.check_many, [])

    def test_why(self):
        found = self.store.why(self.viewer("ann"), at_least=self.token)
        self.assertEqual(found.path, [self.outer, self.inner])
        none = self.store.why(self.viewer("bob"), exact=self.token)
        self.assertEqual((none.path, none.walked), (None, [f"{self.doc}#viewer", f"{self.group}#member"]))
        self.assertFalse(none)
        self.assertEqual(self.store.why(tuple_of(self.doc, "viewer", userset(self.group, "member"))).path, [self.outer])
        self.assertRaises(ValueError, self.store.why, self.doc)

    def test_writes(self):
        for condition in (absent(self.outer), exists(self.viewer("bob")), since(self.lock, start(parts(self.token)[0]))):
            with self.assertRaises(Refused) as refused:
                self.store.write(delete=[self.outer], conditions=[condition])
            self.assertEqual((refused.exception.number, refused.exception.name), (9, "Precondition"))
        later = self.store.write([self.viewer("bob"), self.lock], conditions=[exists(self.outer), since(self.lock, self.token)])
        self.assertEqual(newest(self.token, later), later)
        sets, _ = self.store.read(f"{self.doc}#viewer", self.group, at_least=later)
        self.assertEqual(sets, [[self.viewer("bob"), self.outer], [self.inner]])

    def test_edits_of_threads(self):
        """Each thread's edit stands, as it is made anew where another came before it."""

        def edit(name):
            self.store.edit(self.doc, self.lock, lambda rows: Changes([self.viewer(f"{name}{len(rows)}")]))

        threads = [threading.Thread(target=edit, args=(name,)) for name in "abcdef"]
        for thread in threads:
            thread.start()
        for thread in threads:
            thread.join()
        (rows,), _ = self.store.read(f"{self.doc}#viewer")
        self.assertEqual(sorted(row[-1] for row in rows if row != self.outer), list("234567"))

    def test_watches(self):
        later = self.store.write([self.viewer("bob")])
        watched = self.store.watch(self.token, "doc", "group", pause=0)
        lists = itertools.takewhile(bool, (events for events, _ in watched))
        events = [event for some in lists for event in some]
        self.assertIn((place(later), "touch", self.viewer("bob")), events)
        self.assertGreaterEqual(place(watched.token), place(later))

    def test_asyncio(self):
        async def run():
            async with AsyncStore(HOST, int(PORT)) as store:
                later = await store.edit(self.doc, self.lock, lambda rows: Changes([self.viewer("bob")]))
                checked = await asyncio.gather(*[store.check(self.viewer(name), at_least=later) for name in ("ann", "bob", "carl") * 9])
                self.assertEqual([one.member for one in checked], [True, True, False] * 9)
                self.assertEqual((await store.check_many([self.viewer("ann"), self.viewer("eve")])).members, [True, False])
                self.assertEqual((await store.why(self.viewer("ann"))).path, [self.outer, self.inner])
                self.assertIn(self.viewer("bob"), (await store.read(self.doc)).sets[0])
                async for events, _ in store.watch(self.token, "doc", pause=0):
                    if (place(later), "touch", self.viewer("bob")) in events:
                        return await store.write(delete=[self.inner])

        self.assertFalse(self.store.check(self.viewer("ann"), at_least=asyncio.run(run())))


if __name__ == "__main__":
    unittest.main()
