"""A plain store in memory, by `judge.definitions` alone. A call acts at one moment; a decision of which the coordinator's device fails is found again by a
restart, or is gone."""
from random import Random

from judge import definitions
from judge.definitions import Change, Condition, tuple_text
from judge.lines import Refused, read_tuple, read_tupleset
from stressing.calls import Call, Caller, Check, Fail, Read, Restart, Run, Watch, Write

SHARDS = 3


class Store:
    """`shown` is how far the log is told, and what stands behind that is a decision of which nobody knows yet."""

    def __init__(self, random):
        self.random = random
        self.log, self.shown = [], 0
        self.down, self.failing = set(), set()
        self.opened = dict.fromkeys(["c", *range(SHARDS)], 0)
        self.openings = 0
        self.running = {}

    def touched(self, write):
        return {definitions.home(part.tuple, SHARDS) for part in write.changes + write.conditions}

    def begin(self, number, write):
        self.running[number] = (self.openings, write)

    def write(self, number, write):
        begun, _ = self.running[number]
        nodes = {"c", *self.touched(write)}
        if nodes & self.down:
            raise Refused(13)
        if any(isinstance(condition.want, int) and condition.want > self.shown for condition in write.conditions):
            raise Refused(7)
        if any(self.opened[node] > begun for node in nodes):
            raise Refused(11)
        mine = {part.tuple for part in write.changes + write.conditions}
        others = [other for name, (_, other) in self.running.items() if name != number]
        if self.random.random() < 0.3 and any(part.tuple in mine for other in others for part in other.changes + other.conditions):
            raise Refused(10)
        if not self.are_met(number, write):
            raise Refused(9)
        self.fails(nodes - {"c"}, 13)
        return self.decide(write)

    def are_met(self, number, write):
        return all(definitions.holds(self.log, condition) for condition in write.conditions)

    def decide(self, write):
        self.log.append(write)
        self.fails({"c"}, 12)
        self.shown = len(self.log)
        return self.shown

    def fails(self, nodes, code):
        failed = nodes & self.failing
        self.failing -= failed
        self.down |= failed
        if failed:
            raise Refused(code)

    def restart(self, node):
        if self.random.random() < 0.1:
            self.down.add(node)
            raise Refused(13)
        self.openings += 1
        self.opened[node] = self.openings
        self.down.discard(node)
        self.failing.discard(node)
        if node == "c":
            self.recover()

    def recover(self):
        self.log = self.log[: self.random.choice((self.shown, len(self.log)))]
        self.shown = len(self.log)

    def place(self, fresh):
        kind, place = fresh
        if place is not None and place > self.shown:
            raise Refused(13 if "c" in self.down else 7)
        if self.down - {"c"}:
            raise Refused(13)
        return place if kind == "exact" else self.shown

    def read(self, asked):
        place = self.place(asked.fresh)
        return place, self.rows(asked, definitions.snapshot(self.log, place))

    def rows(self, asked, there):
        return tuple(definitions.select(there, read_tupleset(asked.set)))

    def check(self, asked):
        place = self.place(asked.fresh)
        return place, definitions.is_member(definitions.snapshot(self.log, place), asked.tuple)

    def watch(self, asked):
        if "c" in self.down:
            raise Refused(13)
        if asked.start > self.shown:
            raise Refused(7)
        end = min(self.shown, asked.start + asked.limit)
        return end, tuple(definitions.events(self.log, asked.start, end, asked.namespaces))


NAMESPACES = ("doc", "group")
KINDS = (*["writer"] * 8, *["reader"] * 4, *["watcher"] * 2, "trouble")
SHARED = [read_tuple(f"doc:a{number}#viewer@{user}") for number in range(4) for user in ("u0", "u1", "group:g0#member", "group:g1#member")]
SHARED += [read_tuple(f"group:g{number}#member@{user}") for number in range(3) for user in ("u0", "u1", "u2", "group:g2#member")]


class Asker:
    """One caller: what it asks for next."""

    def __init__(self, random, number, kind):
        self.random, self.number, self.kind = random, number, kind
        self.count, self.place, self.cursor, self.failed = 0, 0, 0, None
        self.calls = []

    def fresh(self):
        kind = self.random.choice(("latest", "latest", "least", "exact"))
        if kind == "latest":
            return kind, None
        return kind, self.place + 90 if self.random.random() < 0.03 else self.random.randint(self.place // 2, self.place)

    def condition(self):
        want = self.random.choice(("exists", "absent", self.place))
        return Condition(self.random.choice(SHARED), want)

    def write(self):
        own = Change(True, read_tuple(f"doc:w{self.number}_{self.count}#owner@u0"))
        shared = self.random.sample(SHARED, self.random.choice((0, 1, 1, 2)))
        changes = (own, *(Change(self.random.random() < 0.6, one) for one in shared))
        return Write(changes, tuple(self.condition() for _ in range(self.random.choice((0, 0, 1)))))

    def answer(self):
        if self.random.random() < 0.5:
            asked = self.random.choice(SHARED)
            return Check(self.fresh(), asked._replace(user=(0, self.random.choice(("u0", "u1", "u2")))))
        sets = [f"doc:a{self.random.randrange(4)}", "group:g0#member", "doc#viewer@u1", "group@u2", tuple_text(self.random.choice(SHARED))]
        return Read(self.fresh(), self.random.choice(sets))

    def trouble(self):
        """A node is made to fail and then opened again; now and then another one is opened."""
        if self.count % 2:
            self.failed = self.random.choice(("c", "c", *range(SHARDS)))
            return Fail(self.failed)
        return Restart(self.failed if self.random.random() < 0.9 else self.random.randrange(SHARDS))

    def next(self):
        self.count += 1
        if self.kind == "writer":
            return self.write() if self.random.random() < 0.8 else self.answer()
        if self.kind == "watcher":
            return Watch(self.cursor, self.random.choice((1, 4, 30)), NAMESPACES if self.number % 2 else NAMESPACES[:1])
        return self.trouble() if self.kind == "trouble" else self.answer()

    def told(self, call):
        self.calls.append(call)
        if isinstance(call.asked, Watch) and call.place is not None:
            self.cursor = call.place
        self.place = max(self.place, call.place or 0)


# Of how many places each watch of the last part is.
LIMIT = 64


class Sample:
    kinds, asker = KINDS, Asker

    def __init__(self, seed, store=Store):
        self.random = Random(seed)
        self.store, self.seed, self.tick = store(self.random), seed, 0
        self.askers = [self.asker(self.random, number, kind) for number, kind in enumerate(self.kinds)]
        # Of each asker its call on its way: when it began, what it asks, and what it was told, once the store has acted.
        self.calls = {}

    def next_tick(self):
        self.tick += self.random.choice((1, 1, 2))
        return self.tick

    def act(self, number, asked):
        """The refusal, or the place and what was found."""
        try:
            if isinstance(asked, Write):
                return None, self.store.write(number, asked), None
            if isinstance(asked, Restart):
                return self.store.restart(asked.node), None, None
            if isinstance(asked, Fail):
                return self.store.failing.add(asked.node), None, None
            return (None, *getattr(self.store, type(asked).__name__.lower())(asked))
        except Refused as refused:
            return refused.number, None, None

    def step(self, asker):
        number = asker.number
        if number not in self.calls:
            asked = asker.next()
            self.calls[number] = [self.next_tick(), asked, None]
            if isinstance(asked, Write):
                self.store.begin(number, asked)
        elif self.calls[number][2] is None:
            self.calls[number][2] = self.act(number, self.calls[number][1])
        else:
            begin, asked, told = self.calls.pop(number)
            self.store.running.pop(number, None)
            asker.told(Call(begin, self.next_tick(), asked, *told))

    def end(self):
        """The last part: the whole list, and some reads and checks of it."""
        for node in ["c", *range(SHARDS)]:
            while node in self.store.down or self.store.shown < len(self.store.log):
                self.act(-1, Restart(node))
        last = [Watch(start, LIMIT, NAMESPACES) for start in range(0, len(self.store.log) + 1, LIMIT)]
        last += [Read(("latest", None), f"doc:a{number}") for number in range(4)]
        last += [Check(("latest", None), read_tuple("doc:a0#viewer@u0")), Read(("exact", 1), "doc@u0")]
        return [Call(self.next_tick(), self.next_tick(), asked, None, *self.plain(asked)) for asked in last]

    def plain(self, asked):
        """Where the store has a mistake in its reads or watches, the last part is without it."""
        return getattr(Store, type(asked).__name__.lower())(self.store, asked)

    def run(self, steps):
        for _ in range(steps):
            # The one that makes trouble is slow.
            asker = self.random.choice(self.askers[:-1] * 4 + self.askers[-1:])
            self.step(asker)
        for number in [*self.calls]:
            while number in self.calls:
                self.step(self.askers[number])
        callers = [Caller(asker.number, asker.kind, asker.calls) for asker in self.askers]
        return Run(self.seed, SHARDS, [*callers, Caller(len(callers), "end", self.end())])


def sample(seed, store=Store, steps=6000):
    return Sample(seed, store).run(steps)
