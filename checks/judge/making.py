"""Makes scripts from a seed: lines that a store may meet, in any order."""
import random
from collections import namedtuple

from judge import definitions
from judge.definitions import Change, Condition, Tuple, change_text, condition_text, tuple_text
from judge.lines import token

NAMESPACES = ("doc", "group")
OBJECTS = [("doc", id) for id in "abcd"] + [("group", id) for id in "gh"]
USERS = [(0, f"u{n}") for n in range(1, 4)] + [(1, "group", id, "member") for id in "gh"]
TEARS = ("old", "new", "00", "a5", "5a")
WRITE_CALLS = "begin learned batch learn stage_prepare vote decide outcome abort inquire drop_write".split()
ANSWER_CALLS = "heads flush learned batch learn read".split()
NO_LINES = (
    *("", "; nothing", "?", "write", "checkpoint", "reshard", "reshard 0", "reshard 65", "read  latest doc:a"),
    *("turn nobody", "raise 01", "write +doc:a#viewer@", "fail ca 0 old"),
)


# A write that the maker believes to be listed. It need not be so: it only leads it to places and conditions that mean something.
Made = namedtuple("Made", "changes")


class Maker:
    def __init__(self, seed, is_plain=False):
        self.random = random.Random(seed)
        self.shards = self.random.choice((1, 2, 5, 64))
        self.store = self.random.choice((0, 1, 7, 4294967295))
        self.lines, self.listed, self.flows, self.waiting = [], [], [], []
        self.raised = self.names = 0
        self.tried = {self.shards}
        self.count(self.shards)
        self.kinds = {"write": 8, "answer": 6, "care": 3, "nothing": 0.3}
        for kind, weight in (("flow", 4), ("write_story", 3), ("answer_story", 1.5), ("checkpoint", 0.7), ("restart", 0.7), ("fail", 0.7)):
            self.kinds[kind] = weight if self.random.random() < 0.6 and not is_plain else 0
        self.kinds["reshard"] = 0.5 if self.random.random() < 0.5 else 0
        # A script in which nothing fails and nothing is opened again ends as it is.
        self.is_plain = is_plain

    def count(self, shards):
        """Of the shards those that have something of the objects are named."""
        self.known = shards
        self.nodes = self.named(shards)

    def named(self, shards):
        return sorted({definitions.shard_of(*named, shards) for named in OBJECTS})

    def script(self):
        for _ in range(self.random.randrange(80, 240)):
            kind = self.random.choices(list(self.kinds), list(self.kinds.values()))[0]
            getattr(self, kind)()
            if self.waiting and self.random.random() < 0.7:
                self.open(self.waiting.pop())
        self.close()
        return self.lines

    def say(self, *lines):
        self.lines += lines

    # The parts of lines.

    def tuple(self):
        namespace, id = self.random.choice(OBJECTS)
        relation = "member" if namespace == "group" else self.random.choice(("viewer", "owner"))
        return Tuple(namespace, id, relation, self.random.choice(USERS))

    def condition(self):
        asked = self.tuple()
        is_true = self.random.random() < 0.8
        if self.random.random() < 0.5:
            is_there = asked in definitions.snapshot(self.listed, len(self.listed))
            return Condition(asked, "exists" if is_there == is_true else "absent")
        if is_true:
            return Condition(asked, self.random.randint(definitions.last_change(self.listed, asked), len(self.listed)))
        return Condition(asked, self.place())

    def place(self):
        top = len(self.listed)
        low = min(self.raised, top)
        places = [self.random.randint(low, top) for _ in range(4)] + [self.random.randint(0, top), top, top + 1]
        return max(0, self.random.choice(places) - self.random.choice((0, 1, 2)))

    def token(self):
        if self.random.random() < 0.02:
            return self.random.choice(("x", token(self.store, 1)[:23], token(self.store + 1, 1)))
        return token(self.store, self.place())

    def fresh(self):
        return self.random.choice(("latest", "latest", ">=" + self.token(), "=" + self.token()))

    def tupleset(self):
        asked = self.tuple()
        named = f"{asked.namespace}:{asked.id}"
        user = definitions.user_text(asked.user)
        by_user = [f"{asked.namespace}@{user}", f"{asked.namespace}#{asked.relation}@{user}"]
        return self.random.choice([tuple_text(asked), named, named, f"{named}#{asked.relation}", *by_user])

    def request(self):
        kind = self.random.choice(("write", "write", "read", "check", "watch"))
        return self.write_line() if kind == "write" else self.answer_line(kind)

    def write_line(self):
        changes = {}
        for _ in range(self.random.choice((1, 1, 1, 2, 2, 3, 6))):
            asked = self.tuple()
            changes[asked] = Change(self.random.random() < 0.65, asked)
        conditions = {}
        if self.random.random() < 0.35:
            for _ in range(self.random.choice((1, 1, 2, 3))):
                condition = self.condition()
                conditions[condition.tuple] = condition
        self.changes = Made(tuple(changes.values()))
        is_known = lambda each: isinstance(each.want, str) or each.want <= len(self.listed)
        self.is_likely = all(is_known(each) and definitions.holds(self.listed, each) for each in conditions.values())
        asked = ["if", *map(condition_text, conditions.values())] if conditions else []
        return " ".join(["write", *map(change_text, changes.values()), *asked])

    def answer_line(self, kind):
        if kind == "read":
            return " ".join(["read", self.fresh(), *(self.tupleset() for _ in range(self.random.choice((1, 1, 2, 4))))])
        if kind == "check":
            return f"check {self.fresh()} {tuple_text(self.tuple())}"
        namespaces = self.random.choice((["doc"], ["group"], ["doc", "group"], ["folder", "doc"]))
        return " ".join(["watch", self.token(), str(self.random.choice((1, 2, 5, 256))), *namespaces])

    # Lines.

    def nothing(self):
        self.say(self.random.choice(NO_LINES))

    def write(self):
        self.say(self.write_line())
        if self.is_likely:
            self.listed.append(self.changes)

    def answer(self):
        self.say(self.answer_line(self.random.choice(("read", "read", "check", "watch"))))

    def care(self):
        kind = self.random.choice(("flush", "flush", "learn", "resolve", "raise", "collect", "rows", "rows"))
        if kind == "raise":
            place = self.place()
            self.raised = max(self.raised, min(place, len(self.listed))) if self.random.random() < 0.9 else self.raised
            self.say(f"raise {place}")
        elif kind == "rows":
            self.rows(self.random.choice(self.nodes))
        else:
            self.say(f"{kind} {self.node() if kind == 'flush' else self.random.choice(self.nodes)}")

    def rows(self, shard):
        # No version is printed for the second one, so the versions end where it begins.
        self.say(f"rows {shard}", "?")

    def node(self):
        return self.random.choice(["c", "c", *self.nodes])

    def flow(self):
        if not self.flows or self.random.random() < 0.3 and len(self.flows) < 6:
            return self.start()
        flow = self.random.choice(self.flows)
        name, changes, is_write = flow
        kind = self.random.choice(("turn", "turn", "turns", "until", "until", "run", "cancel"))
        if kind == "turns":
            self.say(*[f"turn {name}"] * self.random.randint(2, 3))
        elif kind == "until":
            self.say(f"until {name} {self.random.choice(WRITE_CALLS if is_write else ANSWER_CALLS)}")
        else:
            self.say(f"{kind} {name}")
        if kind in ("run", "cancel"):
            self.flows.remove(flow)
            if changes and kind == "run":
                self.listed.append(changes)

    def name(self):
        self.names += 1
        return f"f{self.names}"

    def write_story(self):
        """A write that stops on its way, what others do meanwhile, and its end."""
        name = self.name()
        line = self.write_line()
        changes = self.changes
        shards = sorted({definitions.home(change.tuple, self.known) for change in changes.changes})
        self.say(f"start {name} {line}")
        self.say(f"until {name} {self.random.choice(('stage_prepare', 'vote', 'decide', 'decide', 'outcome', 'outcome'))}")
        shard, node = self.random.choice(shards), self.random.choice(["c", *shards])
        meanwhile = [f"turn {name}", line, f"flush {node}", f"resolve {shard}", f"rows {shard}\n?"]
        if self.kinds["restart"]:
            meanwhile += [f"restart {self.random.choice(['c', *shards])}"] * 2
        if self.kinds["fail"]:
            node = self.random.choice(["c", *shards])
            meanwhile.append(f"fail {node}a {self.random.randint(1, 4)} {self.random.choice(TEARS)}")
            self.waiting.append(node)
        for text in self.random.sample(meanwhile, self.random.randint(0, 4)):
            self.say(*text.split("\n"))
        self.say(f"{self.random.choice(('run', 'run', 'cancel'))} {name}")
        if self.random.random() < 0.3:
            self.say(f"resolve {self.random.choice(shards)}")
        if self.lines[-1].startswith("run"):
            self.listed.append(changes)

    def answer_story(self):
        """An answer that stops on its way while the horizon or the log moves."""
        name = self.name()
        self.say(f"start {name} {self.answer_line(self.random.choice(('read', 'check', 'watch')))}")
        self.say(f"until {name} {self.random.choice(('batch', 'read', 'read', 'learned', 'flush'))}")
        for _ in range(self.random.randint(0, 3)):
            self.random.choice((self.care, self.write))()
        if self.random.random() < 0.3:
            self.raised = len(self.listed)
            self.say(f"raise {self.raised}", f"collect {self.random.choice(self.nodes)}")
        self.say(f"{self.random.choice(('run', 'run', 'cancel'))} {name}")

    def start(self):
        name = self.name()
        request = self.request()
        self.say(f"start {name} {request}")
        self.flows.append((name, self.changes if request.startswith("write") and self.is_likely else None, request.startswith("write")))

    def checkpoint(self):
        self.say(f"checkpoint {self.node()}")

    def reshard(self):
        """Flows are ended before it, and nodes opened, or else it may be refused."""
        if self.random.random() < 0.8:
            self.say(*(f"{self.random.choice(('run', 'cancel'))} {name}" for name, _, _ in self.flows))
            self.say(*(f"restart {node}" for node in self.waiting))
            self.flows, self.waiting = [], []
        shards = self.random.choice((1, 2, 3, 5, 8, 64))
        self.say(f"reshard {shards}")
        self.tried.add(shards)
        if not self.flows:
            self.count(shards)

    def restart(self):
        self.open(self.node())

    def open(self, node):
        self.say(f"restart {node}")
        if self.random.random() < 0.5:
            self.say(f"resolve {self.random.choice(self.nodes)}")

    def fail(self):
        node = self.node()
        self.say(f"fail {node}{self.random.choice('aaaaaaab')} {self.random.choice((1, 1, 2, 3, 4, 4, 5, 9))} {self.random.choice(TEARS)}")
        self.waiting.append(node)

    def close(self):
        """Ends all flows, opens all nodes until no script of a disk can wait, and looks at everything, however many shards there are."""
        shards = sorted({shard for tried in self.tried for shard in self.named(tried)})
        self.say(*(f"{self.random.choice(('run', 'cancel'))} {name}" for name, _, _ in self.flows))
        self.say(*(f"restart {node}" for node in ["c", *shards] * (0 if self.is_plain else 3)))
        self.say(*(f"resolve {shard}" for shard in shards))
        self.say(" ".join(["read latest", *(f"{namespace}:{id}" for namespace, id in OBJECTS)]))
        self.say(f"watch {token(self.store, self.raised)} 256 doc group", "read latest doc@u1 group@u1")
        for shard in shards:
            self.say(f"learn {shard}")
            self.rows(shard)
