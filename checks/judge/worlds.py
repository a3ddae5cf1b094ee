"""A store as an onlooker may know it: one log of writes, the kept place and the horizon, with what is known of each node and flow.

Where a failure may have left one of two things, there is a world for each, and what the program prints rules worlds out.
"""
import copy
import re

from judge import definitions
from judge.definitions import home
from judge.lines import REFUSALS, Refused, read_token


class Wrong(Exception):
    """What was printed can't be of this world."""


def must(is_so, why):
    if not is_so:
        raise Wrong(why)


class Node:
    """A node: whether it is down, and the banks of which a failing script may wait still. What it holds is replaced, and never changed."""

    def __init__(self):
        self.is_down = False
        self.scripts = frozenset()

    @property
    def may_fail(self):
        return bool(self.scripts)


class Shard(Node):
    """`learned` is the least place that its memory may have learned, `settled` the least that its device may have; `collected` the
    horizons that it may have collected. `opened` and `resolved` are the lines of its last opening and its last whole resolution."""

    def __init__(self):
        super().__init__()
        self.learned = self.settled = self.opened = self.resolved = 0
        self.collected = {0}


class Flow:
    """A request on its way. `lines` are those of its beginning and its end; the rest is what it may have met so far."""

    def __init__(self, request, world):
        self.request, self.kind, self.met_down = request, request[0], False
        self.next = "begin" if self.kind == "write" else "heads"
        self.kept_places, self.least_length, self.first_horizon = {world.kept}, len(world.log), world.horizon

    def twin(self):
        other = copy.copy(self)
        other.kept_places = set(self.kept_places)
        return other


class Write(Flow):
    """`stage`: 0 not begun, 1 preparing, 2 voting, 3 before its decision, 4 decided, 5 on its way out.

    `opened` are the nodes that were opened since it began, `dropped` the shards that were told of its abortion, `gone` those that have flushed
    since they have dropped it: no opening finds it there."""

    def __init__(self, request, world):
        super().__init__(request, world)
        self.changes, self.conditions = request[1:]
        self.stage = 0
        self.id = self.kept = self.begun = self.ended = None
        self.is_left = self.is_unsure = self.met_broken = self.met_held = False
        self.opened, self.dropped, self.gone = set(), set(), set()
        self.tuples = {part.tuple: home(part.tuple, world.count) for part in self.changes + self.conditions}
        self.shards = sorted(set(self.tuples.values()))

    def twin(self):
        other = super().twin()
        other.opened, other.dropped, other.gone = set(self.opened), set(self.dropped), set(self.gone)
        return other


class World:
    def __init__(self, count):
        self.kept = self.horizon = self.number = self.line = 0
        self.epoch, self.log, self.flows, self.aborted = 1, [], {}, set()
        self.begin(count)

    def begin(self, count):
        """Nodes of so many shards, and no write that is in doubt."""
        self.count, self.writes = count, []
        self.nodes = {"c": Node(), **{shard: Shard() for shard in range(count)}}

    def twin(self):
        other = copy.copy(self)
        other.nodes = {name: copy.copy(node) for name, node in self.nodes.items()}
        twins = {write: write.twin() for write in self.writes}
        other.writes = list(twins.values())
        # What was listed before the store was carried over changes no more.
        other.log = [twins.get(write, write) for write in self.log]
        other.flows = {name: twins[flow] if flow in twins else flow.twin() for name, flow in self.flows.items()}
        other.aborted = set(self.aborted)
        return other

    def key(self):
        nodes = tuple((node.is_down, node.scripts) for node in self.nodes.values())
        flows = tuple((name, flow.next, flow.met_down) for name, flow in self.flows.items())
        ids = tuple(write.id for write in self.log)
        collected = tuple(tuple(sorted(self.nodes[shard].collected)) for shard in range(self.count))
        return ids, self.kept, self.horizon, self.epoch, self.number, nodes, flows, collected

    def carried(self, count):
        """The store with so many shards that has what this one has, but for what is in doubt."""
        self.begin(count)
        self.epoch, self.number = self.epoch + 1, 0
        for shard in range(count):
            node = self.nodes[shard]
            node.learned = node.settled = self.kept
            node.collected = {self.horizon}
            node.opened = node.resolved = self.line
        return self

    # What is known of nodes.

    def is_up(self, *names):
        return not any(self.nodes[name].is_down for name in names)

    def answers(self, *names):
        for name in names:
            must(not self.nodes[name].is_down, f"node {name} is down and has answered")

    def struck(self, name):
        """The worlds in which a device call of the node has just failed, each by another script that may have waited."""
        found = []
        for bank in sorted(self.nodes[name].scripts):
            world = self.twin()
            node = world.nodes[name]
            node.is_down, node.scripts = True, node.scripts - {bank}
            found.append(world)
        return found

    def fails(self, name):
        """The same in a flush: its last batch is kept or lost."""
        return [each for world in self.struck(name) for each in world.is_kept_or_lost(name)]

    def is_kept_or_lost(self, name):
        if name != "c":
            return [self]
        for write in self.writes:
            if write.stage == 4 and write.ended is None:
                write.is_unsure = True
        lost = self.twin()
        lost.cut(lost.kept)
        return [self, lost]

    def downs(self, touched, flushed):
        """The worlds in which a call of these nodes is refused with Down: one was down, or one that made a device call has failed."""
        found = ([] if self.is_up(*touched) else [self.twin()]) + self.flush_fails(flushed)
        must(found, "Down without a failure")
        return found

    def flush_fails(self, names):
        """The worlds in which a flush of one of these nodes has just failed."""
        return [each for name in names if self.nodes[name].may_fail and self.is_up(name) for each in self.twin().fails(name)]

    # The log.

    def cut(self, length):
        self.log = self.log[:length]

    def keep(self):
        self.answers("c")
        self.kept = len(self.log)
        self.note()

    def place(self, write):
        for place, listed in enumerate(self.log, 1):
            if listed is write:
                return place
        return None

    def append(self, write):
        self.answers("c")
        must("c" not in write.opened, "decided by a coordinator that was opened since the write began")
        must(write.id not in self.aborted, "an aborted write is decided")
        for condition in write.conditions:
            must(definitions.holds(self.log, condition), f"decided although the condition on {definitions.tuple_text(condition.tuple)} does not hold")
        write.stage = 4
        self.log = self.log + [write]

    # What flows meet.

    def note(self):
        for flow in self.flows.values():
            self.note_flow(flow)

    def note_flow(self, flow):
        flow.kept_places.add(self.kept)
        flow.least_length = min(flow.least_length, len(self.log))
        if flow.kind != "write":
            flow.met_down |= not self.is_up(*self.nodes)
        else:
            flow.met_down |= not self.is_up("c", *flow.shards)
            flow.met_broken |= not all(definitions.holds(self.log, condition) for condition in flow.conditions)
            flow.met_held |= self.may_be_held(flow)

    def shared(self, one, other):
        return [(asked, shard) for asked, shard in one.tuples.items() if asked in other.tuples]

    def may_be_held(self, write):
        """Whether another write may be in doubt at a shard and name a tuple of this one."""
        return any(
            self.may_be_in_doubt(other, shard, write)
            for other in self.writes
            if other is not write and other.begun is not None
            for _, shard in self.shared(write, other)
        )

    def may_be_in_doubt(self, other, shard, asker=None):
        node = self.nodes[shard]
        place = self.place(other)
        if place is not None:
            learned = node.learned if asker is None else max(node.learned, self.kept if asker.kept is None else asker.kept)
            return place > learned or asker is not None and asker.begun is not None and node.opened >= asker.begun
        if other.ended is None:
            return True
        if shard in other.gone:
            return False
        if node.resolved >= other.ended and node.opened <= node.resolved:
            return False
        return other.is_left or node.opened >= other.begun

    def settle(self, shard):
        """The shard has flushed: what its memory has learned and dropped is durable."""
        node = self.nodes[shard]
        node.settled = node.learned
        for write in self.writes:
            is_over = write.begun is not None and write.ended is not None and self.place(write) is None
            if is_over and shard in write.shards and not self.may_be_in_doubt(write, shard):
                write.gone.add(shard)

    def is_held(self, write):
        """Whether another write is certainly in doubt at a shard and names a tuple of this one."""
        others = [flow for flow in self.flows.values() if flow is not write and flow.kind == "write"]
        return any(self.is_in_doubt(other, shard) for other in others for _, shard in self.shared(write, other))

    def is_in_doubt(self, write, shard):
        """Each of its shards has prepared this flow's write, and this one was not opened since, nor can it have learned it."""
        if write.stage not in (2, 3, 4) or shard not in write.shards or shard in write.opened | write.dropped:
            return False
        return write.stage != 4 or not write.is_unsure and self.place(write) > self.kept


class Told:
    def is_printed(self, printed, text):
        must(printed == [text], f"has to print {text!r}")

    def refusal(self, printed):
        found = re.fullmatch(r"refused (\d+) (\w+)", printed[0])
        if not found:
            return None
        number = int(found[1])
        must(1 <= number <= 16 and REFUSALS[number - 1] == found[2] and len(printed) == 1, "a refusal that is none")
        must(number not in (14, 15, 16), "a refusal for which there is no cause")
        return number


def place_of(text, store):
    try:
        return read_token(text, store)
    except Refused as refused:
        raise Wrong("a token that is none of this store") from refused
