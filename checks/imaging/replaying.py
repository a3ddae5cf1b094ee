"""What a node finds on its device, as docs/FORMAT.md says, and what the part `images` of `harness` has to print of it."""
from imaging.format import ABSENT, CLOSED, EXISTS, GREATEST, MARKS, NOT_AFTER
from imaging.format import Begins, Damaged, Decision, Dropped, Ends, Epoch, Horizon, Learned, Prepare, Row, Rules, appended, batch_bytes, batches_of
from judge.definitions import Change, change_text, home

COORDINATOR = 0xFF
# How far a checkpoint is: what stands last in it.
BEGUN, OPENED, RAISED, LEARNED, DOUBTED = range(5)


def numbers_of(made):
    """Places, epochs, numbers and generations of a record."""
    placed = [(*id, place) for id, place in getattr(made, "placed", ())]
    wants = [condition[2] for condition in getattr(made, "conditions", ()) if condition[1] == NOT_AFTER]
    own = [getattr(made, field) for field in ("place", "epoch", "generation") if hasattr(made, field)]
    return [*own, *getattr(made, "id", ()), *wants, *(number for one in placed for number in one)]


def named_of(made):
    return {named for _, named in made.changes} | {condition[0] for condition in made.conditions}


class Node:
    """What the records so far stand for."""

    def __init__(self, rules, node, store, shards):
        self.must, self.node, self.store, self.shards = rules.must, node, store, shards
        self.epoch = self.horizon = 0
        # the checkpoint that is under way: its generation, and how far it is
        self.generation = self.stage = None

    def replay(self, records):
        for made in records:
            self.must(self.epoch or self.is_inside() or isinstance(made, (Epoch, Begins)), "the first record is an epoch, or begins a checkpoint")
            self.record(made)

    def is_inside(self):
        return self.stage is not None

    def may_come(self, *stages):
        """Within a checkpoint only behind these; elsewhere always."""
        self.must(not self.is_inside() or self.stage in stages, "the parts of a checkpoint have their order")

    def further(self, stage):
        if self.is_inside():
            self.stage = stage

    def record(self, made):
        self.must(all(number <= GREATEST for number in numbers_of(made)), "no number is above 2^63 - 1")
        if isinstance(made, Epoch):
            self.open(made)
        elif isinstance(made, Horizon):
            self.may_come(OPENED)
            self.must(self.horizon <= made.place, "a horizon is at least the one before")
            self.must(self.is_inside() or made.place <= self.end(), "a horizon is at most the last place")
            self.raise_to(made.place)
            self.further(RAISED)
        elif isinstance(made, MARKS):
            self.mark(made)
        else:
            self.own(made)

    def open(self, made):
        self.may_come(BEGUN)
        if self.is_inside():
            self.must(made.epoch >= 1, "the epoch of a checkpoint is from 1 on")
        else:
            self.must(made.epoch == self.epoch + 1, "the first epoch is 1, and each later one is one more")
        self.must((made.store, made.shards, made.node) == (self.store, self.shards, self.node), "an epoch names this node of this store")
        self.epoch = made.epoch
        self.further(OPENED)

    def mark(self, made):
        if isinstance(made, Begins):
            self.must(self.epoch == 0 and not self.is_inside(), "a checkpoint begins with the first record")
            self.must(made.generation >= 1, "a generation is from 1 on")
            self.generation, self.stage = made.generation, BEGUN
        elif isinstance(made, Row):
            self.row(made)
        else:
            self.must(self.is_inside(), "what ends has begun")
            self.may_come(*self.lasts)
            self.must(made.generation == self.generation, "a checkpoint ends as it began")
            self.must(self.horizon <= self.end(), "the horizon of a checkpoint is at most what is learned")
            self.stage = None


class Shard(Node):
    # What may stand last in a checkpoint before its end.
    lasts = LEARNED, DOUBTED

    def __init__(self, *identity):
        super().__init__(*identity)
        self.in_doubt, self.learned, self.rows = {}, 0, []

    def end(self):
        return self.learned

    def own(self, made):
        self.must(not isinstance(made, Decision), "a shard has no decision")
        if isinstance(made, Prepare):
            self.prepare(made)
        elif isinstance(made, Learned):
            self.learn(made)
        elif isinstance(made, Dropped):
            self.may_come()
            self.must(made.id in self.in_doubt, "a dropped write is in doubt")
            self.in_doubt.pop(made.id, None)

    def row(self, made):
        self.must(self.is_inside(), "a row stands in a checkpoint")
        self.may_come(LEARNED)
        is_touch, named = made.change
        self.must(home(named, self.shards) == self.node, "a row is of a tuple of this shard")
        self.must(1 <= made.place <= self.learned, "a row lies within what is learned")
        last = max((at for other, at, _ in self.rows if other == named), default=0)
        self.must(last <= made.place, "a row is no older than those of its tuple before it")
        self.rows.append((named, made.place, is_touch))

    def prepare(self, made):
        self.may_come(LEARNED, DOUBTED)
        self.further(DOUBTED)
        self.must(made.id not in self.in_doubt, "a prepare has an id that is not in doubt")
        named = named_of(made)
        self.must(all(home(one, self.shards) == self.node for one in named), "a prepare has tuples of this shard")
        self.must(not any(named & named_of(other) for other in self.in_doubt.values()), "a prepare has tuples that no write in doubt names")
        self.in_doubt[made.id] = made

    def learn(self, made):
        self.may_come(RAISED)
        self.must(not self.is_inside() or not made.placed, "what a checkpoint has learned has no parts")
        self.further(LEARNED)
        self.must(self.learned <= made.place, "what is learned is at least what was")
        for id, place in made.placed:
            self.must(self.learned < place, "a placed id lies above what was learned")
            self.must(id in self.in_doubt, "a placed id names a write in doubt")
            prepared = self.in_doubt.pop(id, None)
            self.rows += [(named, place, is_touch) for is_touch, named in prepared.changes] if prepared else []
        self.learned = made.place

    def raise_to(self, place):
        """Of what lies at or below the horizon the newest touch of each tuple is left."""
        self.horizon = place
        newest = {}
        for named, at, _ in self.rows:
            if at <= place:
                newest[named] = max(at, newest.get(named, 0))
        self.rows = [(named, at, is_touch) for named, at, is_touch in self.rows if at > place or (is_touch and at == newest[named])]

    def told(self):
        doubt = [f"undecided {epoch}.{number}" for epoch, number in sorted(self.in_doubt)]
        rows = [f"{place} {change_text(Change(is_touch, named))}" for named, place, is_touch in sorted(self.rows, key=lambda row: row[:2])]
        return [f"learned {self.learned}", *doubt, *rows]


class Coordinator(Node):
    lasts = (RAISED,)

    def __init__(self, *identity):
        super().__init__(*identity)
        self.log, self.ids, self.last, self.base = [], set(), {}, 0

    def end(self):
        return self.base + len(self.log)

    def own(self, made):
        self.must(isinstance(made, Decision), "a coordinator has no prepare, learned or dropped record")
        if isinstance(made, Decision):
            self.may_come(RAISED)
            self.decide(made)

    def row(self, _):
        self.must(False, "a coordinator has no row")

    def raise_to(self, place):
        self.horizon = place
        if self.is_inside():
            self.base = place

    def decide(self, made):
        self.must(made.place == self.end() + 1, "the places of decisions go on without a gap")
        self.must(made.id not in self.ids, "no two decisions have one id")
        self.must(all(self.is_met(*condition) for condition in made.conditions), "the conditions of a decision are met by those before it")
        self.log.append(made)
        self.ids.add(made.id)
        self.last.update({named: (made.place, is_touch) for is_touch, named in made.changes})

    def is_met(self, named, want, place):
        """Where a checkpoint has left out earlier decisions, none of those that are there may say otherwise."""
        if self.base and named not in self.last:
            return True
        at, is_there = self.last.get(named, (0, False))
        return {NOT_AFTER: lambda: at <= place, EXISTS: lambda: is_there, ABSENT: lambda: not is_there}[want]()

    def told(self):
        lines = [f"kept {self.end()} horizon {self.horizon}"]
        for made in self.log[self.horizon - self.base :]:
            lines.append(f"commit {made.id[0]}.{made.id[1]} {made.place}")
            lines += [f"{made.place} {change_text(change)}" for change in made.changes]
        return lines


def generation_of(records):
    return records[0].generation if records and isinstance(records[0], Begins) else 0


def is_complete(records):
    """Whether a bank has its records whole."""
    generation = generation_of(records)
    return bool(records) and (not generation or any(isinstance(made, Ends) and made.generation == generation for made in records))


def is_b_current(rules, a, b):
    """Whether b is the current one of two banks with these records."""
    rules.must(not b or generation_of(b), "bank b begins with a checkpoint")
    whole = is_complete(a), is_complete(b)
    if all(whole):
        rules.must(generation_of(a) != generation_of(b), "no two banks have one generation")
        return generation_of(b) > generation_of(a)
    rules.must(any(whole) or not (a or b), "a bank is complete, or there is no record")
    return whole[1]


def is_found_without(rule, image):
    """Whether the image would be found if there were no such rule. Where a reader without it gets lost, it would not."""
    try:
        return not answer(Rules(rule), image)[0].startswith("refused")
    except (LookupError, TypeError, ValueError, OverflowError):
        return False


def node_of(rules, image):
    return (Coordinator if image.node == COORDINATOR else Shard)(rules, image.node, image.store, image.shards)


def found(rules, image):
    """What the node finds, and whether bank b is the current one."""
    banks = [[made for _, records in batches_of(rules, device)[0] for made in records] for device in (image.a, image.b)]
    is_b = is_b_current(rules, *banks)
    node = node_of(rules, image)
    node.replay(banks[is_b])
    rules.must(not node.is_inside(), "a checkpoint has its end")
    return node, is_b


def answer(rules, image):
    """The lines that an opening of the image has to be answered with."""
    try:
        node, is_b = found(rules, image)
    except Damaged:
        return ["refused 16 Damaged"]
    if node.epoch == GREATEST:
        return ["refused 15 Full"]
    opening = batch_bytes(2, [Epoch(node.epoch + 1, image.store, image.shards, image.node)])
    # A device that was not made is made first.
    banks = [device if len(device) > 1 else bytes([CLOSED]) for device in (image.a, image.b)]
    banks[is_b] = appended(banks[is_b], batches_of(rules, banks[is_b])[1], opening)
    return [*node.told(), *(bank.hex() for bank in banks)]
