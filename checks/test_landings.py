"""Whether callers who wait for a node's devices to land are all woken.

A model of what `flights` does (src/waiting.rt, src/landings.rt and the two cells), step by step: a lock, two words that sleepers are told by, and callers who
flush, make checkpoints or meet a node that is down. Each run goes through random turns of a few callers, and fails where all that are left sleep. It is no
reading of the program: who changes the one changes the other. `--count` and `--seed` say which runs, and how many.
"""
import random

import pytest

ANY = 2**64 - 1
KINDS = (
    *("checkpoints tell nobody", "who goes on passes nothing on", "landings are told to the next flight alone"),
    *("a node that is down tells nobody", "who sleeps is counted out"),
)


class Node:
    """What lies under its lock, and who waits by each of its two words: how often these were told, how many there are, and who sleeps, the longest first."""

    def __init__(self):
        self.flights, self.is_out, self.is_down, self.is_locked = 0, False, False, False
        self.words, self.waiting, self.sleepers = [0, 0], [0, 0], [[], []]

    def ticket(self):
        return self.flights + 1

    def has_landed(self, ticket):
        return ticket < self.flights if self.is_out else ticket <= self.flights


class Caller:
    """One that does what it does in steps, between which others may go on."""

    def __init__(self, node, draw, wrong):
        self.node, self.draw, self.wrong, self.sleeps = node, draw, wrong, False

    def lock(self):
        while self.node.is_locked:
            yield
        self.node.is_locked = True
        yield

    def unlock(self):
        self.node.is_locked = False
        yield

    def sleep(self, flight, seen):
        word = flight % 2
        self.node.waiting[word] += 1
        yield
        if self.wrong == KINDS[4]:
            self.node.waiting[word] -= 1
            yield
        if self.node.words[word] == seen:
            self.node.sleepers[word].append(self)
            self.sleeps = True
        yield
        if self.wrong != KINDS[4]:
            self.node.waiting[word] -= 1
            yield

    def wake_one(self, flight):
        is_waited_for = self.node.waiting[flight % 2] > 0
        yield
        sleepers = self.node.sleepers[flight % 2]
        if is_waited_for and sleepers:
            sleepers.pop(0).sleeps = False
        yield

    def tell_one(self, flight):
        self.node.words[flight % 2] += 1
        yield
        yield from self.wake_one(flight)

    def tell_all(self):
        for word in range(2):
            self.node.words[word] += 1
            yield
            for one in self.node.sleepers[word]:
                one.sleeps = False
            self.node.sleepers[word] = []
            yield

    def landed(self, ticket):
        """Under the lock, once the flight has landed or the devices are here."""
        while not self.node.has_landed(ticket) and self.node.is_out:
            awaited = min(ticket, self.node.ticket())
            seen = self.node.words[awaited % 2]
            yield from self.unlock()
            yield from self.sleep(awaited, seen)
            yield from self.lock()

    def fly(self):
        self.node.is_out = True
        self.node.flights += 1
        yield from self.unlock()
        for _ in range(self.draw.randrange(6)):
            yield
        yield from self.lock()
        self.node.is_out = False
        self.node.is_down = self.draw.random() < 0.1
        following = self.node.ticket()
        yield from self.unlock()
        if self.wrong != KINDS[2]:
            yield from self.tell_one(following + 1)
        yield from self.tell_one(following)

    def flush(self, ticket):
        yield from self.lock()
        ticket = ticket or self.node.ticket()
        yield from self.landed(ticket)
        if self.node.has_landed(ticket):
            yield from self.unlock()
            if self.wrong != KINDS[1]:
                yield from self.wake_one(ticket)
        elif self.node.is_down:
            yield from self.unlock()
            if self.wrong != KINDS[3]:
                yield from self.tell_all()
        else:
            yield from self.fly()

    def write(self):
        """A shard's flush takes the next flight, the coordinator's that of which it was staged."""
        for _ in range(self.draw.randrange(1, 5)):
            yield from self.lock()
            ticket = self.node.ticket()
            yield from self.unlock()
            yield from self.flush(self.draw.choice((ticket, None)))

    def shorten(self):
        """A checkpoint, or an opening, which ends that the node is down."""
        for _ in range(self.draw.randrange(1, 3)):
            yield from self.lock()
            yield from self.landed(ANY)
            if self.wrong != KINDS[0]:
                yield from self.tell_all()
            self.node.is_down = False
            yield from self.unlock()


def all_end(draw, wrong=None):
    node = Node()
    callers = [Caller(node, draw, wrong) for _ in range(draw.randrange(2, 8))]
    writers = draw.randrange(2, len(callers) + 1)
    left = {caller: caller.write() if at < writers else caller.shorten() for at, caller in enumerate(callers)}
    while left:
        awake = [caller for caller in left if not caller.sleeps]
        if not awake:
            return False
        caller = draw.choice(awake)
        # Some get on for a while before another one does.
        for _ in range(draw.choice((1, 1, 2, 8))):
            if next(left[caller], left) is left:
                del left[caller]
                break
            if caller.sleeps:
                break
    return True


def seeds(asked):
    return range(asked.seed or 1, (asked.seed or 1) + (asked.count or 20000))


def test_all_end(asked):
    assert all(all_end(random.Random(seed)) for seed in seeds(asked))


@pytest.mark.parametrize("kind", KINDS)
def test_self(kind, asked):
    """A call that is lost is noticed."""
    assert not all(all_end(random.Random(seed), kind) for seed in seeds(asked))
