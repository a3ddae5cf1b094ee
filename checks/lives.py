"""Lives of a store: the program over a folder, killed at a moment. Each is asked first what there is, and then for writes of tuples of its own. The judge of
the lives of a folder, one after the other: what stands is what was told, with the one write whose answer did not come or without it."""
import contextlib
import copy
import tempfile
import time
from collections import Counter, namedtuple
from random import Random

from judge.definitions import change_text, changed
from judge.lines import Reader, token
from judge.reading import Failed, Judge as Scripts, Reading, behind
from judge.worlds import World, Wrong, must
from programs import Talking, harness

STORE = 7
SHARDS = 3
# Far fewer than the 256 places that one watch lists, in all lives of a folder.
MOST_WRITES = 12

# A life of a store: the writes that it was asked for, each its changes; the whole lines that it printed; and its status, none where it was killed.
Life = namedtuple("Life", "writes told status")


def looks():
    """What the store has, and what becomes of the writes that were in doubt."""
    return ["read latest doc@u pad@u", f"watch {token(STORE, 0)} 256 doc pad", *(f"resolve {shard}" for shard in range(SHARDS))]


def script(writes):
    return [*looks(), *("write " + " ".join(changes) for changes in writes)]


def some_writes(random, first, count, there):
    """Writes with numbers from the first on. `doc:N` and `pad:N` are of different shards; a move takes one of the tuples that are there away."""
    there = sorted(there)
    return [one_write(random, number, there) for number in range(first, first + count)]


def one_write(random, number, there):
    kind = random.choice(("one", "pair", "move"))
    made = f"+doc:{number}#viewer@u"
    if kind == "one":
        return (made,)
    if kind == "pair" or not there:
        return (made, f"+pad:{number}#viewer@u")
    return ("-" + there.pop(random.randrange(len(there))), made)


def end_of_look(told):
    """Where the last line of a look stands; none where it was not told whole."""
    return next((at for at, line in enumerate(told) if line.startswith("heartbeat ")), None)


class Judge(Scripts):
    """As the judge of scripts: an opening restarts each node, and a write whose answer did not come was kept, or not decided."""

    def __init__(self):
        super().__init__(STORE, SHARDS)
        self.worlds = [World(SHARDS)]
        # The first opening has yet to come.
        self.worlds[0].epoch = 0
        # The write behind those that were told that may stand too, and one that can't, since it was not begun.
        self.open = self.unbegun = None
        # What was seen: when lives were killed, how many writes were told, and what became of the open ones.
        self.seen = Counter()

    def twin(self):
        other = copy.copy(self)
        other.worlds, other.seen = [world.twin() for world in self.worlds], Counter()
        return other

    def log(self):
        """The changes of each write that stands, but for the open one."""
        return [tuple(map(change_text, write.changes)) for write in min((world.log for world in self.worlds), key=len)]

    def life(self, life):
        """Takes the next life, or raises `Wrong`, or `Failed` at a line."""
        refused = [line for line in life.told if line.startswith("refused")]
        must(not refused, f"prints {refused[:1]}")
        must(life.status in (None, 0), f"ends with status {life.status}")
        for node in ("c", *range(SHARDS)):
            self.worlds = behind(self, self.worlds, ["restart", node], ["up"], 0, f"the opening of {node}")
        answered = self.answered(life) if end_of_look(life.told) is not None else 0
        must(life.status is None or answered == len(script(life.writes)), "ends, and has not told all that it was asked for")
        self.seen["told"] += max(0, answered - len(looks()))
        if life.status is None:
            self.seen[self.killed(life, answered)] += 1

    def answered(self, life):
        """How many lines were answered. A resolution that a kill has cut off is judged by what was told of it."""
        is_cut = life.status is None and life.told.count("done") < SHARDS
        reading, before, at = Reading(STORE, SHARDS, life.told + ["done"] * is_cut), len(self.log()), 0
        for at, line in enumerate(script(life.writes), 1):
            try:
                command, answer = reading.line(line)
            except Wrong:
                at -= 1
                break
            self.worlds = behind(self, self.worlds, command, answer, at, line)
            if command[0] == "resolve" and self.open:
                stood = len(self.log()) - before
                self.seen.update(stood=stood, gone=1 - stood)
                self.open = self.unbegun = None
        must(reading.printed.at == len(life.told) + is_cut, "answers to nothing")
        return at

    def killed(self, life, answered):
        """When it was."""
        if not life.told:
            for world in [world.twin() for world in self.worlds]:
                # The opening of the coordinator was not counted.
                world.epoch -= 1
                self.worlds.append(world)
            return "opening"
        if life.told.count("done") < SHARDS:
            return "looking"
        # A line is read once the one before it is answered.
        self.open, self.unbegun = [*life.writes[answered - len(looks()) :], None, None][:2]
        if not self.open:
            return "behind the last write"
        self.worlds = [each for world in self.worlds for each in self.with_open(world)]
        return "writing"

    def with_open(self, world):
        """The worlds in which the open write was not decided, and in which it was kept."""
        self.begin(world, "", Reader(STORE, SHARDS).request(["write", *self.open]))
        kept = world.twin()
        self.is_begun(world, world.flows[""])
        self.is_decided(kept, kept.flows[""])
        kept.keep()
        for each in (world, kept):
            self.end(each, "")
        return [world, kept]


# The moment of a kill: so many seconds behind so many answers to writes, none of them where a life is to end in its opening.
Moment = namedtuple("Moment", "answers seconds")
# Seconds of an opening, and of a write, where nobody is killed.
Pace = namedtuple("Pace", "opening write")


def running(folder, writes):
    """The program over a script, which ends behind it."""
    store = Talking(harness("files", folder, STORE, SHARDS))
    with contextlib.suppress(BrokenPipeError):
        store.give(*script(writes))
        store.child.stdin.close()
    return store


def live(folder, writes, moment=None):
    told = []
    with running(folder, writes) as store:
        if moment:
            while sum(line.startswith("ok ") for line in told) < moment.answers and (line := store.line()):
                told.append(line)
            time.sleep(moment.seconds)
            store.child.kill()
        status, rest = store.end()
        must(not store.is_late, "it does not end")
    # What a kill has cut off is no line.
    return Life(writes, told + rest[: rest.rfind("\n") + 1].splitlines(), None if status == -9 else status)


def one_pace(seed):
    writes, begin = some_writes(Random(seed), 1, MOST_WRITES, ()), time.monotonic()
    with tempfile.TemporaryDirectory(prefix="killed-") as folder, running(folder, writes) as store:
        store.line()
        opened = time.monotonic()
        status, rest = store.end()
        end = time.monotonic()
    must(status == 0, f"the program ended with status {status}, and printed {rest[-100:]}")
    return Pace(opened - begin, (end - opened) / MOST_WRITES)


def pace(seed):
    """How long an opening and a write take here, in lives that nobody kills."""
    paces = [one_pace(seed) for _ in range(3)]
    return Pace(min(it.opening for it in paces), min(it.write for it in paces))


def moment_of(random, pace, is_new):
    """A third of the kills come in the opening, as the first of a new store, and the others in the writes, or behind the last of them."""
    if is_new or random.random() < 0.3:
        return Moment(0, random.uniform(0, 1.1 * pace.opening))
    return Moment(random.randrange(MOST_WRITES), random.uniform(0, 1.5 * pace.write))


class Folder:
    """The lives of a new store, judged as they come."""

    def __init__(self, random, pace):
        self.random, self.pace, self.judge = random, pace, Judge()
        self.lives, self.asked = [], 1

    def kills(self):
        return sum(life.status is None for life in self.lives)

    def live(self, path, moment):
        writes = some_writes(self.random, self.asked, MOST_WRITES, changed(self.judge.log())) if moment else []
        self.asked += len(writes)
        self.lives.append(live(path, writes, moment))
        self.judge.life(self.lives[-1])
        if moment and self.lives[-1].status == 0 and moment.answers < MOST_WRITES - 2:
            # It made two more writes in the time of one: the machine is faster than it was.
            self.pace = Pace(self.pace.opening / 2, self.pace.write / 2)


def lives(seed, number, kills, pace):
    """Lives of a new folder, so many of them killed, and two that are not: the lives, what was seen, and what is wrong."""
    folder, moment = Folder(Random(f"{seed}.{number}"), pace), None
    with tempfile.TemporaryDirectory(prefix="killed-") as path:
        try:
            # Two lives for each kill have no more writes than one watch lists.
            while folder.kills() < kills and len(folder.lives) < 2 * kills:
                moment = moment_of(folder.random, folder.pace, not folder.lives)
                folder.live(path, moment)
            for _ in range(2):
                moment = None
                folder.live(path, moment)
        except (Wrong, Failed) as wrong:
            return folder.lives, folder.judge.seen, [f"seed {seed}, folder {number}, life {len(folder.lives)}, {moment}: {wrong}"]
    return folder.lives, folder.judge.seen, []
