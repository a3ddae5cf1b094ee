"""One run: a script whose devices fail, then all nodes are opened again, and what the store shows is held against what the script was told."""
import copy
import resource
import sys
from collections import namedtuple

from judge.definitions import changed
from judge.lines import token
from judge.reading import Failed, Reading, judged
from judge.worlds import Wrong, must, place_of
from programs import Talking
from programs import zanstore as program
from sweeping.scripts import NODES, SCRIPTS, SHARDS, STORE, halves, namespaces, objects, requests, texts

# Far more processor seconds than a script takes: a flow that goes on for ever is told.
PROCESSOR_SECONDS = 5

# A line, the command that it was read as (none where it is refused by its shape), and what it printed.
Told = namedtuple("Told", "line command printed")


class Live:
    """The lines that a program prints, each awaited when it is looked at. Of a program that runs there are always more."""

    def __init__(self, stream):
        self.stream = stream
        self.lines = []

    def __len__(self):
        return sys.maxsize

    def __getitem__(self, at):
        if isinstance(at, slice):
            return self.lines[at]
        while len(self.lines) <= at:
            line = self.stream.readline()
            if not line.endswith("\n"):
                raise Wrong(f"the program has ended, or used up its {PROCESSOR_SECONDS} seconds, or waits for ever, behind {self.lines[-1:]}")
            self.lines.append(line[:-1])
        return self.lines[at]


class Sim(Talking):
    def __init__(self):
        super().__init__([program(), "sim", "--store", STORE, "--shards", SHARDS])
        resource.prlimit(self.child.pid, resource.RLIMIT_CPU, (PROCESSOR_SECONDS, PROCESSOR_SECONDS))
        self.reading = Reading(STORE, SHARDS, Live(self.child.stdout))

    def give(self, *lines):
        try:
            super().give(*lines)
        except BrokenPipeError as broken:
            raise Wrong("the program takes no more lines") from broken

    def told(self, line):
        """What this line printed, the next of those given. Behind the last one given stands one whose answer says itself where it ends."""
        return Told(line, *self.reading.line(line))

    def end(self):
        status, rest = super().end()
        if rest or status != 0:
            raise Wrong(f"the program ended with status {status}, and printed {rest} behind its last answer")


COLLECTED = ["refused 8 Collected"]
DOWN = ["refused 13 Down"]
# More places than a script has.
PLACES = 100


class Look:
    """What was asked and told, by parts: `script`, `restarts`, `again`, `resolved`, `latest`, `snapshot` and `watches`."""

    def __init__(self, name, fails):
        self.name, self.fails, self.horizon = name, fails, 0
        self.given, self.told, self.parts = [], [], {}

    def note(self, part, told):
        self.parts.setdefault(part, []).append(len(self.told))
        self.told.append(told)

    def part(self, name):
        return [self.told[index] for index in self.parts.get(name, [])]

    def with_other(self, index, printed):
        """The same, where this line printed something else."""
        other = copy.copy(self)
        other.told = self.told[:index] + [self.told[index]._replace(printed=printed)] + self.told[index + 1 :]
        return other

    def waiting(self):
        """The nodes whose failing call came when they were opened."""
        return [node for node, told in zip(NODES, self.part("restarts")) if told.printed == DOWN]

    def was_carried(self):
        """Whether the store was carried over, and no call had failed before."""
        told = self.part("script")
        moved = [index for index, each in enumerate(told) if each.line.startswith("reshard ") and each.printed == ["done"]]
        return bool(moved) and not any(each.printed[0].startswith(("refused 12 ", "refused 13 ")) for each in told[: moved[0]])

    def script(self):
        return [told.line for told in self.told]

    def printed(self):
        return [text for told in self.told for text in told.printed]


def gather(name, fails):
    """Runs a script with these failing calls, each a bank, its number and what a stop leaves, and looks at the store behind it."""
    look, script = Look(name, fails), SCRIPTS[name]
    before, swept = halves(script)
    watch = lambda place: f"watch {token(STORE, place)} 256 {' '.join(namespaces(script))}"

    def ask(*parts):
        lines = [(part, line) for part, lines in parts for line in lines]
        look.given += [line for _, line in lines]
        sim.give(*(line for _, line in lines))
        for part, line in lines:
            look.note(part, sim.told(line))

    try:
        with Sim() as sim:
            failing = [f"fail {bank} {n} {tear}" for bank, n, tear in fails]
            ask(("script", before), ("fails", failing), ("script", swept), ("restarts", [f"restart {node}" for node in NODES]))
            again = [f"restart {node}" for node in look.waiting()]
            resolved = [f"resolve {shard}" for shard in range(SHARDS)]
            read = " ".join(objects(script))
            ask(("again", again), ("resolved", resolved), ("latest", [f"read latest {read}"]), ("below", [watch(0)]))
            while look.told[-1].printed == COLLECTED and look.horizon < PLACES:
                look.horizon += 1
                ask(("below", [watch(look.horizon)]))
            # The last of these watches is the first that was not refused.
            look.parts["watches"] = [look.parts["below"].pop()]
            ask(("snapshot", [f"read ={token(STORE, look.horizon)} {read}"]), ("watches", [watch(heartbeat(look, -1))]))
            while heartbeat(look, -1) != heartbeat(look, -2) and len(look.part("watches")) < PLACES:
                ask(("watches", [watch(heartbeat(look, -1))]))
            sim.end()
    except Wrong as wrong:
        return look, str(wrong)
    return look, None


def heartbeat(look, index):
    told = look.part("watches")[index]
    must(told.printed[-1].startswith("heartbeat "), f"{told.line}: {told.printed}")
    return place_of(told.printed[-1][10:], STORE)


def rows(told):
    """The place of a read, and its tuples."""
    must(told.printed[0].startswith("at "), f"{told.line}: {told.printed}")
    found = [row.split(" ")[1] for row in told.printed[1:]]
    must(len(set(found)) == len(found), f"{told.line}: a tuple twice: {found}")
    return place_of(told.printed[0][3:], STORE), set(found)


def events(look):
    """The changes by place, from the horizon on."""
    found = {}
    for told in look.part("watches"):
        for event in told.printed[:-1]:
            place, change = event.split(" ")
            found.setdefault(int(place), []).append(change)
    return found


def acknowledged(look):
    """The place that was told of a write, and its changes, in the order in which they were told."""
    found, running = [], {}
    for told in look.part("script"):
        kind, *rest = told.command or ["none"]
        if kind == "start":
            running[rest[0]] = rest[1]
        request = rest[0] if kind == "ask" else running.get(rest[0]) if kind in ("turn", "until", "run") else None
        if request and request[0] == "write" and told.printed[0].startswith("ok "):
            found.append((place_of(told.printed[0][3:], STORE), texts(request)))
    return found


def all_are_open(look):
    opened = {told.line: told.printed for told in look.part("restarts") + look.part("again")}
    for line, printed in opened.items():
        must(printed == ["up"], f"{line}: {printed}")
    for told in look.part("resolved"):
        must(told.printed[-1] == "done", f"{told.line}: {told.printed}")


def nothing_is_damaged(look):
    for told in look.told:
        for text in told.printed:
            must(not text.startswith(("refused 14 ", "refused 16 ")), f"{told.line}: {text}")


def snapshots_meet(look):
    """What is read at last is what is read at the horizon, changed by the events."""
    latest, there = rows(look.part("latest")[0])
    horizon, found = rows(look.part("snapshot")[0])
    must(horizon == look.horizon, f"a read at {look.horizon} is told at {horizon}")
    found = changed([changes for _, changes in sorted(events(look).items())], found)
    must(there == found, f"{sorted(there)} are read at last, and the events make {sorted(found)}")
    must(latest == heartbeat(look, -1), f"read at {latest}, and watched up to {heartbeat(look, -1)}")


def writes_are_whole(look):
    """The events of a place are one write of the script, whole, and no write is there twice."""
    found = events(look)
    must(sorted(found) == list(range(look.horizon + 1, heartbeat(look, -1) + 1)), f"events at {sorted(found)}")
    asked = [texts(request) for request in requests(SCRIPTS[look.name])]
    for place, changes in sorted(found.items()):
        must(changes in asked, f"place {place} has {changes}, which is no write of the script, or was told twice")
        asked.remove(changes)


def acknowledged_stay(look):
    """What was told to be written is among the events at its place, and the places that were told rise."""
    told, found = acknowledged(look), events(look)
    places = [place for place, _ in told]
    must(places == sorted(set(places)), f"the places that were told are {places}")
    must(not places or places[-1] <= heartbeat(look, -1), f"place {places[-1:]} was told, and the log ends at {heartbeat(look, -1)}")
    for place, changes in told:
        must(place <= look.horizon or found.get(place) == changes, f"{changes} was told at {place}, where {found.get(place)} is")


def is_judged(look):
    judged(look.script(), look.printed(), STORE, SHARDS)


OWN = (nothing_is_damaged, all_are_open, snapshots_meet, writes_are_whole, acknowledged_stay)


def faults(look, asserts=(*OWN, is_judged)):
    found = []
    for each in asserts:
        try:
            each(look)
        except (Failed, Wrong, ValueError, IndexError) as wrong:
            found.append(f"{each.__name__}: {wrong}")
    return found


def text_of(look):
    """The script, which can be given to the program by hand, with what it printed as comments."""
    printed = [told.printed for told in look.told] + [["not read"]] * (len(look.given) - len(look.told))
    return "\n".join(text for line, answer in zip(look.given, printed) for text in (line, *(f"; {each}" for each in answer)))


def looked(name, fails):
    """The look, and why it is wrong."""
    look, broken = gather(name, fails)
    found = [*faults(look, (nothing_is_damaged, all_are_open)), broken] if broken else faults(look)
    if not found:
        return look, None
    failing = " and ".join(f"fail {bank} {n} {tear}" for bank, n, tear in fails)
    return look, f"{name} with {failing}: {'; '.join(found)}\n; zanstore sim --store {STORE} --shards {SHARDS}\n{text_of(look)}"
