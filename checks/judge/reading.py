"""Which of the printed lines belong to which line of a script, and the judgement of them all."""
import re

from judge.caring import Cares
from judge.lines import REFUSALS, Reader, Refused
from judge.worlds import Flow, World, Write, Wrong, must
from judge.flows import Answers, Writes


class Judge(Writes, Answers, Cares):
    def __init__(self, store, shards):
        self.store = store
        self.shards = shards

    # One line of a script.

    def line(self, world, command, printed):
        """The worlds that may be behind the line."""
        world.line += 1
        match command:
            case ["pass"]:
                return [world]
            case ["ask", request]:
                # A flow that ends within its line: no other can have its name.
                self.begin(world, "", request)
                return self.go_on(world, "ask", [""], printed)
            case ["start", name, request]:
                self.is_printed(printed, f"started {name}")
                self.begin(world, name, request)
                return [world]
            case ["turn" | "until" | "run" as kind, *rest]:
                return self.go_on(world, kind, rest, printed)
            case ["cancel", name]:
                self.is_printed(printed, f"cancelled {name}")
                return self.cancel(world, world.flows.pop(name))
            case [kind, *rest]:
                return getattr(self, {"raise": "raise_to"}.get(kind, kind))(world, *rest, printed)

    def begin(self, world, name, request):
        flow = world.flows[name] = (Write if request[0] == "write" else Flow)(request, world)
        world.writes += [flow] if flow.kind == "write" else []

    # Flows.

    def go_on(self, world, kind, rest, printed):
        name = rest[0]
        flow = world.flows[name]
        world.note_flow(flow)
        number = self.refusal(printed)
        if number is None and printed[0].startswith("next "):
            call = printed[0][5:]
            must(printed == ["next " + call] and kind in ("turn", "until"), "a call of a line that has an answer")
            must(kind == "turn" or rest[1] == call, "another call than the one that was asked for")
            if kind == "until" and flow.next == call:
                return [world]
            found = (self.write_goes_on if flow.kind == "write" else self.answer_goes_on)(world, flow, kind, call)
        else:
            found = self.write_ends(world, flow, kind, number, printed) if flow.kind == "write" else self.answer_ends(world, flow, number, printed)
            for each in found:
                self.end(each, name)
        for each in found:
            each.note()
        return found

    def end(self, world, name):
        flow = world.flows.pop(name)
        flow.ended = world.line
        if flow.kind == "write":
            flow.is_left = flow.stage == 4 and world.place(flow) is None or flow.is_unsure or flow.met_down or not world.is_up("c")

    def cancel(self, world, flow):
        world.flows[""] = flow
        found = [world]
        if flow.kind == "write" and flow.stage == 4 and not flow.is_unsure and world.kept < world.place(flow):
            found = world.twin().fails("c") if world.nodes["c"].may_fail else []
            world.keep()
            found.append(world)
        for each in found:
            self.end(each, "")
            each.note()
        return found


VERSION = re.compile(r"\d+ [+-]")
ROW = re.compile(r"\d+ [a-z0-9_]")


class Failed(Exception):
    """The first line of a script whose answer is wrong."""

    def __str__(self):
        number, line, printed, why = self.args
        return f"line {number}: {line}\n  printed: {printed}\n  {why}"


class Printed:
    def __init__(self, lines):
        self.lines, self.at = lines, 0

    def one(self):
        if self.at == len(self.lines):
            raise Wrong("nothing more is printed")
        self.at += 1
        return self.lines[self.at - 1]

    def while_like(self, shape):
        begin = self.at
        while self.at < len(self.lines) and shape.match(self.lines[self.at]):
            self.at += 1
        return self.lines[begin : self.at]

    def one_like(self, begin):
        """The next line, if it begins so."""
        return [self.one()] if self.at < len(self.lines) and self.lines[self.at].startswith(begin) else []

    def up_to(self, last):
        """Lines to the first that begins like this, or to a refusal."""
        found = [self.one()]
        while not found[-1].startswith((last, "refused ")):
            found.append(self.one())
        return found

    def of_request(self, kind):
        if kind == "watch":
            return self.up_to("heartbeat ")
        found = [self.one()]
        if kind == "read" and found[0].startswith("at "):
            found += self.while_like(ROW)
        return found


class Reading:
    """Takes what each line printed, and knows which flows run."""

    def __init__(self, store, shards, printed):
        self.reader, self.printed, self.running = Reader(store, shards), Printed(printed), {}

    def line(self, line):
        """The command of the line, or none where it has to be refused and was; and what it printed."""
        try:
            command = self.reader.command(line, self.running)
        except Refused as refused:
            printed = [self.printed.one()]
            if printed != [f"refused {refused.number} {REFUSALS[refused.number - 1]}"]:
                raise Wrong(f"has to be refused with {refused.number}, and printed {printed}") from refused
            return None, printed
        return command, self.of_command(command)

    def of_command(self, command):
        match command:
            case ["pass"]:
                return []
            case ["ask", [kind, *_]]:
                return self.printed.of_request(kind)
            case ["rows", _]:
                # A line that is refused for its shape stands behind each `rows` whose refusal could be taken for its own.
                return self.printed.while_like(VERSION) or self.printed.one_like("refused 13 Down")
            case ["resolve", _]:
                return self.printed.up_to("done")
            case ["turn" | "until" | "run", name, *_]:
                return self.printed.one_like("next ") or self.printed.of_request(self.running.pop(name))
        printed = [self.printed.one()]
        match command:
            case ["start", name, [kind, *_]]:
                self.running[name] = kind
            case ["cancel", name]:
                del self.running[name]
            case ["reshard", count] if printed == ["done"]:
                self.reader.shards = count
        return printed


def judged(script, printed, store, shards):
    """Judges what a script printed. Raises `Failed` at the first line whose answer no world has."""
    judge = Judge(store, shards)
    reading = Reading(store, shards, printed)
    worlds = [World(shards)]
    for number, line in enumerate(script, 1):
        answer = None
        try:
            command, answer = reading.line(line)
        except Wrong as wrong:
            raise Failed(number, line, answer, wrong) from wrong
        if command is not None:
            worlds = behind(judge, worlds, command, answer, number, line)
    if reading.printed.at != len(printed):
        raise Failed(len(script), "the end", printed[reading.printed.at :], "more is printed than asked for")
    return worlds


def behind(judge, worlds, command, answer, number, line):
    found, reasons = {}, []
    for world in worlds:
        try:
            for each in judge.line(world, command, answer):
                found[each.key()] = each
        except Wrong as wrong:
            reasons.append(str(wrong))
    if not found:
        raise Failed(number, line, answer, "; or ".join(dict.fromkeys(reasons)))
    return list(found.values())
