"""Reads what a run printed. Each line has to be one that is spelled so and not otherwise."""
import re
from functools import lru_cache

from judge.definitions import Change
from judge.lines import NAME, REFUSALS, Reader, Refused, need, read_number, read_tuple, read_tupleset
from judge.worlds import Wrong, must
from stressing.calls import Call, Caller, Check, Fail, Read, Restart, Run, Watch, Write, call_text

KINDS = ("writer", "reader", "watcher", "trouble", "end")
EVENT = re.compile(r"(\d+)([+-])(.*)")

tuple_of = lru_cache(None)(read_tuple)
set_of = lru_cache(None)(read_tupleset)


def read_event(word):
    found = EVENT.fullmatch(word)
    need(found)
    return read_number(found[1], 1), Change(found[2] == "+", tuple_of(found[3]))


def read_refusal(text, name):
    code = read_number(text, 1)
    need(code <= len(REFUSALS) and name == REFUSALS[code - 1])
    return code


class CallReader:
    """Reads a call's words, those behind its ticks."""

    def __init__(self, shards):
        self.reader = Reader(0, shards)

    def fresh(self, word):
        kind, text = self.reader.fresh(word)
        return kind, None if text is None else read_number(text)

    def asked(self, words):
        match words:
            case ["write", *parts]:
                _, changes, conditions = self.reader.write(parts)
                return Write(tuple(changes), tuple(conditions))
            case ["read", fresh, text]:
                set_of(text)
                return Read(self.fresh(fresh), text)
            case ["check", fresh, text]:
                return Check(self.fresh(fresh), tuple_of(text))
            case ["watch", start, limit, _, *_] if all(re.fullmatch(NAME, word) for word in words[3:]):
                need(read_number(limit, 1) <= 256)
                return Watch(read_number(start), int(limit), tuple(words[3:]))
        raise Refused(1)

    def told(self, words):
        """What was asked, the number of its refusal, the place that was told, and what was found."""
        match words:
            case ["wrote", place, *parts]:
                return self.asked(["write", *parts]), None, read_number(place, 1), None
            case ["rows", place, fresh, text, ":", *rows]:
                return self.asked(["read", fresh, text]), None, read_number(place), tuple(map(tuple_of, rows))
            case ["yes" | "no" as word, place, fresh, text]:
                return self.asked(["check", fresh, text]), None, read_number(place), word == "yes"
            case ["events", start, limit, place, *rest] if ":" in rest:
                cut = rest.index(":")
                return self.asked(["watch", start, limit, *rest[:cut]]), None, read_number(place), tuple(map(read_event, rest[cut + 1 :]))
            case ["refused", code, name, *asked]:
                return self.asked(asked), read_refusal(code, name), None, None
            case ["restarted", node, *refused] if len(refused) in (0, 2):
                return Restart(self.reader.node(node)), read_refusal(*refused) if refused else None, None, None
            case ["failing", node]:
                return Fail(self.reader.node(node)), None, None, None
        raise Refused(1)


@lru_cache(None)
def read_call(shards, line):
    """A call of a store of so many shards. A run that is spoiled has most of the lines that it had."""
    words = line.split(" ")
    need(len(words) > 2)
    call = Call(read_number(words[0]), read_number(words[1]), *CallReader(shards).told(words[2:]))
    need(call_text(call) == line)
    return call


def read_head(line):
    found = re.fullmatch(r"threads (\d+) (\d+)", line)
    must(found and 1 <= int(found[2]) <= 64, f"begins with {line!r}")
    return int(found[1]), int(found[2])


def read_run(lines):
    """The run of these lines, or raises `Wrong` at the first that is none of a run."""
    seed, shards = read_head(lines[0] if lines else "")
    callers = []
    for number, line in enumerate(lines[1:], 2):
        head = re.fullmatch(r"caller (0|[1-9]\d*) (\w+)", line)
        if head:
            must(head[2] in KINDS, f"line {number}: a caller of no kind: {line[:200]!r}")
            callers.append(Caller(int(head[1]), head[2], []))
            continue
        must(callers, f"line {number}: of no caller: {line[:200]!r}")
        try:
            callers[-1].calls.append(read_call(shards, line))
        except Refused as refused:
            raise Wrong(f"line {number}: no line of a run: {line[:200]!r}") from refused
    return Run(seed, shards, callers)


def lines_in(text):
    """Its lines, or raises `Wrong` where the last one is not ended, or bytes are none of a line."""
    if text and not text.endswith(b"\n"):
        raise Wrong(f"the last line is not ended: {text[-100:]}")
    if not text.isascii() or b"\r" in text:
        raise Wrong("prints bytes that are none of a line")
    return text[:-1].decode().split("\n") if text else []
