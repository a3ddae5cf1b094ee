"""Runs the rows of flow_rows.rows, and compares what their flows do."""
import re
from pathlib import Path

from judge.lines import token
from programs import harness, lines_of, run
from verdicts import none

ROWS = Path(__file__).with_name("flow_rows.rows")
# What stands for several rows, and for several lines of one.
CHOICE, EACH = re.compile(r"<([^<>]*\|[^<>]*)>"), re.compile(r"\{([^{}]*)\}")
NAME = re.compile(r"^([A-Z]+)(?:_N)? is (.+)\n", re.MULTILINE)


def wide_tuple(write, change):
    """A tuple of the greatest length. The sum of its object's bytes is even, so it is shard 0's."""
    write, low, high = write % 50, change % 8, change // 8 % 8
    name = "".join(chr(ord("A") + it) for it in (write, low, high)) + chr(ord("a") + (write + low + high) % 2)
    return f"+doc:{name}{124 * 'a'}#{64 * 'r'}@{128 * 'u'}"


def wide(write):
    return "write " + " ".join(wide_tuple(write, change) for change in range(64))


def crowd(count, turns):
    return [line for write in range(count) for line in ("start " + wide(write), f"quiet {turns}")]


def full():
    """49 wide writes leave 15,898 bytes of a batch; this one takes all of these but 4: 19 bytes, 48 changes of 329, and one of 83."""
    last = " ".join([*(wide_tuple(49, change) for change in range(48)), f"+doc:bbbbbbbb#rr@{64 * 'u'}"])
    return [*crowd(49, 3), "start write " + last, "quiet 3"]


def groups():
    for write in range(65):
        yield "write " + " ".join(f"+group:g#member@group:{write * 63 + group:04}#member" for group in range(63))


def spelled(line):
    word, *numbers = line.split()
    if word == "CROWD":
        return crowd(*map(int, numbers))
    if word == "FILL":
        return full()
    if word == "GROUPS":
        return [*groups()]
    line = re.sub(r"PLACE_(\d)", lambda it: token(1, int(it[1])), line)
    return [re.sub(r"WIDE_(\d+)", lambda it: wide(int(it[1])), line).replace("start write write", "start write")]


def steps_of(line, number):
    """A step as those of which it is made; the next write has this number."""
    word, _, rest = line.partition(" ")
    if word == "refuse":
        calls, step = rest.split(", ", 1)
        return [*(f"refuse {call}" for call in re.findall(r"\d+ \w+", calls)), *steps_of(step, number)]
    if word == "make":
        return [f"start {rest}", f"run {number}"]
    if word == "down":
        return [f"fail {rest}a 1 old", f"restart {rest}"]
    if word in ("start", "begin") and rest[0].isdigit():
        turns, request = rest.split(" ", 1)
        return [f"{word} {request}", f"turn {number} {turns}" if word == "start" else f"step {turns}"]
    return [line]


def in_full(text):
    """The text with what each of its names stands for, where a later one may have earlier ones."""
    text, names = NAME.sub("", text), NAME.findall(text)
    for name, meant in reversed(names):
        text = re.sub(rf"\b{name}(?:_(\d))?\b", lambda it: re.sub(r"(?<![A-Z])N\b", it[1] or "", meant), text)
    return text


def each_of(text, choice):
    """The text, or those for which it stands."""
    count = len(choice.search(text)[1].split("|")) if choice.search(text) else 1
    return [choice.sub(lambda it: it[1].split("|")[at], text) for at in range(count)]


def rows(text):
    """Of each row its steps, and what its flows do."""
    for row in (it for rows in re.split(r"\n(?! )", in_full(text)) for it in each_of(rows, CHOICE)):
        steps, ends = [], []
        for line in (it for line in row.split("\n") for it in each_of(line, EACH)) if row and not row.startswith("#") else ():
            given, _, end = f" {line.strip()}".partition(" = ")
            ends += [end] if end else []
            for step in filter(None, given[1:].split("; ")):
                number = sum(it.startswith(("start", "write")) for it in steps)
                steps += [it for part in steps_of(step, number) for it in spelled(part)]
        if steps:
            yield steps, ends


def test_rows():
    wanted = [*rows(ROWS.read_text())]
    status, told, _ = run(harness("flows"), "\n".join(lines_of(steps) for steps, _ in wanted), 300)
    told = told.splitlines()
    assert status == 0 and len(told) == len(wanted) >= 150
    wrong = [f"{steps}: {line}" for (steps, ends), line in zip(wanted, told) if line.strip().rstrip(";") != "; ".join(ends).rstrip(",")]
    print(f"flow rows: {len(wanted)} rows, {len(wrong)} wrong")
    none(wrong)
