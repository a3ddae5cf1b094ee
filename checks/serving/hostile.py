"""What a request line asks, or the number of its refusal: length (3), shape (1), sizes (3), texts (2), tokens (5, 6),
repeats (4), in this order. Whether an answer line is one of the grammar, and fits what was asked: both read by patterns
that share nothing with the program. And lines that nobody should send: made from valid ones, by a seed."""
import json
import re
from collections import Counter, namedtuple
from random import Random

from judge.lines import NAME, REFUSALS, Refused, need, read_token, read_tuple, read_tupleset
from judge.worlds import Wrong, must
from serving.server import STORE
from serving.wire import check, read, refusal, spelled, token, watch, write

MAX_LINE, DEEPEST = 262144, 127
MOST_CHANGES, CONDITIONS, SETS, NAMESPACES, LIMIT = 64, 16, 16, 16, 256
TEXT = re.compile(rb'"(?:[^"\\]|\\.)*"', re.S)


def no_constant(text):
    raise ValueError(text)


def real(text):
    number = float(text)
    need(abs(number) != float("inf"))
    return number


def whole(text):
    # A number outside of all that a float can be is none, and -0 is no whole one.
    number = real(text)
    return number if text == "-0" else int(text)


def members(pairs):
    json.dumps(pairs, ensure_ascii=False).encode()  # half of a surrogate pair is no text
    return dict(pairs)


# Half of a surrogate pair comes by an escape alone, so other lines need no look at each of their texts.
SURROGATE = re.compile(rb"\\u[dD][89a-fA-F]")
PLAIN = json.JSONDecoder(parse_constant=no_constant, parse_int=whole, parse_float=real)
CAREFUL = json.JSONDecoder(parse_constant=no_constant, parse_int=whole, parse_float=real, object_pairs_hook=members)


def deep(line):
    at = most = 0
    for byte in TEXT.sub(b"", line):
        at += (byte in b"[{") - (byte in b"]}")
        most = max(most, at)
    return most


def read_json(line):
    try:
        value = (CAREFUL if SURROGATE.search(line) else PLAIN).decode(line.decode())
    except (ValueError, RecursionError):
        raise Refused(1) from None
    need(line.count(b"[") + line.count(b"{") <= DEEPEST or deep(line) <= DEEPEST)
    return value


def are_texts(values):
    return all(isinstance(value, str) for value in values)


def is_change(value):
    match value:
        case {"op": "touch" | "delete", "tuple": str(), **more}:
            return not more
    return False


def is_condition(value):
    match value:
        case {"tuple": str(), "since": str(), **more} | {"tuple": str(), "want": "exists" | "absent", **more}:
            return not more
    return False


def is_fresh(more):
    return len(more) <= 1 and set(more) <= {"at_least", "exact"} and are_texts(more.values())


def are_read(changes, conditions, store):
    """The sizes, the texts, the tokens and the repeats of a write."""
    need(len(changes) <= MOST_CHANGES and len(conditions) <= CONDITIONS, 3)
    tuples = [[read_tuple(one["tuple"]) for one in some] for some in (changes, conditions)]
    for one in conditions:
        if "since" in one:
            read_token(one["since"], store)
    need(all(len(set(some)) == len(some) for some in tuples), 4)


def kind_of(line, store=STORE):
    """Of what kind the answer is where no store refuses it. Raises `Refused`."""
    need(len(line) <= MAX_LINE, 3)
    match read_json(line):
        case {"op": "write", "changes": [_, *_] as changes, **more} if all(map(is_change, changes)):
            conditions = more.pop("conditions", [])
            need(not more and isinstance(conditions, list) and all(map(is_condition, conditions)))
            are_read(changes, conditions, store)
            return "zookie"
        case {"op": "read", "sets": [_, *_] as sets, **fresh} if are_texts(sets) and is_fresh(fresh):
            need(len(sets) <= SETS, 3)
            for text in sets:
                read_tupleset(text)
            kind = "sets"
        case {"op": "check", "tuple": str(text), **fresh} if is_fresh(fresh):
            read_tuple(text)
            kind = "member"
        case {"op": "watch", "limit": limit, "namespaces": [_, *_] as names, **fresh} if are_texts(names) and [*fresh] == ["from"]:
            need(type(limit) is int and 1 <= limit <= LIMIT and are_texts(fresh.values()))
            need(len(names) <= NAMESPACES, 3)
            need(all(re.fullmatch(NAME, text) for text in names), 2)
            kind = "events"
        case _:
            raise Refused(1)
    for zookie in fresh.values():
        read_token(zookie, store)
    return kind


# Printable, without `#`, `+`, `:` and `@`; a quote and a backslash are escaped, and nothing else is.
ID = rb'(?:[!$-*,-9;-?A-\[\]-~]|\\["\\]){1,128}'
SET = NAME.encode() + rb":" + ID + rb"#" + NAME.encode()
TUPLE = rb'"' + SET + rb"@(?:" + SET + rb"|" + ID + rb')"'
TOKEN = rb'"[A-Za-z0-9+/]{24}"'


def listed(one):
    return rb"\[(?:" + one + rb"(?:," + one + rb")*)?\]"


EVENT = rb'\{"change":"(?:touch|delete)","place":[1-9][0-9]{0,18},"tuple":' + TUPLE + rb"\}"
GRAMMAR = {
    "zookie": re.compile(rb'\{"zookie":' + TOKEN + rb"\}"),
    "sets": re.compile(rb'\{"sets":' + listed(listed(TUPLE)) + rb',"zookie":' + TOKEN + rb"\}"),
    "member": re.compile(rb'\{"member":(?:true|false),"zookie":' + TOKEN + rb"\}"),
    "events": re.compile(rb'\{"events":' + listed(EVENT) + rb',"heartbeat":' + TOKEN + rb"\}"),
    "error": re.compile(rb'\{"error":(?:[1-9]|1[0-6]),"name":"[A-Za-z]+"\}'),
}
# What a valid request over a store may be refused with: a place that is not there yet, one that is gone, a condition, a tuple that is held.
OF_A_STORE = (7, 8, 9, 10)


def wanted_of(line):
    """The refusal that bytes ask for whatever the store has, or none; and of what kind their answer is where they are not refused."""
    try:
        return None, kind_of(line)
    except Refused as refused:
        return refused.number, None


def order_of(text):
    """By what tuples are listed: namespace, object, relation, and a plain user before a userset."""
    object, user = text.split("@", 1)
    parts = [*object.partition(":")[::2]]
    inner = user.split("#") if ":" in user else []
    return parts[0], *parts[1].split("#"), len(inner), *(inner[0].split(":") if inner else (user,)), *inner[1:]


class Judge:
    """Of one session, in the order of its lines."""

    def __init__(self):
        self.greatest, self.counts = 0, Counter()

    def kind_of(self, answer):
        for kind, pattern in GRAMMAR.items():
            if pattern.fullmatch(answer):
                return kind
        raise Wrong("an answer outside of the grammar")

    def judged(self, asked, answer):
        """Raises `Wrong` where the answer can't be one to the line."""
        kind, told = self.kind_of(answer), json.loads(answer)
        self.counts[f"refused {told['error']}" if kind == "error" else kind] += 1
        must(kind != "error" or told["name"] == REFUSALS[told["error"] - 1], "a refusal of another name")
        place = read_token(told.get("zookie") or told.get("heartbeat"), STORE) if kind != "error" else 0
        if kind == "sets":
            must(all(rows == sorted(set(rows), key=order_of) for rows in told["sets"]), "rows twice, or out of their order")
        if kind == "events":
            places = [event["place"] for event in told["events"]]
            must(places == sorted(places) and all(one <= place for one in places), "events out of their order")
        must(kind != "zookie" or place > self.greatest, f"a write at {place}, and {self.greatest} was told before")
        self.fits(asked, kind, told, place)
        self.greatest = max(self.greatest, place)

    def fits(self, asked, kind, told, place):
        if asked.wanted:
            must(kind == asked.wanted[0], f"of kind {kind}, and not {asked.wanted[0]}")
            found = told if kind == "error" else told[kind]
            must(asked.wanted[1] in (None, found) or kind == "zookie", f"tells {found}, and not {asked.wanted[1]}")
            must(kind == "error" or place >= self.greatest, f"an answer of {place}, and {self.greatest} was told before")
            return
        cause, wanted = wanted_of(asked.line)
        must(cause is None or told.get("error") == cause, f"{str(told)[:200]}, and not a refusal with {cause}")
        must(cause or kind == wanted or told.get("error") in OF_A_STORE, f"{str(told)[:200]}, and not one of kind {wanted}")


NO_UTF8 = (b"\xff", b"\xc3\x28", b"\xed\xa0\x80", b"\xf0\x9f\x98", b"\xc0\xaf", b"\xf8\x88\x80\x80\x80", b"\x80", b"\xfe\xff", b"\xef\xbb\xbf")
ESCAPES = (b"\\u0000", b"\\ud800", b"\\udc00\\ud800", b"\\ud83d\\ude00", b"\\\"", b"\\\\", b"\\x41", b"\\u12", b"\\", b"\x00", b"\x1f", b"\t", b"\\n")
NUMBERS = (b"0", b"-1", b"1.0", b"1e2", b"257", b"18446744073709551616", b"1" * 400, b"1e999", b"-0", b"01", b"NaN", b"null", b"true", b"1" * 20000)
SOME_TOKEN, MEMBER = re.compile(rb"AQ[A-Za-z0-9+/]{22}"), re.compile(rb'\{[^{}\[\]]*\}|"[^"\\]*[:@][^"\\]*"')
KINDS = ("zookie", "sets", "member", "events")

# A line without its line feed; and of its answer the kind and the value, or none where it is what its bytes ask for.
Asked = namedtuple("Asked", "line wanted")


def pick_tuple(random):
    user = random.choice(("ann", "bob", "eve", "group:staff#member", "group:all#member"))
    return f"{random.choice(('doc', 'group', 'team'))}:{random.choice('abcdefgh')}{random.randrange(4)}#{random.choice(('viewer', 'owner', 'member'))}@{user}"


def pick_set(random):
    tuple = pick_tuple(random)
    return random.choice((tuple, tuple.split("@")[0], tuple.split("#")[0], f"{tuple.split(':')[0]}@{tuple.split('@')[1]}"))


def pick_freshness(random):
    name = random.choice(("at_least", "exact", None, None))
    return {name: token(random.randrange(4))} if name else {}


def valid(random):
    kind = random.choices(KINDS, (8, 25, 45, 22))[0]
    if kind == "zookie":
        changes = {pick_tuple(random): random.choice("+-") for _ in range(random.choice((1, 1, 2, 5)))}
        conditions = [{"tuple": pick_tuple(random), **random.choice(({"want": "exists"}, {"want": "absent"}, {"since": token(0)}))}] * random.choice((0, 1))
        return write(*(sign + tuple for tuple, sign in changes.items()), conditions=conditions)
    if kind == "sets":
        return read(*(pick_set(random) for _ in range(random.choice((1, 2, 4)))), **pick_freshness(random))
    if kind == "member":
        return check(pick_tuple(random), **pick_freshness(random))
    return watch(token(random.randrange(4)), *random.choice((("doc",), ("group", "team"))), limit=random.choice((1, 2, 8)))


def cut(random, line):
    start = random.randrange(len(line))
    return random.choice((line[:start], line[start:], line[:start] + line[start + random.randrange(1, 9) :]))


def double(random, line):
    start = random.randrange(len(line))
    end = min(len(line), start + random.randrange(1, 40))
    return line[:end] + line[start:end] * random.choice((1, 1, 2, 50)) + line[end:]


def change_bytes(random, line):
    made = bytearray(line)
    for _ in range(random.choice((1, 1, 2, 4))):
        made[random.randrange(len(made))] = random.randrange(256)
    return bytes(made)


def put(random, line, some):
    at = random.randrange(len(line) + 1)
    return line[:at] + some + line[at:]


def nest(random, line):
    deep = random.choice((2, 100, 127, 128, 129, 500)) if random.random() < 0.99 else random.choice((10000, 80000))
    start, end = random.choice(((b"[", b"]"), (b'{"a":', b"}"), (b"[", b""), (b'[{"op":', b"}]")))
    at = line.find(b":", random.randrange(len(line))) + 1
    return line[:at] + start * deep + random.choice((b"1", b"")) + end * deep + random.choice((b"", line[at:]))


def lengthen(random, line):
    """A text, a name, a list or the space between, much longer."""
    counts = (50, 64, 65, 128, 129, 300) if random.random() < 0.99 else (60000, MAX_LINE - len(line), MAX_LINE + 1 - len(line), 600000)
    count = max(1, random.choice(counts))
    at = random.choice((line.find(b":", 8) + 3, line.find(b"#"), line.find(b"@"), line.rfind(b'"'), random.randrange(len(line))))
    return line[: max(at, 0)] + random.choice((b"x", b"9", b" ", b"_", b'","', b"[],", b"\\")) * count + line[max(at, 0) :]


def splice(random, line):
    other = spelled(valid(random))[:-1]
    return line[: random.randrange(len(line))] + other[random.randrange(len(other)) :]


def renumber(random, line):
    start = random.choice([at for at, byte in enumerate(line) if byte in b"0123456789{["] or [0])
    return line[:start] + random.choice(NUMBERS) + line[start + 1 :]


def repeat(random, line):
    """An object or a text of a list twice."""
    found = random.choice([*MEMBER.finditer(line)] or [None])
    return line[: found.end()] + b"," + found[0] + line[found.end() :] if found else line + b" "


def other_token(random, line):
    """Another place, another store, another version, or a letter that is none."""
    found = SOME_TOKEN.search(line)
    other = random.choice((token(random.randrange(9)), token(2**62), token(1, 99), token(1)[:-1], "B" + token(1)[1:], token(1) + "=", "*" * 24, "A" * 24))
    return line[: found.start()] + other.encode() + line[found.end() :] if found else line[:-1] + b',"exact":"' + other.encode() + b'"}'


CHANGES = {
    **{"cut": cut, "double": double, "bytes": change_bytes},
    "no UTF-8": lambda random, line: put(random, line, random.choice(NO_UTF8)),
    "escape": lambda random, line: put(random, line, random.choice(ESCAPES)),
    **{"nest": nest, "lengthen": lengthen, "splice": splice, "number": renumber, "repeat": repeat, "token": other_token},
}


def hostile(random, tried):
    line = spelled(valid(random))[:-1]
    for _ in range(random.choice((0, 1, 1, 1, 1, 2, 2, 3))):
        name = random.choice((*CHANGES,))
        tried[name] += 1
        line = CHANGES[name](random, line).replace(b"\n", b"\r") or b" "
    return Asked(line, None)


def sure(name, number):
    """A valid line whose answer is known, but for its token: nobody else writes this object."""
    true = f"doc:{name}#viewer@ann"
    if number % 400 == 0:
        return Asked(spelled(write("+" + true))[:-1], ("zookie", None))
    if number % 3 == 0:
        return Asked(spelled(read(f"doc:{name}"))[:-1], ("sets", [[true]]))
    return Asked(spelled(check(true if number % 2 else f"doc:{name}#viewer@bob"))[:-1], ("member", bool(number % 2)))


def spaces():
    """Rows of bare spaces: as long as a line may be, and a byte longer."""
    yield Asked(b" " * MAX_LINE, ("error", refusal(1, "BadRequest")))
    yield Asked(b" " * (MAX_LINE + 1), ("error", refusal(3, "TooLarge")))


def lines(seed, name, count, tried):
    """So many lines, each eighth of them sure, and rows of spaces at the beginning and now and then; the first is the write that the sure ones rest on."""
    random = Random(seed)
    yield sure(name, 0)
    for number in range(1, count):
        if number % 20000 == 1:
            yield from spaces()
        yield sure(name, number // 8) if number % 8 == 0 else hostile(random, tried)
