"""What a line of a script asks, or the number of its refusal: shape (1), sizes (3), texts (2), tokens (5, 6), repeats (4), in this order."""
import base64
import re

from judge.definitions import Change, Condition, Tuple

NAME = r"[a-z0-9_]{1,64}"
# The bytes from 21 to 7e hexadecimal but `#`, `+`, `:` and `@`.
ID = r"[!\"$-*,-9;-?A-~]{1,128}"
TUPLE = re.compile(rf"({NAME}):({ID})#({NAME})@(.*)", re.S)
OBJECT = re.compile(rf"({NAME}):({ID})(?:#({NAME}))?")
BY_USER = re.compile(rf"({NAME})(?:#({NAME}))?@(.*)", re.S)
FLOW = re.compile(r"[a-z0-9]{1,16}")
NUMBER = re.compile(r"0|[1-9][0-9]*")
CALLS = (
    "begin heads learned batch learn stage_prepare flush vote decide outcome abort drop_write inquire in_doubt read settle raise collect checkpoint"
).split()
REFUSALS = "BadRequest BadTuple TooLarge Repeated BadZookie WrongStore Future Collected Precondition Busy Aborted Unsure Down NoMemory Full Damaged".split()
MAX_LINE = 262144
MAX_SHARDS = 64
GREATEST = 2**63 - 1


class Refused(Exception):
    def __init__(self, number):
        super().__init__(number)
        self.number = number


def need(is_so, number=1):
    if not is_so:
        raise Refused(number)


def read_user(text):
    if ":" not in text:
        return (0, text) if re.fullmatch(ID, text) else None
    parts = OBJECT.fullmatch(text)
    return (1, *parts.groups()) if parts and parts[3] else None


def read_tuple(text):
    parts = TUPLE.fullmatch(text)
    user = read_user(parts[4]) if parts else None
    need(user, 2)
    return Tuple(parts[1], parts[2], parts[3], user)


def read_tupleset(text):
    first = re.search("[:#@]", text)
    if first and first[0] == ":" and "@" in text:
        return ("key", read_tuple(text))
    if first and first[0] == ":":
        parts = OBJECT.fullmatch(text)
        need(parts, 2)
        return ("object", *parts.groups())
    parts = BY_USER.fullmatch(text) if first else None
    user = read_user(parts[3]) if parts else None
    need(user, 2)
    return ("user", parts[1], user, parts[2])


def token(store, place):
    return base64.b64encode(bytes([1, 0]) + store.to_bytes(8, "big") + place.to_bytes(8, "big")).decode()


def read_token(text, store):
    need(re.fullmatch(r"[A-Za-z0-9+/]{24}", text), 5)
    found = base64.b64decode(text)
    need(found[:2] == bytes([1, 0]), 5)
    need(int.from_bytes(found[2:10], "big") == store, 6)
    return int.from_bytes(found[10:], "big")


def read_number(text, least=0):
    need(NUMBER.fullmatch(text) and least <= int(text) <= GREATEST)
    return int(text)


class Reader:
    def __init__(self, store, shards):
        self.store = store
        self.shards = shards

    def command(self, line, running):
        """The command of a line, where these flows run: a list whose first part is its kind. Raises `Refused`."""
        need(len(line.encode()) <= MAX_LINE, 3)
        if line == "" or line.startswith(";"):
            return ["pass"]
        match line.split(" "):
            case ["write" | "read" | "check" | "watch", *_] as words:
                return ["ask", self.request(words)]
            case ["start", name, _, *_] as words if FLOW.fullmatch(name) and name not in running:
                return ["start", name, self.request(words[2:])]
            case ["turn" | "run" | "cancel", name] as words if name in running:
                return words
            case ["until", name, call] as words if name in running and call in CALLS:
                return words
            case ["fail", bank, count, tear] if bank[-1:] in ("a", "b") and re.fullmatch("old|new|[0-9a-f]{2}", tear):
                return ["fail", self.node(bank[:-1]), bank[-1], read_number(count, 1), tear]
            # A store is not carried over while a flow runs.
            case ["reshard", count] if not running and read_number(count, 1) <= MAX_SHARDS:
                return ["reshard", int(count)]
            case ["raise", place]:
                return ["raise", read_number(place)]
            case ["flush" | "checkpoint" | "restart" as kind, node]:
                return [kind, self.node(node)]
            case ["learn" | "resolve" | "collect" | "rows" as kind, shard] if shard != "c":
                return [kind, self.node(shard)]
        raise Refused(1)

    def node(self, text):
        if text == "c":
            return text
        shard = read_number(text)
        need(shard < self.shards)
        return shard

    def request(self, words):
        match words:
            case ["write", *parts]:
                return self.write(parts)
            case ["read", fresh, _, *_]:
                fresh = self.fresh(fresh)
                need(len(words) <= 18, 3)
                sets = [read_tupleset(word) for word in words[2:]]
                return ["read", self.freshened(fresh), sets]
            case ["check", fresh, text]:
                fresh, asked = self.fresh(fresh), read_tuple(text)
                return ["check", self.freshened(fresh), asked]
            case ["watch", start, limit, _, *_]:
                need(read_number(limit, 1) <= 256)
                need(len(words) <= 19, 3)
                need(all(re.fullmatch(NAME, word) for word in words[3:]), 2)
                return ["watch", ("exact", read_token(start, self.store)), int(limit), words[3:]]
        raise Refused(1)

    def write(self, words):
        cut = words.index("if") if "if" in words else len(words)
        changes, conditions = words[:cut], words[cut + 1 :]
        need(changes and all(word[:1] in ("+", "-") and word for word in changes))
        need(cut == len(words) or conditions)
        split = [self.condition(word) for word in conditions]
        need(len(changes) <= 64 and len(split) <= 16, 3)
        made = [Change(word[0] == "+", read_tuple(word[1:])) for word in changes]
        asked = [Condition(read_tuple(text), want) for text, want in split]
        for named in (made, asked):
            need(len({part.tuple for part in named}) == len(named), 4)
        return ["write", made, asked]

    def condition(self, word):
        if word.startswith(("?", "!")):
            return word[1:], {"?": "exists", "!": "absent"}[word[0]]
        text, sign, place = word.rpartition("=")
        need(sign)
        return text, read_number(place)

    def fresh(self, word):
        if word == "latest":
            return "latest", None
        for kind, sign in (("least", ">="), ("exact", "=")):
            if word.startswith(sign):
                return kind, word[len(sign) :]
        raise Refused(1)

    def freshened(self, fresh):
        kind, text = fresh
        return kind, None if text is None else read_token(text, self.store)
