"""Images whose answers were worked out by hand, each with a name: the first bank of a shard with one change, both banks beside each other, and version 1."""

from imaging.format import CLOSED, NOT_AFTER, OPEN, Begins, Decision, Ends, Epoch, Horizon, Learned, Prepare, Row, batch_bytes, device_bytes, number
from imaging.making import Image
from imaging.replaying import COORDINATOR

STORE, SHARDS, SHARD = 1, 2, 1
EMPTY = b""
DAMAGED = ["refused 16 Damaged"]
U1, U2 = (("doc", "a", "viewer", (0, user)) for user in ("u1", "u2"))
LOCK = ("doc", "a", "lock", (0, "lock"))
ID, NEXT = (1, 1), (1, 2)
# A shard behind its first opening, in version 1: 28 bytes, whose body has 22.
FIRST = bytes.fromhex("a5" "00000016" "01" "0001" "04" "0000000000000001" "0000000000000001" "02" "01" "00")
# A batch of version 1, which prepares a touch, and what stands behind that touch where it is asked that the tuple was not changed after place 0.
PREPARED = bytes.fromhex("01" "0001" "01" "0000000000000001" "0000000000000001" "01" "01" "03646f63" "0161" "06766965776572" "01" "027531")
CONDITION = bytes.fromhex("01" "03646f63" "0161" "06766965776572" "01" "027531" "0000000000000000")


def epoch(count, node=SHARD):
    return Epoch(count, STORE, SHARDS, node)


def device(*batches, version=2):
    return device_bytes([(version, [*records]) for records in batches])


def with_body(made, body):
    """The device with one body more behind its list, which ends with its last byte."""
    return made[:-1] + b"\xa5" + number(4, len(body)) + body + b"\0"


def changed(at, *bytes):
    return FIRST[:at] + number(len(bytes), int.from_bytes(bytes, "big")) + FIRST[at + len(bytes) :]


def opened(made, count, node):
    """The device behind an opening: one record more, at the gate that ends its list."""
    return with_body(made, batch_bytes(2, [epoch(count, node)]))


def checkpoint(generation, learned, *rows, horizon=0, count=1, end=None):
    return [Begins(generation), epoch(count), Horizon(horizon), Learned(learned, ()), *rows, *(end if end is not None else [Ends(generation)])]


def kept(generation, horizon, *decisions):
    return [Begins(generation), epoch(1, COORDINATOR), Horizon(horizon), *decisions, Ends(generation)]


def decision(place, id, *conditions):
    return Decision(place, id, ((True, LOCK),), conditions)


def row(place, is_touch=True, named=U1):
    return Row(place, (is_touch, named))


def damaged(name, a, b=EMPTY, node=SHARD):
    return name, Image(node, STORE, SHARDS, a, b), DAMAGED


def found(name, a, b, current, count, *told, node=SHARD):
    """The answer where a bank is the current one, and the opening is of this epoch."""
    banks = [made or number(1, CLOSED) for made in (a, b)]
    banks["ab".index(current)] = opened(banks["ab".index(current)], count, node)
    return name, Image(node, STORE, SHARDS, a, b), [*told, *(made.hex() for made in banks)]


PREPARE = Prepare(ID, ((True, U1),), ())
# What a shard has that has learned one write.
LIST = [[epoch(1)], [PREPARE], [Learned(1, ((ID, 1),))]]
PLAIN = device(*LIST)
TOLD = ("learned 1", "1 +doc:a#viewer@u1")
# Two checkpoints, as one that has learned a second write would make them, and the next one of the same without its end.
SECOND = [row(1), row(2, named=U2)]
SECOND_TOLD = ("learned 2", "1 +doc:a#viewer@u1", "2 +doc:a#viewer@u2")
ONE, TWO = (device(checkpoint(generation, 2, *SECOND)) for generation in (1, 2))
ONE_CUT, TWO_CUT = (device(checkpoint(generation, 2, *SECOND, end=[])) for generation in (1, 2))
FIRST_KEPT, SECOND_KEPT = decision(1, ID, (LOCK, NOT_AFTER, 0)), decision(2, NEXT, (LOCK, NOT_AFTER, 1))
LOG = device([epoch(1, COORDINATOR)], [FIRST_KEPT], [SECOND_KEPT])
LOG_TOLD = ("commit 1.2 2", "2 +doc:a#lock@lock")

# Devices that were never written to, or to no end.
UNMADE = [
    ("a shard that was never opened", Image(SHARD, STORE, SHARDS, EMPTY, EMPTY), ["learned 0", device([epoch(1)]).hex(), "00"]),
    ("a coordinator that was never opened", Image(COORDINATOR, STORE, SHARDS, EMPTY, EMPTY), ["kept 0 horizon 0", device([epoch(1, COORDINATOR)]).hex(), "00"]),
    damaged("a gate without a length", bytes([OPEN, CLOSED]), node=COORDINATOR),
    damaged("opened as another shard", FIRST, node=0),
]

# Bank a of a shard behind its first opening with one change, and an empty bank b.
CHANGES = [
    found("as it is", FIRST, EMPTY, "a", 2, "learned 0"),
    damaged("byte 26 is 00: of another node", changed(26, 0)),
    damaged("bytes 1 to 4 are 00000000: a body without a byte", changed(1, 0, 0, 0, 0)),
    damaged("bytes 1 to 4 are 00000017: no gate behind the body", changed(1, 0, 0, 0, 0x17)),
    damaged("cut to 27 bytes: no gate behind the body", FIRST[:27]),
    damaged("byte 5 is 03: of no version", changed(5, 3)),
    damaged("byte 8 is 08: a record of no kind", changed(8, 8)),
    # What stood behind the gate is as long as what the opening writes there.
    ("byte 0 is 00: an empty list", Image(SHARD, STORE, SHARDS, changed(0, 0), EMPTY), ["learned 0", device([epoch(1)]).hex(), "00"]),
]

# Both banks of a shard.
BANKS = [
    found("a list alone", PLAIN, EMPTY, "a", 2, *TOLD),
    found("a checkpoint beside the list before it", PLAIN, ONE, "b", 2, *SECOND_TOLD),
    found("a checkpoint without the list before it", EMPTY, ONE, "b", 2, *SECOND_TOLD),
    found("a checkpoint beside the one before it", TWO, device(checkpoint(1, 1, row(1))), "a", 2, *SECOND_TOLD),
    found("records behind a checkpoint", PLAIN, device(checkpoint(1, 1, row(1)), [epoch(2)], [Prepare(NEXT, ((False, U1),), ())]), "b", 3,
          "learned 1", "undecided 1.2", "1 +doc:a#viewer@u1"),
    found("a checkpoint in two batches", PLAIN, device(checkpoint(1, 2, *SECOND)[:4], checkpoint(1, 2, *SECOND)[4:]), "b", 2, *SECOND_TOLD),
    found("a write in doubt in a checkpoint", PLAIN, device(checkpoint(1, 0, PREPARE)), "b", 2, "learned 0", "undecided 1.1"),
    damaged("equal generations", device(checkpoint(1, 1, row(1))), ONE),
    damaged("two lists without a checkpoint", PLAIN, PLAIN),
    damaged("a list without a checkpoint on bank b alone", EMPTY, PLAIN),
    found("an incomplete bank b beside a complete bank a", PLAIN, ONE_CUT, "a", 2, *TOLD),
    found("an incomplete bank a beside a complete bank b", TWO_CUT, ONE, "b", 2, *SECOND_TOLD),
    found("a bank b that begins and has no more", PLAIN, device([Begins(1)]), "a", 2, *TOLD),
    damaged("both banks incomplete", TWO_CUT, ONE_CUT),
    damaged("one bank, incomplete", EMPTY, ONE_CUT),
    damaged("a damaged bank b beside a complete bank a", PLAIN, ONE[:-1]),
    damaged("a damaged bank a beside a complete bank b", PLAIN[:-1], ONE),
    damaged("a damaged bank that is not the current one", changed(8, 8), ONE),
    damaged("a row behind a list", device(*LIST, [row(1)])),
    damaged("a row behind a checkpoint", PLAIN, device(checkpoint(1, 1), [row(1)])),
    damaged("a row as the first record", device([row(1)])),
    found("an end of another generation beside a complete bank", PLAIN, device(checkpoint(1, 2, end=[Ends(2)])), "a", 2, *TOLD),
    damaged("an end of another generation, alone", EMPTY, device(checkpoint(1, 2, end=[Ends(2)]))),
    damaged("an end of another generation before its own", PLAIN, device(checkpoint(1, 2, end=[Ends(2), Ends(1)]))),
    damaged("an end twice", PLAIN, device(checkpoint(1, 2, end=[Ends(1), Ends(1)]))),
    damaged("a horizon above what is learned", PLAIN, device(checkpoint(1, 1, horizon=2))),
    found("a horizon at what is learned", PLAIN, device(checkpoint(1, 1, row(1), horizon=1)), "b", 2, *TOLD),
    found("a first epoch of 7 in a checkpoint", PLAIN, device(checkpoint(1, 1, row(1), count=7)), "b", 8, *TOLD),
    damaged("a first epoch of 7 in no checkpoint", device([epoch(7)])),
    damaged("an epoch of 0 in a checkpoint", PLAIN, device(checkpoint(1, 1, count=0))),
    damaged("a generation of 0", PLAIN, device(checkpoint(0, 1))),
]

# The coordinator's, whose decisions in a checkpoint go on from its horizon.
DECIDED = [
    found("a list of decisions", LOG, EMPTY, "a", 2, "kept 2 horizon 0", "commit 1.1 1", "1 +doc:a#lock@lock", *LOG_TOLD, node=COORDINATOR),
    found("decisions above a horizon", LOG, device(kept(1, 1, SECOND_KEPT)), "b", 2, "kept 2 horizon 1", *LOG_TOLD, node=COORDINATOR),
    found("a horizon alone", LOG, device(kept(1, 2)), "b", 2, "kept 2 horizon 2", node=COORDINATOR),
    damaged("a gap behind the horizon", LOG, device(kept(1, 0, SECOND_KEPT)), node=COORDINATOR),
    damaged("equal generations of the coordinator", device(kept(1, 1, SECOND_KEPT)), device(kept(1, 1, SECOND_KEPT)), node=COORDINATOR),
    damaged("a checkpoint of a shard as the coordinator's", LOG, ONE, node=COORDINATOR),
    damaged("a condition that the decisions break", device([epoch(1, COORDINATOR)], [FIRST_KEPT], [decision(2, NEXT, (LOCK, NOT_AFTER, 0))]), node=COORDINATOR),
]

# Version 1, which is read and never written.
VERSION_1 = [
    found("a write in doubt", with_body(FIRST, PREPARED + b"\0"), EMPTY, "a", 2, "learned 0", "undecided 1.1"),
    found("a write in doubt with a condition", with_body(FIRST, PREPARED + CONDITION), EMPTY, "a", 2, "learned 0", "undecided 1.1"),
    damaged("a condition as version 2 has it", with_body(FIRST, PREPARED + CONDITION[:-8] + b"\1" + CONDITION[-8:])),
    damaged("a condition of version 1 in version 2", with_body(FIRST, b"\2" + PREPARED[1:] + CONDITION)),
    found("a list", device(*LIST, version=1), EMPTY, "a", 2, *TOLD),
    found("a checkpoint", device(*LIST, version=1), device(checkpoint(1, 2, *SECOND), version=1), "b", 2, *SECOND_TOLD),
    found("decisions", device([epoch(1, COORDINATOR)], [FIRST_KEPT], [SECOND_KEPT], version=1), EMPTY, "a", 2,
          "kept 2 horizon 0", "commit 1.1 1", "1 +doc:a#lock@lock", *LOG_TOLD, node=COORDINATOR),
]

ROWS = [*UNMADE, *CHANGES, *BANKS, *DECIDED, *VERSION_1]


def text_of(image):
    """The row that asks for an image."""
    node = "c" if image.node == COORDINATOR else image.node
    return f"{node} {image.store} {image.shards} {image.a.hex() or '-'} {image.b.hex() or '-'}"


def given_and_told():
    """What the program's own test gives it, and what it has to say: rows that are none, and those above."""
    few = [("row", ["refused 1 BadRequest"]), ("2 1 2 - -", ["refused 1 BadRequest"]), ("1 1 2 a -", ["refused 1 BadRequest"])]
    rows = [*few, *((text_of(image), told) for _, image, told in ROWS)]
    return "".join(f"{row}\n" for row, _ in rows), "".join(f"{line}\n" for _, told in rows for line in [*told, ";"])
