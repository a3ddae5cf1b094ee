"""An image with one thing changed: of its bytes, of its records, or of the node that it is opened as."""
from imaging.format import ABSENT, EXISTS, NOT_AFTER, Rules, batches_of, device_bytes
from verdicts import double, less, turned

EDGES = (0, 1, 2**63 - 1, 2**63, 2**64 - 1)
TEXTS = ("a", "b", "doc", "x y", "", "a" * 64, "a" * 65, "a" * 129, "A", "a#b", "a:b", "a@b", "a+b")


def changed(random, image, images):
    """What was done, and the image behind it."""
    kind = random.choice((of_byte, of_byte, of_piece, of_record, of_record, of_list, of_batch, of_identity, of_banks))
    if kind in (of_identity, of_banks):
        return kind(random, image)
    bank = random.choice(filled(image))
    what, device = kind(random, getattr(image, bank), images)
    return what, image._replace(**{bank: device})


def filled(image):
    """The banks that have a batch."""
    return [bank for bank in ("a", "b") if len(getattr(image, bank)) > 1]


def of_byte(random, device, _):
    at = random.randrange(len(device))
    old = device[at]
    new = random.choice((random.randrange(256), old ^ 1 << random.randrange(8), (old + 1) % 256, (old - 1) % 256, 0xA5, 0, 1, 2, 0xFF))
    return "a byte", device[:at] + bytes([new]) + device[at + 1 :]


def of_piece(random, data, _):
    begin = random.randrange(len(data))
    end = min(len(data), begin + random.choice((1, 2, random.randrange(1, 40), len(data))))
    before, piece, behind = data[:begin], data[begin:end], data[end:]
    kinds = {"cut": before, "doubled": before + piece + piece + behind, "left out": before + behind, "put behind": data + piece}
    kind, made = random.choice([*kinds.items()])
    return f"a piece {kind}", made


def other_number(random, value, most):
    return random.choice([it for it in (value - 1, value + 1, *EDGES) if 0 <= it <= most])


def other_id(random, id):
    at = random.randrange(2)
    return tuple(other_number(random, value, 2**64 - 1) if index == at else value for index, value in enumerate(id))


def other_tuple(random, named):
    at = random.randrange(4)
    if at < 3:
        return (*named[:at], random.choice(TEXTS), *named[at + 1 :])
    return (*named[:3], random.choice(((0, random.choice(TEXTS)), (1, "doc", random.choice(TEXTS), "viewer"))))


def other_item(random, one):
    """Another change, or another condition."""
    if len(one) == 2:
        return random.choice(((not one[0], one[1]), (one[0], other_tuple(random, one[1]))))
    place = one[2] or 0
    kinds = ((one[0], NOT_AFTER, other_number(random, place, 2**64 - 1)), (one[0], random.choice((EXISTS, ABSENT, 4)), place), (other_tuple(random, one[0]), *one[1:]))
    return random.choice(kinds)


def other_list(random, items, other):
    """One of them more, less, twice, elsewhere, or another one."""
    if not items:
        return items
    put = lambda items, at: (*items[:at], other(random, items[at]), *items[at + 1 :])
    return random.choice((less, double, turned, put, put))(items, random.randrange(len(items)))


def other_placed(random, placed):
    id, place = placed
    return random.choice(((other_id(random, id), place), (id, other_number(random, place, 2**64 - 1))))


FIELDS = {
    "change": other_item,
    "id": other_id,
    "placed": lambda random, value: other_list(random, value, other_placed),
    "changes": lambda random, value: other_list(random, value, other_item),
    "conditions": lambda random, value: other_list(random, value, other_item),
    "shards": lambda random, value: other_number(random, value, 255),
    "node": lambda random, value: other_number(random, value, 255),
}


def other_record(random, made):
    """A record with another value in one field; a mark may be another mark too."""
    field = random.choice(made._fields)
    other = FIELDS.get(field, lambda random, value: other_number(random, value, 2**64 - 1))
    return field, made._replace(**{field: other(random, getattr(made, field))})


def some_record(random, device):
    """The batches, where one of them is, and where a record of it is."""
    batches, _ = batches_of(Rules(), device)
    at = random.randrange(len(batches))
    return batches, at, random.randrange(len(batches[at][1]))


def of_record(random, device, _):
    """Another value in one field of a record."""
    batches, at, which = some_record(random, device)
    version, records = batches[at]
    field, made = other_record(random, records[which])
    batches[at] = version, [*records[:which], made, *records[which + 1 :]]
    return f"another {field} of a {type(made).__name__}", device_bytes(batches)


def of_list(random, device, images):
    """A record left out, doubled, put elsewhere, or one of another node put in."""
    batches, at, which = some_record(random, device)
    version, records = batches[at]
    kind = random.choice(("left out", "doubled", "put elsewhere", "of another node"))
    if kind == "doubled":
        batches[at] = version, double(records, which)
    elif kind in ("left out", "put elsewhere"):
        batches[at] = version, less(records, which)
    if kind == "put elsewhere":
        batches.insert(random.randrange(len(batches) + 1), (version, [records[which]]))
    elif kind == "of another node":
        batches[at] = 2, [*records[:which], a_stranger(random, images), *records[which:]]
    # A batch that has no record more is left out too, or stays as it is.
    stays = random.random() < 0.5
    return f"a record {kind}", device_bytes([batch for batch in batches if batch[1] or stays])


def a_stranger(random, images):
    """A record of some node."""
    image = random.choice(images)
    batches, at, which = some_record(random, getattr(image, random.choice(filled(image))))
    return batches[at][1][which]


def of_batch(random, device, _):
    batches, at, _ = some_record(random, device)
    kinds = {
        "left out": batches[at + 1 : at + 2],
        "doubled": [batches[at], *batches[at : at + 2]],
        "of another version": [(random.choice((0, 1, 2, 3)), batches[at][1]), *batches[at + 1 : at + 2]],
        "joined": [(2, [made for _, some in batches[at : at + 2] for made in some])],
    }
    kind, made = random.choice([*kinds.items()])
    return f"a batch {kind}", device_bytes([*batches[:at], *made, *batches[at + 2 :]])


def of_identity(random, image):
    """The bytes as they are, of another node, store or number of shards."""
    node, store = random.choice([0xFF, *range(image.shards)]), (image.store + random.choice((1, 2**32 - 1))) % 2**32
    kinds = {"node": {"node": node}, "store": {"store": store}, "number of shards": {"shards": min(64, image.shards + 1)}}
    kind, other = random.choice([*kinds.items()])
    return f"opened with another {kind}", image._replace(**other)


def of_banks(random, image):
    """The banks in each other's place, one of them twice, or one of them gone."""
    a, b, gone = image.a, image.b, random.choice((b"", b"\0", b"\xa5"))
    kinds = {"swapped": (b, a), "of bank a twice": (a, a), "of bank b twice": (b, b), "without bank a": (gone, b), "without bank b": (a, gone)}
    kind, (a, b) = random.choice([*kinds.items()])
    return f"banks {kind}", image._replace(a=a, b=b)
