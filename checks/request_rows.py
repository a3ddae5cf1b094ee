"""The rows of request_lines.tsv: lines that a session is given, each with its answer."""
import re
from pathlib import Path

from judge.lines import REFUSALS, token

ROWS = Path(__file__).with_name("request_lines.tsv")
BYTES = {b"<TAB>": b"\t", b"<CR>": b"\r", b"<LF>": b"\n", b"<BOM>": b"\xef\xbb\xbf", b"<FF>": b"\xff"}

CHANGE = b'{"op":"touch","tuple":"doc:a#v@u"}'

# A name may have as many bytes, and an id twice as many.
NAME64 = b"a23456789_b23456789_c23456789_d23456789_e23456789_f23456789_g234"

BEFORE = b"".join(b'{"op":"write","changes":[{"op":"touch","tuple":"doc:p#v@u%d"}]}\n' % n for n in range(1, 6))


# One row for each of these texts.
CHOICE = re.compile(rb"<((?:[^<>]|<[A-Z]+>)*\|(?:[^<>]|<[A-Z]+>)*)>")


def each_of(row):
    """The rows for which a row stands."""
    found = CHOICE.search(row)
    if not found:
        return [row]
    before, behind = row[: found.start()], row[found.end() :]
    return [one for text in found[1].split(b"|") for one in each_of(before + text + behind)]


def spelled(text):
    text = re.sub(rb"READ\((.*?)\)", rb'{"op":"read","sets":["\1"]}', text)
    text = re.sub(rb"CHECK\((.*?)\)", rb'{"op":"check","tuple":"\1"}', text)
    text = text.replace(b"NAME", NAME64).replace(b"CHANGE", CHANGE).replace(b"OTHER", token(2, 1).encode())
    text = re.sub(rb"PLACE_(\d)", lambda it: token(1, int(it[1])).encode(), text)
    repeated = lambda it: b",".join(it[2].replace(b"INDEX", b"%d" % n) for n in range(int(it[1])))
    text = re.sub(rb"(\d+)\*\((.*?)\)\*", repeated, text)
    text = re.sub(rb"(\d+)x\((.*?)\)x", lambda it: int(it[1]) * it[2], text)
    for word, byte in BYTES.items():
        text = text.replace(word, byte)
    return text


def given(line):
    return spelled(line.removesuffix(b"<END>")) + (b"" if line.endswith(b"<END>") else b"\n")


def wanted(answer):
    if answer.isdigit():
        return b'{"error":%d,"name":"%s"}' % (int(answer), REFUSALS[int(answer) - 1].encode())
    return spelled(answer)


def rows():
    """For each its answer as it stands there, the bytes to send, and the bytes of the last answer."""
    for row in ROWS.read_bytes().splitlines():
        for one in each_of(row) if row and not row.startswith(b"#") else ():
            answer, line = one.split(b"\t", 1)
            yield answer, given(line), wanted(answer)


def is_refused_before(answer):
    """Whether it is a refusal before any store is asked."""
    return answer.isdigit() and 1 <= int(answer) <= 6
