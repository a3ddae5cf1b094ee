"""The program as a process: its status, and which bytes of its input are a line."""
import os
import re
import subprocess
from pathlib import Path

import pytest

from programs import TOP, Talking, lines_of, memory, run, zanstore

LIMIT = 262144
ASKED = "check doc:readme#viewer@ann"
# Command lines that can't be read, in several texts, with what is said of them. FOLDER is an empty one, and stays so.
CARRIED = "reshard --dir FOLDER --to FOLDER --store 1 --shards 2"
UNREAD = {
    "": "serve, call, dump, reshard, sim",
    "help sevre": "sevre",
    "sevre": "'serve'",
    "call a --slow " + ASKED: "'--slow' is not a word of a request; options come before its first word",
    f"call a {ASKED} --timeout 3": "'--timeout' is not a word of a request",
    **dict.fromkeys(
        (f"call a --follow {ASKED}", 'call a --follow {"op":"check","tuple":"doc:readme#viewer@ann"}'),
        "--follow stands before a watch, and this is none",
    ),
    "call a --timeout 0 " + ASKED: "--timeout takes a number from 1 to 4294967295",
    **dict.fromkeys(
        ("dump --dir d --shards 1 --store -1", "sim --store x", "sim --store 4294967296", "serve --store=4294967296"),
        "--store takes a number from 0 to 4294967295.",
    ),
    **dict.fromkeys(("call", "call --retry 2", *(f"call a --{it}" for it in ("retry", "retry x", "retry 1001"))), ""),
    **dict.fromkeys(("call a --follow=1", *(f"sim --shards {it}" for it in ("0", "65", "x")), "sim 1", "other"), ""),
    **dict.fromkeys(("dump", *(f"dump --dir FOLDER --store 1 --shards {it}" for it in ("65", "2 --at x"))), ""),
    **dict.fromkeys(("reshard", CARRIED, f"{CARRIED} --new-shards 65", f"{CARRIED} --new-shards 0"), ""),
}
# What the help of a command names.
HELP = {
    "call": "ADDR --retry --timeout --follow write read check watch at-least exact",
    "serve": "--dir --store --shards --listen --workers --window --connections --idle --existing --end-when-down",
    **dict.fromkeys(("dump", "reshard", "sim"), ""),
}
AT_0, OK_1, AT_1 = "at AQAAAAAAAAAAAQAAAAAAAAAA", "ok AQAAAAAAAAAAAQAAAAAAAAAB", "at AQAAAAAAAAAAAQAAAAAAAAAB"
READ, WRITE, MEMBER = "read latest doc:a\n", "write +doc:a#viewer@u1\n", "group:r#member@group:"
BAD, LARGE, FULL, DOWN, B = "refused 1 BadRequest", "refused 3 TooLarge", "refused 15 Full", "refused 13 Down", "1 doc:b#viewer@u1"
# What is shown, the words of the command line, the script, and what is printed.
PRINTED = [
    ("the greatest store stands in its tokens", "--store 4294967295", WRITE, ["ok AQAAAAAA/////wAAAAAAAAAB"]),
    ("the least store", "--store 0", WRITE, ["ok AQAAAAAAAAAAAAAAAAAAAAAB"]),
    ("the fewest shards", "--shards 1", WRITE, [OK_1]),
    ("the most shards", "--shards 64", WRITE, [OK_1]),
    ("store 1 where none is named", "", WRITE, [OK_1]),
    # Shard 1 is there and shard 2 is not.
    ("two shards where no number is given", "", "rows 1\nrows 2\n", [BAD]),
    ("a last line needs no line feed", "", READ + WRITE[:-1], [AT_0, OK_1]),
    ("a line of the greatest length", "", ";" * LIMIT + "\n" + READ, [AT_0]),
    ("a line of one byte more", "", ";" * (LIMIT + 1) + "\n" + READ, [LARGE, AT_0]),
    ("rows of bare spaces, of the greatest length and of one byte more", "", f"{' ' * LIMIT}\n{' ' * LIMIT} \n{READ}", [BAD, LARGE, AT_0]),
    # Any end of this line would be answered.
    ("the rest of a longer line is no line of its own", "", f"{'x' * (LIMIT + 100000)}\n{READ}{'y' * (LIMIT + 1)}", [LARGE, AT_0, LARGE]),
    ("a restart forgets what was learned and not flushed", "", "write +doc:b#viewer@u1\nread latest doc:b\nrows 0\nrestart 0\nrows 0\nread latest doc:b\n",
     [OK_1, AT_1, B, "1 +doc:b#viewer@u1", "up", AT_1, B]),
    ("a restart whose opening fails says so", "",
     "fail 0a 1 old\nrestart 0\nrows 0\nrestart 0\nrows 0\nfail ca 1 old\nrestart c\nread latest doc:b\nrestart c\nread latest doc:b\n",
     ["set", DOWN, DOWN, "up", "set", DOWN, DOWN, "up", AT_0]),
    # A line without a name is a flow too, until it has ended.
    ("1,024 flows run at once and no more", "", lines_of(f"start f{n} {READ[:-1]}" for n in range(1, 1025)) + READ + "flush c\ncancel f7\nflush c\n",
     [*(f"started f{n}" for n in range(1, 1025)), FULL, FULL, "cancelled f7", "done"]),
]


@pytest.mark.parametrize("words", UNREAD)
def test_status_2(words, folder):
    status, out, err = run([zanstore(), *words.replace("FOLDER", folder).split()])
    assert (status, out) == (2, "") and err and UNREAD[words] in err
    assert not os.listdir(folder)


@pytest.mark.parametrize("command", HELP)
def test_help(command):
    status, out, err = told = run([zanstore(), command, "--help"])
    assert (status, err) == (0, "") and told == run([zanstore(), "help", command])
    assert all(word in out for word in HELP[command].split())


def test_commands():
    told = run([zanstore(), "--help"])[1]
    listed = re.findall(r"^  (\w+)  ", told.split("Commands:")[1].split("Options:")[0], re.MULTILINE)
    assert listed == ["serve", "call", "dump", "reshard", "sim", "help"] and "zanstore COMMAND --help" in told


@pytest.mark.parametrize("word", ["--version", "-V"])
def test_version(word):
    """The format is that of the page; the version, where a file has it, that of the file."""
    form = re.search(r"u8 version, `0*(\d+)` where it is written", Path(TOP, "docs", "FORMAT.md").read_text())[1]
    file = Path(TOP, "VERSION")
    version = re.escape(file.read_text().strip()) if file.exists() else r"\d+\.\d+\.\d+"
    status, out, err = run([zanstore(), word])
    assert status == 0 and re.fullmatch(rf"zanstore {version} \(format {form}\)\n", out + err)


@pytest.mark.parametrize("what, words, script, wanted", PRINTED, ids=[row[0] for row in PRINTED])
def test_printed(what, words, script, wanted):
    assert run([zanstore(), "sim", *words.split()], script.encode())[:2] == (0, lines_of(wanted).encode())


def test_a_check_walks_4096_usersets_and_no_more():
    """The asked userset has 4,095 others, and then one more."""
    numbers = [[n for n in range(first, first + 64) if n != 4096] for first in range(1, 4097, 64)]
    writes = [" ".join(["write", *(f"+{MEMBER}g{n}#member" for n in some)]) for some in numbers]
    asked = ["check latest group:r#member@u1", f"write +{MEMBER}last#member", "check latest group:r#member@u1"]
    printed = run([zanstore(), "sim"], lines_of([*writes, *asked]))[1].splitlines()
    assert printed[-3:] == ["no AQAAAAAAAAAAAQAAAAAAAABA", "ok AQAAAAAAAAAAAQAAAAAAAABB", FULL]


def test_status_1_where_an_answer_is_lost():
    with open("/dev/full", "w") as full:
        assert run([zanstore(), "sim"], READ, stdout=full)[0] == 1


def test_status_1_where_the_input_cannot_be_read(folder):
    with subprocess.Popen([zanstore(), "sim"], stdin=os.open(folder, os.O_RDONLY), stdout=subprocess.PIPE, stderr=subprocess.DEVNULL) as child:
        assert (child.communicate(timeout=60)[0], child.returncode) == (b"", 1)


def test_each_answer_is_out_before_the_next_line_is_read():
    with Talking([zanstore(), "sim"]) as sim:
        for _ in range(2):
            sim.give(READ[:-1])
            assert sim.line() == AT_0
        assert sim.end() == (0, "")


def test_memory_does_not_grow_with_the_length_of_a_script():
    """Forty million bytes of comments, and what the process has taken at most."""
    with Talking([zanstore(), "sim"]) as sim:
        sim.give(*[";" * 100000] * 400, READ[:-1])
        assert sim.line() == AT_0
        assert memory(sim.child) <= 32768
