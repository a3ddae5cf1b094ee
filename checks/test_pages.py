"""Runs the examples of the pages at the top and in docs/ and compares what they print; looks after their links and names.

A block ```script, with words of the command line behind it if there are any, is a script, and the next block, ```prints, is what it prints; where the
text before it names a script of examples/ by `Script [NAME](..)`, it is that script. A block ```requests is a session over a plain list of touches,
and ```answers its answers. In a block ```console each line `$ ./zanstore ..`, with its lines up to END, is run, and prints what follows; one that ends with & is a
server, which goes on to the end of the block, in a folder of its own and at a port that is free. A relative link
leads to a file that is there, and to a heading of it; a link whose text is a name in code leads to a source that has it. In a table of limits that
constant has the last number of the row's second cell, in a table of crates each name in code of the second cell stands in that crate, in one of clauses
each name in code of the first two cells stands in some crate, and in one of refusals each number and name is one. On the page of the laws each file of
laws has a row, each row is of such a file, and each law there has a comment. Each picture is what its text or its table gives, as
`docs/pictures/draw --check` and `bench/chart --check` tell it, and stands on one page, with words for whoever can't see it.
"""
import functools
import itertools
import os
import re
import shlex
import shutil
import signal
import subprocess
import tempfile
import threading
from collections import namedtuple
from pathlib import Path

import programs
from programs import harness, lines_of, module_of, run
from serving.server import HOST, free_port
from verdicts import SAME, all_noticed, none, spoiled_texts

TOP, PROGRAM = Path(programs.TOP), programs.zanstore()
# What has to follow a block of this kind.
FOLLOWS = {"script": "prints", "requests": "answers"}
LINK = re.compile(r"\[([^\]]+)\]\(([^)\s]+)\)")
PICTURE = re.compile(r"!\[([^\]]*)\]\(([^)\s]+\.svg)\)")
CODE = re.compile(r"`([^`]+)`")
NUMBER = re.compile(r"2\^(\d+)( - 1)?|\d[\d,]*")
# The address of the server that the pages show.
SHOWN = HOST + ":7700"


# A fenced block: the number of its first line, of what kind it is, the words behind that, the text before it and its own lines.
Block = namedtuple("Block", "line kind words before text")


def blocks_of(page):
    """The fenced blocks, each with the text that stands before it, and the lines that stand in none."""
    blocks, plain, before, block = [], [], [], None
    for number, line in enumerate(page.split("\n"), 1):
        fence = line.startswith("```")
        if fence and block is None:
            kind, *words = line[3:].split() or [""]
            block = Block(number, kind, words, "\n".join(before), [])
        elif fence:
            blocks.append(block)
            block, before = None, []
        elif block is not None:
            block.text.append(line)
        else:
            before.append(line)
            plain.append((number, line))
    return blocks if block is None else [*blocks, block], plain


@functools.lru_cache(None)
def printed(words, given):
    status, out, _ = run(words, given, cwd=TOP)
    return out.splitlines() if status == 0 else [f"status {status}"]


def difference(wanted, told):
    for number, (one, other) in enumerate(itertools.zip_longest(wanted, told, fillvalue="nothing"), 1):
        if one != other:
            return f"line {number} of what is printed is `{other}`, and not `{one}`"
    return None


def named_script(block):
    """Where the text before it names a script of examples/, why this is another one."""
    found = re.findall(r"[Ss]cript \[[^\]]*\]\([^)]*examples/([^)]*)\.script\)", block.before)
    is_other = found and Path(TOP, "examples", f"{found[-1]}.script").exists() and programs.example(found[-1]) != block.text
    return f"is not examples/{found[-1]}.script" if is_other else None


def run_pair(block, answer):
    if block.kind == "requests":
        return difference(answer.text, printed((*harness("session"),), lines_of(block.text)))
    return named_script(block) or difference(answer.text, printed((PROGRAM, "sim", *block.words), lines_of(block.text)))


def commands_of(text):
    """Each command of a console, with what it prints."""
    commands, end = [], None
    for line in text:
        if end is not None:
            commands[-1][0].append(line)
            end = None if line == end else end
        elif line.startswith("$ "):
            commands.append(([line[2:]], []))
            here = re.search(r"<<'?(\w+)'?", line)
            end = here[1] if here else None
        elif commands:
            commands[-1][1].append(line)
    return commands


def spelled(command):
    """A command of a console, as a shell is told it."""
    return lines_of([command[0].replace("./zanstore ", shlex.quote(PROGRAM) + " "), *command[1:]])


@functools.lru_cache(None)
def printed_by_server(serving, *asking):
    """The first line of a server, and what each command prints that is given beside it."""
    here = f"{HOST}:{free_port()}"
    with tempfile.TemporaryDirectory() as folder:
        words = ("bash", "-c", serving.replace(SHOWN, here))
        server = subprocess.Popen(words, stdout=subprocess.PIPE, stderr=subprocess.DEVNULL, text=True, cwd=folder, start_new_session=True)
        late = threading.Timer(60, os.killpg, (server.pid, signal.SIGKILL))
        late.start()
        try:
            first = server.stdout.readline().splitlines()
            return [first, *(printed(("bash", "-c", each.replace(SHOWN, here)), "") for each in asking)]
        finally:
            late.cancel()
            os.killpg(server.pid, signal.SIGKILL)
            server.wait()


def run_console(block):
    commands = commands_of(block.text)
    if not commands:
        return "has no command"
    for command, _ in commands:
        if "./zanstore " not in command[0]:
            return f"runs what is not the program: {command[0]}"
    scripts = [spelled(command) for command, _ in commands]
    if scripts[0].endswith(" &\n"):
        told = printed_by_server(scripts[0][:-3], *scripts[1:])
    else:
        told = [printed(("bash", "-c", script), "") for script in scripts]
    return next(filter(None, (difference(wanted, each) for (_, wanted), each in zip(commands, told))), None)


def faults_of_blocks(blocks):
    for before, block, after in zip([None, *blocks], blocks, [*blocks[1:], None]):
        found = run_console(block) if block.kind == "console" else None
        if wanted := FOLLOWS.get(block.kind):
            found = run_pair(block, after) if after and after.kind == wanted else f"has no block {wanted} behind it"
        elif block.kind in FOLLOWS.values() and (not before or FOLLOWS.get(before.kind) != block.kind):
            found = "stands behind no example"
        if found:
            yield block.line, f"the block {block.kind} {found}"


def anchors_of(page):
    _, plain = blocks_of(page)
    titles = [line.lstrip("#").strip() for _, line in plain if re.match(r"#+ ", line)]
    return {re.sub(r"[^\w\- ]", "", title.lower()).replace(" ", "-") for title in titles}


def fault_of_link(at, page, text, target):
    path, _, anchor = target.partition("#")
    file = (at.parent / path).resolve() if path else at
    if not file.exists():
        return f"the link to {target} leads nowhere"
    if anchor and anchor not in anchors_of(file.read_text() if path else page):
        return f"the link to {target} leads to no heading"
    name = CODE.fullmatch(text)
    if name and path.endswith(".rt") and not re.search(rf"\b{re.escape(name[1])}\b", file.read_text()):
        return f"{path} has no {name[1]}"
    return None


def value_of(source, name):
    """The value of a constant, or none where it is not spelled by numbers alone."""
    found = re.search(rf"const {name}: \w+ = ([\d_<()\- ]+);", source)
    return eval(found[1], {"__builtins__": {}}) if found else None


def number_of(cell):
    *_, last = [None, *NUMBER.finditer(cell)]
    if last and last[1]:
        return 2 ** int(last[1]) - bool(last[2])
    return last and int(last[0].replace(",", ""))


def faults_of_limit(folder, cells):
    for text, target in LINK.findall(cells[-1]):
        name, file = CODE.fullmatch(text), (folder / target).resolve()
        if name and file.exists() and value_of(file.read_text(), name[1]) != number_of(cells[1]):
            yield f"{name[1]} of {target} is {value_of(file.read_text(), name[1])}, and not {cells[1]}"


def faults_of_refusal(cells):
    named = re.fullmatch(r"(\d+) `(\w+)`(?: of a \w+)?", cells[0])
    source = (TOP / "crates" / "refusal" / "src" / "refusal.rt").read_text()
    if not named or f"Refusal::{named[2]} => {named[1]}," not in source:
        yield f"there is no refusal {cells[0]}"


@functools.lru_cache(None)
def words_of_crate(crate):
    top = TOP / "crates" / crate
    files = [*(top / "src").rglob("*.rt"), *(top / "specs").rglob("*.antt")]
    return {word for file in files for word in re.findall(r"\w+", file.read_text())}


def faults_of_names(where, crates, names):
    known = {word for crate in crates for word in words_of_crate(crate)}
    yield from (f"{word} is not in {where}" for name in names for word in re.findall(r"\w+", name) if word not in known)


def faults_of_rows(folder, plain):
    header = []
    for number, line in plain:
        cells = [cell.strip() for cell in line.strip().strip("|").split(" | ")] if line.startswith("|") else []
        if not cells or not header:
            header = cells
        elif set(line) <= set("|- "):
            continue
        elif header[:2] == ["Crate", "Function"]:
            yield from ((number, found) for found in faults_of_names(cells[0], CODE.findall(cells[0]), CODE.findall(cells[1])))
        elif header[0] == "Clause":
            yield from ((number, found) for found in faults_of_names("any crate", os.listdir(TOP / "crates"), CODE.findall(cells[0] + cells[1])))
        elif header[0] == "Number and name":
            yield from ((number, found) for found in faults_of_refusal(cells))
        elif header[-1] == "Constant":
            yield from ((number, found) for found in faults_of_limit(folder, cells))


def laws_of(source):
    """The public functions with an empty body, each with whether it has a comment."""
    before, lines = "", iter(source.splitlines())
    for line in lines:
        law = re.match(r"pub fn (\w+)", line)
        if law and next((each for each in lines if re.match(r"[{}]", each)), "") == "{}":
            yield law[1], before.startswith("///")
        before = line


@functools.lru_cache(None)
def files_of_laws():
    """Each file that has laws, with these."""
    told = {file: [*laws_of(file.read_text())] for file in (TOP / "crates").glob("*/src/**/*.rt")}
    return {file: laws for file, laws in told.items() if laws}


def faults_of_comments(path, laws):
    return [(1, f"the law {name} of {path} has no comment") for name, has_comment in laws if not has_comment]


def faults_of_laws(folder, plain):
    """The files of laws that have no row here, rows of files without laws, and laws that say nothing."""
    rows = {(folder / target).resolve() for _, line in plain if line.startswith("| [") for _, target in LINK.findall(line.split(" | ")[0])}
    for file in rows ^ {*files_of_laws()}:
        yield 1, f"{file} has {'laws and no row' if file not in rows else 'a row and no law'}"
    for file, laws in files_of_laws().items():
        yield from faults_of_comments(file, laws)


def faults_of(path, page):
    """What is wrong in a page, as it would stand at this path: its line and why."""
    blocks, plain = blocks_of(page)
    yield from faults_of_blocks(blocks)
    for number, line in plain:
        for text, target in LINK.findall(re.sub(r"``[^`]*``", "", line)):
            found = None if re.match(r"\w+:", target) else fault_of_link(path, page, text, target)
            if found:
                yield number, found
    yield from faults_of_rows(path.parent, plain)
    if path.name == "LAWS.md":
        yield from faults_of_laws(path.parent, plain)


# Scripts whose `faults_of` is their `--check`, and what they draw.
DRAWERS = ((module_of(TOP / "docs/pictures/draw"), "pictures"), (module_of(TOP / "bench/chart"), "BENCH.md"))


def showing(docs):
    """The pages that a picture may stand on: those of the folder, and those beside it."""
    return [*sorted(docs.parent.glob("*.md")), *sorted(docs.glob("*.md"))]


def faults_of_pictures(docs):
    """Each picture is what its text or its table gives, and stands on one page, once, with words."""
    for script, what in DRAWERS:
        try:
            yield from script.faults_of(docs / what, True)
        except script.UNREAD as wrong:
            yield f"{what}: {wrong}"
    there = sorted(path.resolve() for folder in ("pictures", "charts") for path in (docs / folder).glob("*.svg"))
    shown = [(words, (page.parent / target).resolve()) for page in showing(docs) for words, target in PICTURE.findall(page.read_text())]
    for words, picture in shown:
        if len(words.split()) < 5:
            yield f"{picture.name} is shown without words"
    for picture in there:
        if [each for _, each in shown].count(picture) != 1:
            yield f"{picture.name} does not stand on one page"


def pages():
    return {path: path.read_text() for path in [*sorted(TOP.glob("*.md")), *sorted((TOP / "docs").glob("*.md"))]}


FENCED = ("console", *FOLLOWS, *FOLLOWS.values())
# What may not stand in a page; and in that of the laws.
KINDS = [
    *((f"a line more in {kind}", rf"^```{kind}.*\n(?:\$.*\n)?", SAME + "x\n") for kind in FENCED),
    *((f"no {kind}", rf"^```{kind}(?=.*\n)", "```text") for kind in FENCED[1:]),
    ("another link", r"\]\((?!\w+:)[^)\s]+(?=\))", SAME + "x"),
    ("another limit", r"^\| [^|]+ \| [^|`]*\d(?= \| .*`\]\([^)]*\.rt\))", SAME + "7"),
    ("another refusal", r"^\| \d+ `\w+", SAME + "x"),
    ("another name", r"^\| `\w+` \| \[?`\w+", SAME + "_x"),
]
OF_LAWS = [("no row", r"^\| \[.*\n", ""), ("a row of no laws", r"\Z", "\n| [lib](../crates/laws/src/lib.rt) | nothing |\n")]
# And in one that shows pictures.
SHOWING = [("no picture", PICTURE.pattern, ""), ("a picture twice", PICTURE.pattern, SAME * 2)]
SHOWING += [("a picture without words", PICTURE.pattern, r"![](\2)")]


def spoiled_pictures(docs):
    """Each one a file of the folder and what is to stand in it, nothing where it is to be gone, with what was done."""
    for picture in [*sorted(docs.glob("pictures/*.svg")), *sorted(docs.glob("charts/*.svg"))]:
        yield picture, None, f"no {picture.name}"
        yield picture, picture.read_text().replace("</svg>", " </svg>"), f"another {picture.name}"
    bench = docs / "BENCH.md"
    for table in re.findall(r"^\|.*Proved by plain.*\n(?:\|.*\n)+", bench.read_text(), re.MULTILINE):
        for what, text in spoiled_texts(table, [("another ratio", r"(?<= )\d(?=\.\d\d \|)", "9")]):
            yield bench, bench.read_text().replace(table, text), f"{what} in {text[:40]}"
    kinds = [(path, [("another line", r"^(?!#).+", SAME + "x")]) for path in sorted(docs.glob("pictures/*.txt"))]
    for path, some in [*kinds, *((path, SHOWING) for path in showing(docs))]:
        for what, text in spoiled_texts(path.read_text(), some):
            yield path, text, f"{what} in {path.name}"


def spoiled_docs(docs):
    """What was spoiled of the pictures in this copy of the pages, and whether it was noticed."""
    for path, text, what in [*spoiled_pictures(docs)]:
        before = path.read_text()
        path.unlink() if text is None else path.write_text(text)
        yield "a picture", [*faults_of_pictures(docs)], what
        path.write_text(before)


def spoiled_comments():
    for file, laws in files_of_laws().items():
        for name, _ in laws:
            copy = re.sub(rf"(?:^///.*\n)+(?=pub fn {name}\b)", "", file.read_text(), flags=re.MULTILINE)
            yield "a comment", bool(faults_of_comments(file, laws_of(copy))), f"{name} without a comment"


def spoiled_pages():
    yield from spoiled_comments()
    for path, page in pages().items():
        before = len([*faults_of(path, page)])
        for what, copy in spoiled_texts(page, KINDS + OF_LAWS * (path.name == "LAWS.md")):
            where = difference(page.split("\n"), copy.split("\n"))
            yield "a page", len([*faults_of(path, copy)]) > before, f"{path.relative_to(TOP)}: {what}: {where}"


def test_pages():
    runs = sum(block.kind in (*FOLLOWS, "console") for page in pages().values() for block in blocks_of(page)[0])
    print(f"pages: {len(pages())} pages, {runs} examples")
    faults = ((path, *fault) for path, page in pages().items() for fault in faults_of(path, page))
    told = (f"{path.relative_to(TOP)}:{number}: {why}" for path, number, why in faults)
    none([*told, *faults_of_pictures(TOP / "docs")])
    assert runs > 0


def test_self_pictures(folder):
    """Spoiled pictures are noticed."""
    for page in TOP.glob("*.md"):
        shutil.copy(page, folder)
    all_noticed(spoiled_docs(Path(shutil.copytree(TOP / "docs", Path(folder) / "docs"))))


def test_self():
    """Spoiled copies of pages are noticed."""
    all_noticed(spoiled_pages())
