"""A client as a process, beside a server and beside one that is made up: what `zanstore call` prints, what it sends and its status are what docs/API.md says."""
import json
import re
import socket
import socketserver
import subprocess
import threading
import time
from pathlib import Path

import programs
from judge.worlds import must
from serving.server import HOST, Server, free_port, program
from serving.wire import Session, begun, check, delete, event, read, refusal, token, told, touch, watch, write

GROUP = "servers"
PAGE = Path(programs.TOP, "docs", "API.md")
ANN, BOB, LOCK = "doc:readme#viewer@ann", "group:staff#member@bob", "doc:readme#lock@lock"
AGAIN = (10, 11, 14, 15)
USAGE = {
    "write": "write +TUPLE | -TUPLE .. [if ?TUPLE | !TUPLE | TUPLE=TOKEN ..]",
    "read": "read [latest | at-least TOKEN | exact TOKEN] TUPLESET..",
    "check": "check [latest | at-least TOKEN | exact TOKEN] TUPLE",
    "watch": "watch TOKEN LIMIT NAMESPACE.., with a limit from 1 to 256",
    "place": "place TOKEN",
    "": "expected write, read, check, watch or a JSON object",
}
UNKNOWN = "it is unknown whether the write was made: read before you send it again"


def advised():
    """Each refusal by its number, with its name and what is said of it, as the page has it; that of a check that is full by 0."""
    found = {}
    for row in re.finditer(r"^\| (\d+) `(\w+)`( of a check)? \| ([^|]*) \|$", PAGE.read_text(), re.MULTILINE):
        found[0 if row[3] else int(row[1])] = (row[2], f"{row[1]} {row[2]}: {row[4]}\n")
    assert sorted(found) == [*range(17)]
    return found


def text_of(answer):
    return told(answer).decode() + "\n"


def called(port, *words, lines=()):
    """The status, standard output and standard error of a call, with these lines on its standard input."""
    return programs.run([program(), "call", f"{HOST}:{port}", *words], programs.lines_of(lines))


def is_called(wanted, found, what):
    must(found == wanted, f"{what}: is (status, output, error) {found}, and not {wanted}")


class MadeUp(socketserver.ThreadingTCPServer):
    """A server that gives these answers, each for one line and after so many seconds, and keeps what it was sent. An answer that is `None` ends the connection."""

    daemon_threads = allow_reuse_address = True

    def __init__(self, answers, seconds=0):
        super().__init__((HOST, free_port()), MadeUpSession)
        self.answers, self.sent, self.port, self.seconds = [*answers], [], self.server_address[1], seconds
        threading.Thread(target=self.serve_forever, args=(0.02,), daemon=True).start()

    def __exit__(self, *_):
        self.shutdown()
        self.server_close()


class MadeUpSession(socketserver.StreamRequestHandler):
    def handle(self):
        for line in self.rfile:
            self.server.sent.append(line)
            answer = self.server.answers.pop(0) if self.server.answers else None
            if answer is None:
                return
            time.sleep(self.server.seconds)
            self.wfile.write(text_of(answer).encode())
            self.wfile.flush()


def answer_to(line):
    """What a made-up server answers to a short form; what is none is refused."""
    made = {
        "write": {"zookie": token(1)},
        "read": {"sets": [[]], "zookie": token(1)},
        "check": {"member": True, "zookie": token(1)},
        "watch": {"events": [], "heartbeat": token(1)},
    }
    return made.get(line.split()[0], refusal(1, "BadRequest"))


def test_each_request(folder):
    """each short form, and JSON, on standard input, over a server"""
    made = [event(1, touch(ANN)), event(2, touch(BOB)), event(2, delete(ANN))]
    rows = [
        (f"write +{ANN}", {"zookie": token(1)}),
        ("; a note, and an empty line", None),
        ("", None),
        (f"write +{BOB} -{ANN} if ?{ANN} !{BOB}", {"zookie": token(2)}),
        (f"check {ANN}", {"member": False, "zookie": token(2)}),
        (f"check latest {BOB}", {"member": True, "zookie": token(2)}),
        (f"check exact {token(1)} {ANN}", {"member": True, "zookie": token(1)}),
        (f"check at-least {token(1)} {ANN}", {"member": False, "zookie": token(2)}),
        ("read doc:readme group@bob", {"sets": [[], [BOB]], "zookie": token(2)}),
        (f"read exact {token(1)} doc:readme", {"sets": [[ANN]], "zookie": token(1)}),
        (f"watch {token(0)} 256 doc group", {"events": made, "heartbeat": token(2)}),
        (f"watch {token(0)} 1 doc", {"events": made[:1], "heartbeat": token(1)}),
        (f"write +{LOCK} if {LOCK}={token(2)}", {"zookie": token(3)}),
        (json.dumps(check(LOCK)), {"member": True, "zookie": token(3)}),
    ]
    wanted = "".join(text_of(answer) for _, answer in rows if answer)
    with Server(folder) as server:
        is_called((0, wanted, ""), called(server.port, lines=[line for line, _ in rows]), "lines")
        words = ["write", "-doc:b#viewer@ann", f"+{ANN}"]
        is_called((0, text_of({"zookie": token(4)}), ""), called(server.port, *words), "words")
        is_called((0, text_of({"member": True, "zookie": token(4)}), ""), called(server.port, json.dumps(check(ANN))), "a word of JSON")


def test_sent_lines(folder):
    """what each short form is sent as"""
    tuples = ['doc:a#viewer@"\\', "doc:a#lock@a=b", "no tuple at all".replace(" ", ".")]
    rows = [
        (f"write +{tuples[0]}", write(f"+{tuples[0]}")),
        (f"write -{ANN} +{BOB}", write(f"-{ANN}", f"+{BOB}")),
        (f"write +{ANN} if {tuples[1]}={token(9)}", write(f"+{ANN}", conditions=[{"tuple": tuples[1], "since": token(9)}])),
        (f"write +{ANN} if ?{ANN} !{BOB}", write(f"+{ANN}", conditions=[{"tuple": ANN, "want": "exists"}, {"tuple": BOB, "want": "absent"}])),
        (f"check {tuples[2]}", check(tuples[2])),
        ("check latest exact", check("exact")),
        ("check at-least Z T", check("T", at_least="Z")),
        ("check exact Z T", check("T", exact="Z")),
        ("read a", read("a")),
        ("read latest at-least b", read("at-least", "b")),
        ("read at-least Z a b", read("a", "b", at_least="Z")),
        ("read exact Z a b", read("a", "b", exact="Z")),
        ("watch Z 1 a", watch("Z", "a", limit=1)),
        ("watch Z 256 a b", watch("Z", "a", "b")),
        ('{ "any": [1] }', {"any": [1]}),
    ]
    answers = [answer_to(line) for line, _ in rows]
    with MadeUp(answers) as server:
        found = called(server.port, lines=[line for line, _ in rows])
        is_called((1, "".join(map(text_of, answers)), f"zanstore: call: line {len(rows)}: {advised()[1][1]}"), found, "lines")
        assert [*map(json.loads, server.sent)] == [wanted for _, wanted in rows]
        assert server.sent[-1] == b'{ "any": [1] }\n'


def test_refused_requests(folder):
    """what a server refuses, with what to do about it, or with what of the request was refused"""
    name, of_id = "a name has a-z, 0-9 and _", "an id has printable ASCII but no space, #, @, : or +"
    split = "send several requests; a write that is split is no longer one write"
    rows = [
        (f"write +{ANN} if ?{BOB}", 9, None),
        (f"check exact {token(7)} {ANN}", 7, None),
        (f"check exact {token(1, 99)} {ANN}", 6, None),
        ("check exact Z doc:a#viewer@ann", 5, None),
        ('{"op":"other"}', 1, None),
        ("check doc:a#viewer@user:bob", 2, 'the user "user:bob" has a ":" and no "#": a userset is namespace:id#relation'),
        (f"write +{ANN} +doc:a#viewer@Ann@x.org", 2, f"""the user "Ann@x.org" has '@': {of_id}"""),
        (f"write +{ANN} if !Doc:a#viewer@ann", 2, f"""the namespace "Doc" has 'D': {name}"""),
        ("check doc:a#viewer", 2, 'the tuple "doc:a#viewer" has no "@": a tuple is namespace:id#relation@user'),
        ("check doc:a@ann", 2, 'the userset "doc:a" has no "#": a userset is namespace:id#relation'),
        ("check doc#viewer@ann", 2, 'the object "doc" has no ":": an object is namespace:id'),
        ("check doc:a#@ann", 2, "the relation is empty"),
        (json.dumps(check("doc:a b#viewer@ann")), 2, f"""the id "a b" has ' ': {of_id}"""),
        ("read doc:a doc", 2, 'the object "doc" has no ":": an object is namespace:id'),
        ("read doc@ann doc#View@ann", 2, f"""the relation "View" has 'V': {name}"""),
        (f"read {'a' * 65}@ann", 2, f'the namespace "{"a" * 65}" has more than 64 bytes'),
        (f"watch {token(0)} 1 doc Doc", 2, f"""the namespace "Doc" has 'D': {name}"""),
        ("read " + " ".join(["doc:a"] * 17), 3, "17 sets, and 16 are the most: send several requests"),
        ("write " + " ".join(f"+doc:a{at}#viewer@ann" for at in range(65)), 3, f"65 changes, and 64 are the most: {split}"),
        (f"write +{ANN} -{ANN}", 4, f'two changes name "{ANN}": leave one of them out'),
        (f"write +{ANN} if !{BOB} ?{BOB}", 4, f'two conditions name "{BOB}": leave one of them out'),
    ]
    say = advised()
    wanted = "".join(text_of(refusal(number, say[number][0])) for _, number, _ in rows)
    texts = [f"{number} {say[number][0]}: {text}\n" if text else say[number][1] for _, number, text in rows]
    why = "".join(f"zanstore: call: line {at}: {text}" for at, text in enumerate(texts, 1))
    with Server(folder) as server:
        is_called((1, wanted, why), called(server.port, lines=[line for line, _, _ in rows]), "refused lines")
        is_called((1, text_of(refusal(9, say[9][0])), f"zanstore: call: {say[9][1]}"), called(server.port, *rows[0][0].split()), "words")


def test_each_refusal(folder):
    """each of the sixteen, as the page has it"""
    say = advised()
    answers = [*(refusal(number, say[number][0]) for number in range(1, 17)), answer_to("check")]
    why = "".join(f"zanstore: call: line {number}: {say[0 if number == 15 else number][1]}" for number in range(1, 17))
    with MadeUp(answers) as server:
        is_called((1, "".join(map(text_of, answers)), why), called(server.port, lines=[f"check {ANN}"] * 17), "refusals")
        assert len(server.sent) == 17


def test_repeats(folder):
    """what may be sent again is, so often, and nothing else"""
    say, done = advised(), {"zookie": token(1)}
    for number in range(1, 17):
        name, text = say[number]
        refused = refusal(number, name)
        with MadeUp([refused, refused, done]) as server:
            found, again = called(server.port, "--retry", "2", "write", f"+{ANN}"), number in AGAIN
            is_called((0, text_of(done), "") if again else (1, text_of(refused), f"zanstore: call: {text}"), found, f"two times {name}")
            assert len(server.sent) == (3 if again else 1) and len(set(server.sent)) == 1, name
    for refused, text, words, times in ((refusal(10, "Busy"), say[10][1], ("write", f"+{ANN}"), 3), (refusal(15, "Full"), say[0][1], ("check", ANN), 1)):
        with MadeUp([refused] * 4) as server:
            is_called((1, text_of(refused), f"zanstore: call: {text}"), called(server.port, "--retry", "2", *words), f"always {refused}")
            assert len(server.sent) == times


def test_follows(folder):
    """a watch goes on from heartbeat to heartbeat, until the server is gone"""
    with Server(folder) as server, Session(server.port) as session:
        words = [program(), "call", f"{HOST}:{server.port}", "--follow", "watch", token(0), "1", "doc"]
        session.ask(write(f"+{ANN}"))
        session.ask(write(f"-{ANN}"))
        with programs.Talking(words, stderr=subprocess.PIPE) as call:
            for place, change in ((1, touch(ANN)), (2, delete(ANN))):
                is_line(call, {"events": [event(place, change)], "heartbeat": token(place)})
            session.ask(write(f"+{LOCK}"))
            is_line(call, {"events": [event(3, touch(LOCK))], "heartbeat": token(3)})
            session.ask(write(f"+{BOB}"))
            is_line(call, {"events": [], "heartbeat": token(4)})
            server.kill()
            assert call.end() == (1, "")
            err = call.child.stderr.read()
            assert err.startswith("zanstore: call: the connection ended before an answer: ") and "write" not in err


def test_reconnects(folder):
    """a watch goes on over a new connection from its last heartbeat"""
    say = advised()
    answers = [{"events": [], "heartbeat": token(place)} for place in (1, 2)]
    refused = refusal(8, say[8][0])
    with MadeUp([answers[0], None, None, answers[1], refused]) as server:
        status, out, err = called(server.port, "--follow", "--reconnect", "watch", token(0), "1", "doc")
        assert (status, out) == (1, "".join(map(text_of, [*answers, refused])))
        ended, why = err.splitlines(True)
        assert ended.startswith("zanstore: call: the connection ended before an answer: ") and ended.endswith("; connecting again\n")
        assert why == f"zanstore: call: {say[8][1]}"
        assert [json.loads(line)["from"] for line in server.sent] == [token(place) for place in (0, 1, 1, 1, 2)]
        stands = "zanstore: call: --reconnect stands with --follow, before a watch\n"
        is_called((2, "", stands), called(server.port, "--reconnect", "watch", token(0), "1", "doc"), "no --follow")


def test_status(folder):
    """a check whose answer is the status alone"""
    say = advised()
    with Server(folder) as server:
        called(server.port, "write", f"+{ANN}")
        is_called((0, "", ""), called(server.port, "--status", "check", ANN), "a member")
        is_called((1, "", ""), called(server.port, "--status", json.dumps(check(BOB))), "no member")
        is_called((2, "", f"zanstore: call: {say[7][1]}"), called(server.port, "--status", "check", "exact", token(7), ANN), "refused")
        is_called((2, "", f"zanstore: call: {USAGE['check']}\n"), called(server.port, "--status", "check"), "no request")
        stands = "zanstore: call: --status stands before a check, and this is none\n"
        is_called((2, "", stands), called(server.port, "--status", "read", "doc:readme"), "no check")
        is_called((2, "", stands), called(server.port, "--status", lines=[f"check {ANN}"]), "a line")
    assert called(free_port(), "--status", "check", ANN)[0] == 2


def test_places(folder):
    """which store and place a token names, with no server asked"""
    refused, why = text_of(refusal(5, "BadZookie")), advised()[5][1]
    port = free_port()
    is_called((0, "store 99 place 7\n", ""), called(port, "place", token(7, 99)), "a token")
    is_called((1, refused, f"zanstore: call: {why}"), called(port, "place", "Z"), "no token")
    with MadeUp([]) as server:
        found = called(server.port, lines=[f"place {token(3, 1)}", "place", "place Z"])
        is_called((1, "store 1 place 3\n" + refused, f"zanstore: call: line 2: {USAGE['place']}\nzanstore: call: line 3: {why}"), found, "lines")
        assert not server.sent


def is_line(call, wanted):
    assert call.line() + "\n" == text_of(wanted)


def test_no_server(folder):
    """an address at which nobody listens, and a connection that ends"""
    port = free_port()
    status, out, err = called(port, "check", ANN)
    assert (status, out) == (1, "") and err.startswith(f"zanstore: call: {HOST}:{port}: no connection: Connection refused")
    ended = "zanstore: call: line 2: the connection ended before an answer: "
    for line, says in ((f"write +{ANN}", f"; {UNKNOWN}\n"), (f"check {ANN}", "\n")):
        answer = answer_to(line)
        with MadeUp([answer, None]) as server:
            status, out, err = called(server.port, "--retry", "3", lines=[line] * 3)
            assert (status, out, len(server.sent)) == (1, text_of(answer), 2)
            assert err.startswith(ended) and err.endswith(says) and ("unknown" in err) == ("unknown" in says)


def test_strangers(folder):
    """an answer that is none to such a request"""
    rows = [("write +a", {"zookie": 1}), ("write +a", {"error": 17, "name": "Other"}), ("check a", {"zookie": token(1)}), ("check a", {"member": 1, "zookie": token(1)})]
    rows += [("read a", {"member": True, "zookie": token(1)}), ("watch Z 1 a", {"events": []}), ('{"op":"other"}', {"zookie": token(1)})]
    for line, answer in rows:
        with MadeUp([answer]) as server:
            says = f"; {UNKNOWN}" if line.startswith("write") else ""
            why = f"zanstore: call: line 1: an answer can't be read: it is none to such a request{says}\n"
            is_called((1, "", why), called(server.port, lines=[line]), f"{answer} to {line}")


def test_waits(folder):
    """a server that is slow to answer, or takes no connection"""
    with MadeUp([answer_to("check")], seconds=3.6) as server:
        why = f"zanstore: call: {HOST}:{server.port}: no answer after 3 s, still waiting: all workers of the server may be taken\n"
        is_called((0, text_of(answer_to("check")), why), called(server.port, "check", ANN), "a slow answer")
    with MadeUp([answer_to("check")] * 2, seconds=3) as server:
        late = "zanstore: call: no answer within the --timeout"
        is_called((1, "", f"{late}\n"), called(server.port, "--timeout", "1", "check", ANN), "a late answer")
        is_called((1, "", f"{late}; {UNKNOWN}\n"), called(server.port, "--timeout", "1", "write", f"+{ANN}"), "a late write")
    with socket.socket() as busy:
        busy.bind((HOST, 0))
        busy.listen(0)
        port = busy.getsockname()[1]
        with begun(port, 4):
            found = called(port, "--timeout", "1", "check", ANN)
            is_called((1, "", f"zanstore: call: {HOST}:{port}: no connection within the --timeout\n"), found, "no connection in time")
            status, _, err = called(port, "--timeout", "4", "check", ANN)
            assert status == 1 and err.startswith(f"zanstore: call: {HOST}:{port}: no connection after 3 s, still waiting\n")


def usage(line, kind):
    """What is said of a line that is no request of this kind."""
    first = line.split(" ")[0]
    return USAGE[kind] if kind else f'unknown request "{first}": {USAGE[kind]}'


def test_bad_lines(folder):
    """lines that are no request are not sent, and told what they may be"""
    rows = [("write", "write"), (f"write {ANN}", "write"), (f"write +{ANN} if", "write"), (f"write +{ANN} ?{ANN}", "write"), (f"write +{ANN} if {ANN}", "write")]
    rows += [("read", "read"), ("read latest", "read"), ("read exact Z", "read"), ("check", "check"), ("check a b", "check"), ("check latest", "check")]
    rows += [("watch Z", "watch"), ("watch Z 256", "watch"), ("watch Z 0 doc", "watch"), ("watch Z 257 doc", "watch"), ("watch Z doc 256", "watch")]
    rows += [("delete a", ""), (" check a", ""), ("writes +a", ""), ("[1]", "")]
    with MadeUp([{"member": True, "zookie": token(1)}]) as server:
        why = "".join(f"zanstore: call: line {at}: {usage(line, kind)}\n" for at, (line, kind) in enumerate(rows, 1))
        found = called(server.port, lines=[*(line for line, _ in rows), "check a"])
        is_called((1, text_of({"member": True, "zookie": token(1)}), why), found, "bad lines")
        assert len(server.sent) == 1
        assert called(server.port, "check a\ncheck b") == (1, "", "zanstore: call: a request is one line\n")
