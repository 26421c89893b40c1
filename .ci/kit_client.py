"""A client of a daemon: what it sends and takes, answers that are lost, daemons that begin anew, refusals and session files.

Used by kit.py, which has the judge. Most is tried with a stand-in that answers as docs/FORMATS.md says, since no daemon loses answers; then with two
daemons.
"""

import os
import re
import socket
import subprocess
import time

from kit_client_standin import Standin, Way, run
from kit_daemons import ports_for
from overlay import free_ports

CLIENT = "spinesd-client"
FIGURES = re.compile(r"accepted (\d+) of (\d+) in [\d.]+ s: [\d.]+ a second; the session file took [\d.]+ s of it\n((?:refused \d+: \w+\n)*)"
                     r"answers (\d+): median [\d.]+ ms, worst [\d.]+ ms\n")
# answers that refuse: to which command, the status, and what is said
REFUSALS = [
    ("send", "badend", 20, "no other node"), ("send", "full 3 19", 21, "up to 3 are acknowledged, those up to 19 wait"),
    ("send", "spent 1024", 22, "no signature left"), ("send", "notreserved 64", 23, "No index below 64"),
    ("sendprio", "expired 1764356400000", 24, "before the node's time 1764356400000"), ("sendprio", "nopaths 1", 25, "Only 1 disjoint paths"),
    ("listen", "busy 9001", 26, "session of port 9001 listens"),
    ("ksend", "busy 2", 31, "went on 2 paths"), ("ksend", "nopaths 1", 25, "Only 1 disjoint paths"), ("ksend", "full 3 19", 21, "those up to 19 wait"),
    ("send", "badrequest", 28, "The request was none"), ("take", "badend", 20, "no other node"),
]
ASKED = {"send": ["send", "3", "hi"], "sendprio": ["send", "3", "hi", "--priority", "5", "--expiry", "9", "--paths", "2"],
         "ksend": ["send", "3", "hi", "--paths", "2"], "take": ["take", "1"], "listen": ["take", "1"]}
GOOD = "session 1 {port} {local}\nlast 6\nasked 7 take 1\ntaken prio 2 5 6869\nend\n"
# what is changed in a good session file, and the line that is refused
BROKEN = [
    ("", "", 0), (GOOD, "", 1), ("session 1", "session 2", 1), ("{local}", "0{local}", 1), ("{local}", "65536", 1),
    ("last 6\n", "", 2), ("last 6", "last -6", 2),
    ("last 6", "last 9223372036854775807", 2), ("asked 7", "asked 8", 3), ("take 1", "take 256", 3), ("take 1", "give 1", 3), ("take 1", "send 3 6", 3),
    ("take 1", "take 1 2", 3), ("take 1", "take", 3), ("take 1", "send 3 " + 1_025 * "00", 3),
    ("prio 2 5", "prio 2", 4), ("taken prio", "taken", 4), ("6869", 1_025 * "00", 4), ("end\n", "", 5), ("end\n", "end", 5), ("end\n", "end\nend\n", 6),
    ("take 1", "take \xb2", 3), ("last 6", "last  6", 2),
    ("take 1", "ktake 256", 3), ("take 1", "ksend 3 0 -", 3), ("take 1", "ksend 3 9 -", 3), ("take 1", "ksend 3 -", 3), ("prio 2 5", "krel 2 5", 4),
]


def words_of(standin, name, session):
    """The words of a client of a stand-in that asks this."""
    command, *more = ASKED[name]
    return [command, standin.port, *more, "--session", session]


def file_of(path):
    with open(path, encoding="utf-8") as file:
        return file.read()


def refusals(kit):
    """Each answer that refuses has its cause in words, and its status; the session goes on behind it."""
    for name, answer, status, told in REFUSALS:
        standin, session = Standin(), kit.path(f"refused {name} {answer}")
        standin.answers = {name: [answer], "take": ["notlistening"]} if name == "listen" else {name: [answer]}
        got, said, why = run(kit, standin, *words_of(standin, name, session))
        front = f"spinesd-client: {answer.split(' ')[0]}: "
        kit.holds(f"client: {answer}", (got, said, why.count("\n")) == (status, "", 1) and why.startswith(front) and told in why, (got, said, why))
        kit.equal(f"client: the number of {answer}", file_of(session).split("\n")[1:], [f"last {len(standin.ran)}", "end", ""])
        if answer != "badrequest":
            kit.equal(f"client: after {answer}", run(kit, standin, "send", standin.port, "3", "a", "--session", session)[0], 0)
    standin = Standin()
    standin.is_full = True
    status, said, why = run(kit, standin, *words_of(standin, "send", kit.path("ninth")))
    kit.holds("client: a ninth session", (status, said) == (27, "") and "sessionsfull: Eight ports" in why, why)
    standin = Standin()
    kit.equal("client: nothing waits", run(kit, standin, *words_of(standin, "take", kit.path("none waits"))), (30, "", "spinesd-client: nothing waits\n"))
    standin.answers = {"send": ["accepted"]}
    status, said, why = run(kit, standin, *words_of(standin, "send", kit.path("none waits")))
    kit.holds("client: a reply of no daemon", (status, said) == (1, "") and "replies `accepted`, which no daemon" in why, why)


def lost_answers(kit):
    """A request whose answer is lost is asked again under its number, also by a client that was killed, and runs once."""
    standin, session = Standin(), kit.path("lost")
    standin.lost = 2
    kit.equal("client: answers are lost", run(kit, standin, *words_of(standin, "send", session)), (0, "accepted 1\n", ""))
    kit.equal("client: what ran", (list(dict.fromkeys(standin.asked)), standin.ran), (["1 open", "2 send 3 6869"], ["open", "send 3 6869"]))
    kit.holds("client: it was asked again", standin.asked.count("1 open") > 2, standin.asked)
    standin.lost = 1_000
    killed = run(kit, standin, *words_of(standin, "send", session), is_over=lambda: standin.asked[-1:] == ["3 send 3 6869"])
    kit.equal("client: it is killed", killed[:2], (-9, ""))
    kit.equal("client: the file then", file_of(session).split("\n")[1:], ["last 2", "asked 3 send 3 6869", "end", ""])
    standin.lost = 0
    kit.equal("client: it is started again", run(kit, standin, *words_of(standin, "send", session)), (0, "accepted 2\n", ""))
    kit.equal("client: it ran once", (standin.ran, file_of(session).split("\n")[1]), (["open"] + ["send 3 6869"] * 2, "last 3"))
    standin.is_late = True
    kit.equal("client: replies come again, late", run(kit, standin, *words_of(standin, "take", session)), (30, "", "spinesd-client: nothing waits\n"))
    standin.lost, words = 1_000, ["send", standin.port, "3", "a", "--priority", "5", "--session", session]
    run(kit, standin, *words, "--wait", "0.1")
    standin.lost = 0
    kit.equal("client: an hour that is counted from now stays", (run(kit, standin, *words)[:2], standin.sent), ((0, "accepted 3\n"), 3))
    kit.equal("client: nobody else reads the file", os.stat(session).st_mode & 0o777, 0o600)


def left_unanswered(kit):
    """What was left unanswered isn't run by another command; what became of it is said, and a message that it took is told later."""
    standin, session = Standin(), kit.path("left")
    standin.is_deaf = True
    status, said, why = run(kit, standin, *words_of(standin, "send", session), "--wait", "0.1")
    kit.holds("client: nobody answers", (status, said) == (11, "") and f"no daemon answers at port {standin.port}." in why, why)
    standin.is_deaf = False
    kit.equal("client: it is asked again", run(kit, standin, *words_of(standin, "send", session))[:2], (0, "accepted 1\n"))
    for name, is_deaf, lost, told in (("send", True, 0, "didn't run (`3 send 3 6869`)"), ("send", False, 1_000, "ran: accepted 2 (`5 send 3 6869`)")):
        standin.is_deaf, standin.lost, last = is_deaf, lost, standin.sent
        run(kit, standin, *words_of(standin, name, session), "--wait", "0.1")
        standin.is_deaf, standin.lost = False, 0
        status, said, why = run(kit, standin, "take", standin.port, "9", "--session", session)
        kit.holds(f"client: a request that was left {told}", (status, standin.sent) == (30, last + bool(lost)) and told in why, (standin.ran, why))
    standin.answers, standin.lost = {"take": ["payload 6869"]}, 1_000
    run(kit, standin, *words_of(standin, "take", session), "--wait", "0.1")
    standin.lost = 0
    kit.holds("client: a take that was left", "ran: payload 6869" in run(kit, standin, "send", standin.port, "3", "a", "--session", session)[2], standin.ran)
    kit.equal("client: the message is kept", file_of(session).split("\n")[2], "taken rel 1 6869")
    kit.equal("client: and told", run(kit, standin, *words_of(standin, "take", session)), (0, "rel 1 hi\n", ""))
    kit.equal("client: once", run(kit, standin, *words_of(standin, "take", session))[:2], (30, ""))
    standin.sessions[int(file_of(session).split()[3])] = ("40", "40 opened")
    kit.write("left", re.sub("last .*", "last 39\nasked 40 send 3 6869", file_of(session)).encode())
    kit.equal("client: a number that a look has used", run(kit, standin, *words_of(standin, "send", session))[:2], (0, f"accepted {standin.sent}\n"))


def begins_anew(kit):
    """Where the daemon was started again the session begins anew; a send whose answer was lost in that is sent again, or refused."""
    standin, session = Standin(), kit.path("anew")
    run(kit, standin, *words_of(standin, "send", session))
    standin.sessions.clear()
    status, said, why = run(kit, standin, *words_of(standin, "send", session))
    kit.holds("client: the daemon was started again", (status, said, standin.sent) == (0, "accepted 2\n", 2) and "doesn't have this session" in why, why)
    standin.answers = {"take": ["notlistening", "payload 6869", "empty", "notlistening", "payload -"]}
    kit.equal("client: it listens where it doesn't yet", run(kit, standin, *words_of(standin, "take", session)), (0, "rel 1 hi\n", ""))
    standin.sessions.clear()
    kit.equal("client: it listens again", run(kit, standin, *words_of(standin, "take", session), "--hex")[:2], (0, "rel 1 -\n"))
    for more, wanted in ((["--once"], (29, "", 3)), ([], (0, "accepted 5\n", 5))):
        run(kit, standin, "take", standin.port, "2", "--session", session)
        standin.lost = 1_000
        run(kit, standin, *words_of(standin, "send", session), "--wait", "0.1")
        standin.lost = 0
        standin.sessions.clear()
        status, said, why = run(kit, standin, *words_of(standin, "send", session), *more)
        is_so = (status, said, standin.sent) == wanted and "The answer was lost" in why
        kit.holds(f"client: lost in a restart {more}", is_so, (status, said, standin.ran, why))
    lost_in_between(kit, standin, session)
    standin.sessions[int(file_of(session).split()[3])] = ("41", "41 empty")
    status, said, why = run(kit, standin, *words_of(standin, "send", session))
    kit.holds("client: another number", (status, said, standin.asked[-1]) == (0, "accepted 8\n", "42 send 3 6869") and "at number 41" in why, why)


def lost_in_between(kit, standin, session):
    """The daemon ends while a client waits for its answer: before it has the request, and after."""
    def comes():
        if not standin.sockets and time.monotonic() > until:
            standin.comes()

    standin.goes()
    until = time.monotonic() + 0.6
    status, said, why = run(kit, standin, *words_of(standin, "send", session), "--once", is_over=comes)
    kit.holds("client: the daemon was away", (status, said) == (0, "accepted 6\n") and "The answer was lost" not in why, (status, said, why))

    def forgets():
        if standin.sent == 7 and standin.lost:
            standin.lost = 0
            standin.sessions.clear()

    standin.lost = 1_000
    status, said, why = run(kit, standin, *words_of(standin, "send", session), "--once", is_over=forgets)
    kit.holds("client: the daemon went after it was asked", (status, said, standin.sent) == (29, "", 7) and "The answer was lost" in why, (status, said, why))


def listens(kit):
    """A listener goes on over a restart of the daemon; once it is killed, the next client isn't told again what it told."""
    standin, session = Standin(), kit.path("listens")
    standin.answers = {"take": ["notlistening", "payload 6869", "empty", "empty"]}

    def is_over():
        if standin.ran.count("take 1") == 4 and len(standin.answers) == 1:
            standin.sessions.clear()
            standin.answers = {"take": ["notlistening", "payload 6a"], "takeprio": []}
        return standin.ran.count("take 1") > 7

    status, said, why = run(kit, standin, "listen", standin.port, "1", "--session", session, is_over=is_over)
    kit.holds("client: it listens over a restart", (status, said) == (-9, "rel 1 hi\nrel 1 j\n") and "The client goes on" in why, (status, said, why))
    kit.equal("client: nothing is told twice", run(kit, standin, *words_of(standin, "take", session))[:2], (30, ""))
    standin.answers = {"take": ["payload 6869", "payload 6a", "payload 6b"]}
    status, said, why = run(kit, standin, "listen", standin.port, "1", "2", "--messages", "2", "--session", session)
    kit.equal("client: so many messages, of each source in turn", (status, said), (0, "rel 1 hi\nrel 2 j\n"))


def files(kit):
    """A file that is no session file is refused with its line, and nothing is asked; so is one that another client has."""
    standin, session = Standin(), kit.path("broken")
    ports = {"port": standin.port, "local": free_ports(1)[0]}
    good = GOOD.format(**ports)
    for old, new, line in BROKEN:
        text = good.replace(old.format(**ports), new.format(**ports), 1) if old else good
        kit.write("broken", text.encode())
        status, said, why = run(kit, standin, *words_of(standin, "take", session))
        if line:
            is_so = (status, said, standin.asked, file_of(session)) == (1, "", [], text) and f"{session}, line {line}: " in why
            kit.holds(f"client: a session file with {new[:40]!r} for {old[:40]!r}", is_so, (status, said, why))
        standin.asked.clear()
    kit.write("broken", good.replace("asked 7 take 1\n", "").replace("end\n", "taken rel 1 61\ntaken rel 2 62\ntaken rel 1 63\nend\n").encode())
    status, said, why = run(kit, standin, "take", standin.port, "1", "--session", session)
    kit.equal("client: messages that weren't told yet", (status, said), (0, "rel 1 a\nrel 1 c\n"))
    status, said, why = run(kit, standin, "close", standin.port, "--session", session, "--hex")
    kit.equal("client: what is told when it closes", (status, said), (0, "prio 2 5 6869\nrel 2 62\n"))
    kit.equal("client: nothing is left to close", run(kit, standin, "close", standin.port, "--session", session)[:2], (1, ""))
    standin.asked.clear()
    kit.write("broken", good.encode())
    status, said, why = run(kit, standin, "send", "1", "3", "a", "--session", session)
    kit.holds("client: the file of another daemon", (status, said) == (1, "") and f"at port {standin.port}, not 1" in why, why)
    with socket.socket(socket.AF_INET, socket.SOCK_DGRAM) as other:
        other.bind(("127.0.0.1", ports["local"]))
        status, said, why = run(kit, standin, *words_of(standin, "take", session))
    kit.holds("client: another goes on with it", (status, said, standin.asked) == (7, "", []) and f"a process has port {ports['local']}" in why, why)
    status, said, why = run(kit, standin, *words_of(standin, "send", kit.path("no folder/x")))
    kit.holds("client: a file that can't be written", (status, said, standin.asked) == (1, "", []) and "only when its number is on the disk" in why, why)


def inputs(kit):
    """What isn't sent, with its cause."""
    standin, session, big = Standin(), kit.path("inputs"), 1_025 * b"a"
    rows = [(["3", "--hex", "6"], b"", 1, "isn't hexadecimal"), (["3", "--hex", "6A"], b"", 1, "isn't hexadecimal"), (["3"], big, 1, "more than 1,024 bytes"),
            (["3", "--hex"], b"61" * 1_025, 1, "more than 1,024 bytes"), (["3", "a", "--paths", "0"], b"", 2, "say --priority too"),
            (["3", "a", "--paths", "9"], b"", 2, "no number of 0 to 8"),
            (["256", "a"], b"", 2, "no number of 0 to 255"), (["3", "a", "--priority", "11"], b"", 2, "no number of 1 to 10"),
            (["3", "a", "--priority", "1", "--expiry", "soon"], b"", 2, "neither milliseconds"), (["3", "a", "--file", "x"], b"", 2, "the payload is TEXT or"),
            (["3", "--file", kit.path("no such")], b"", 1, "No such file")]
    for words, given, wanted, told in rows:
        status, said, why = run(kit, standin, "send", standin.port, *words, "--session", session, given=given)
        kit.holds(f"client: {words}", (status, said, standin.asked) == (wanted, "", []) and told in why, (status, why))
    status, _, why = run(kit, standin, "send", "none", "3", "a")
    kit.holds("client: no daemon", status == 1 and "no node's folder, and no port" in why, why)


def payloads(kit):
    """Payloads of each kind are sent; a message that can't be written is kept."""
    standin, session = Standin(), kit.path("payloads")
    for words, given, wanted in ((["\u00fc \\"], b"", "c3bc205c"), ([], b"\x00\xff\n", "00ff0a"), (["--hex"], b"00ff\n", "00ff"), (["--hex", "-"], b"", "-"),
                                 (["--file", kit.write("payload", b"hi")], b"", "6869"), ([""], b"", "-")):
        run(kit, standin, "send", standin.port, "3", *words, "--session", session, given=given)
        kit.equal(f"client: the payload of {words}", standin.ran[-1], f"send 3 {wanted}")
    run(kit, standin, "send", standin.port, "3", "--paths", "8", "a", "--session", session)
    kit.equal("client: a message on paths", standin.ran[-1], "ksend 3 8 61")
    standin.answers = {"take": ["payload 61"], "ktake": ["empty", "payload 62", "payload 63"]}
    status, said, _ = run(kit, standin, "take", standin.port, "1", "2", "--paths", "--session", session)
    kit.equal("client: messages on paths are taken too", (status, said), (0, "rel 1 a\nkrel 2 b\nkrel 1 c\n"))
    run(kit, standin, "send", standin.port, "3", "--priority", "7", "--expiry", "+10", "--paths", "2", "a", "--session", session)
    words = standin.ran[-1].split(" ")
    is_so = words[:3] + words[4:] == ["sendprio", "3", "7", "2", "61"] and 5_000 < int(words[3]) - 1000 * time.time() < 11_000
    kit.holds("client: a priority message", is_so, words)
    standin.answers = {"takeprio": ["payload 2 5 5c0ac3bcff"]}
    with open("/dev/full", "wb") as full:
        status, _, why = run(kit, standin, "take", standin.port, "--priority", "--session", session, out=full)
    kit.holds("client: a full disk", status == 1 and "the message stays in the session file" in why, why)
    again = run(kit, standin, "take", standin.port, "--priority", "--session", session)
    kit.equal("client: it is told again", again[:2], (0, "prio 2 5 \\x5c\\x0a\u00fc\\xff\n"))


def benches(kit):
    standin, session = Standin(), kit.path("bench")
    standin.answers = {"send": ["accepted 1", "full 0 1", "full 0 1", "accepted 2"]}
    words = ["bench", standin.port, "3", "--messages", "9", "--size", "2", "--session", session]
    status, said, _ = run(kit, standin, *words)
    kit.equal("client: a bench", (status, FIGURES.fullmatch(said).groups(), standin.ran[-1]), (0, ("9", "9", "refused 2: full\n", "11"), "send 3 5a5a"))
    standin.answers = {"send": ["accepted 1", "badend"]}
    status, said, why = run(kit, standin, *words)
    kit.equal("client: a bench that is refused", (status, FIGURES.fullmatch(said).groups()), (20, ("1", "9", "refused 1: badend\n", "2")))
    standin.answers = {"send": ["full 0 1"] * 1_000}
    status, said, why = run(kit, standin, *words, "--seconds", "0.2")
    kit.holds("client: a bench whose time is over", status == 21 and FIGURES.fullmatch(said).group(1) == "0", said)


# ---- two daemons

def started(kit, place, name):
    """A daemon that answers, with a recording of its own."""
    with open(place + "/spinesd.conf", "rb") as given, open(f"{place}/{name}.recording", "wb") as recording:
        child = subprocess.Popen([kit.program, "daemon", "--turns", "1000000"], stdin=given, stdout=recording, cwd=place)
    kit.equal(f"client: the {name} daemon answers", kit.run("spinesd-node", "wait", place)[:2], (0, ""))
    return child


def ended(children):
    for child in children:
        child.terminate()
        child.wait()


def asked(kit, *words, **more):
    return kit.run(CLIENT, *words, env={"XDG_STATE_HOME": kit.path("state")}, **more)


def daemons(kit):
    places, children = [kit.path(f"clients/{node}") for node in (1, 2)], []
    words = ["--height", "5", "--port", str(ports_for(2)), "--ledger", kit.path("clients.ledger"), "-", kit.path("clients")]
    kit.equal("client: keys", kit.run("spinesd-keys", "make", *words, given=b"graph 1\nnodes 2\nedge 1 2 10\nend\n")[::2], (0, ""))
    try:
        children += [started(kit, place, "first") for place in places]
        talk(kit, *places)
        refused(kit, *places)
        loses(kit, *places)
        ended(children)
        children[:] = [started(kit, place, "second") for place in places]
        restarted(kit, *places)
    finally:
        ended(children)


def talk(kit, source, target):
    """Messages of each kind arrive, and are taken and listened to."""
    kit.equal("client: a listener is none yet", asked(kit, "take", target, "1", "--priority")[:2], (30, ""))
    kit.equal("client: it sends", asked(kit, "send", source, "2", "hello"), (0, "accepted 1\n", ""))
    kit.equal("client: of standard input", asked(kit, "send", source, "2", given=b"\x00\xff"), (0, "accepted 2\n", ""))
    kit.equal("client: priority", asked(kit, "send", source, "2", "--priority", "5", "--paths", "1", "urgent"), (0, "accepted 1\n", ""))
    kit.equal("client: on paths", asked(kit, "send", source, "2", "--paths", "1", "over"), (0, "accepted 1\n", ""))
    status, said, why = asked(kit, "listen", target, "1", "--paths", "--priority", "--messages", "4", "--seconds", "20")
    arrived = ["", "krel 1 over", "prio 1 1 urgent", "rel 1 \\x00\\xff", "rel 1 hello"]
    kit.equal("client: it listens", (status, sorted(said.split("\n")), why), (0, arrived, ""))
    kit.equal("client: nothing comes", asked(kit, "listen", target, "1", "--seconds", "0.3")[:2], (30, ""))


def refused(kit, source, target):
    """What a daemon refuses: a node that isn't there, an hour that has passed, paths, a second listener, a full flow, a ninth session."""
    rows = [(["send", source, "9", "a"], 20), (["take", target, "9"], 20), (["send", source, "2", "--priority", "1", "--expiry", "1", "a"], 24),
            (["send", source, "2", "--priority", "1", "--paths", "3", "a"], 25), (["send", target, "1", "--paths", "2", "a"], 25),
            (["take", target, "1", "--session", kit.path("second client")], 26)]
    for words, wanted in rows:
        kit.equal(f"client: {words[2:]}", asked(kit, *words)[:2], (wanted, ""))
    status, said, _ = asked(kit, "bench", source, "2", "--messages", "60", "--size", "9", "--seconds", "1")
    accepted, _, causes, _ = FIGURES.fullmatch(said).groups()
    kit.holds("client: a flow that nobody takes", status == 21 and 16 <= int(accepted) <= 32 and re.fullmatch(r"refused \d+: full\n", causes), said)
    kit.equal("client: all of it is taken", asked(kit, "listen", target, "1", "--messages", accepted, "--hex")[1], int(accepted) * f"rel 1 {9 * '5a'}\n")
    sessions = [kit.path(f"session {number}") for number in range(1, 9)]
    got = [asked(kit, "take", source, "2", "--session", session)[0] for session in sessions]
    kit.equal("client: eight sessions, of which the first listens", got, [30, *[26] * 6, 27])
    kit.equal("client: they are closed", [asked(kit, "close", source, "--session", session)[0] for session in sessions], [0] * 8)
    kit.equal("client: their files are gone", [os.path.exists(session) for session in sessions], [False] * 8)
    kit.holds("client: one session is left", "1 of 8 sessions" in kit.run("spinesd-sessions", source)[1], kit.run("spinesd-sessions", source))


def loses(kit, source, target):
    """Over a way that loses answers each message is sent once, and taken once."""
    ports = [int(re.search(r"(?m)^client_port = (\d+)$", file_of(place + "/spinesd.conf")).group(1)) for place in (source, target)]
    way, session = Way(ports[0], 2), kit.path("way there")
    status, said, why = run(kit, way, "bench", way.port, "2", "--messages", "5", "--size", "1", "--session", session)
    kit.holds("client: answers of a daemon are lost", (status, why) == (0, "") and FIGURES.fullmatch(said).group(1) == "5", (said, why))
    kit.equal("client: each came once", asked(kit, "listen", target, "1", "--messages", "9", "--seconds", "3")[1], 5 * "rel 1 Z\n")
    run(kit, way, "close", way.port, "--session", session)


def restarted(kit, source, target):
    """After a restart of both daemons both clients go on: they say that the daemon was started again, and messages arrive."""
    status, said, why = asked(kit, "send", source, "2", "again")
    kit.holds("client: a daemon that was started again", (status, said) == (0, "accepted 1\n") and "doesn't have this session any more" in why, (said, why))
    status, said, why = asked(kit, "listen", target, "1", "--messages", "1", "--seconds", "30")
    kit.holds("client: a listener goes on", (status, said) == (0, "rel 1 again\n") and "doesn't have this session any more" in why, (said, why))
    kit.equal("client: it closes", [asked(kit, "close", place)[:2] for place in (source, target)], [(0, ""), (0, "")])
    kit.equal("client: no session is left", [kit.run("spinesd-sessions", place)[1] for place in (source, target)], ["0 of 8 sessions\n"] * 2)


def look(kit):
    for each in (refusals, lost_answers, left_unanswered, begins_anew, listens, files, inputs, payloads, benches, daemons):
        each(kit)
