"""Looks at a daemon's calls of the system, and lets them fail: python3 .ci/system_calls.py PATH/TO/spinesd

A library before the C library (system_calls.c) writes down each call. Each change of the key file is written and synced, piece by piece, before the next
datagram or line goes out, and its folder is synced before it is used. A read, write, sync, send or receive that fails, or does less, is told: by status 8,
by the count of what was lost, or by nothing where the rest was done. The sockets are those of 127.0.0.1 alone, and so is who is heard. The clock is the
system's, in milliseconds, also where it goes back, and its last reading stands where it fails. A daemon that rests makes few turns and calls. Each difference
is told, and the status is then 1. It needs a C compiler, `cc`.
"""

import collections
import errno
import os
import re
import signal
import socket
import subprocess
import sys
import tempfile
import time

ROOT = os.path.dirname(os.path.dirname(os.path.abspath(__file__)))
sys.path[:0] = [os.path.join(ROOT, "examples", "overlay"), os.path.join(ROOT, "bench")]

from daemons import Client, seconds_of  # noqa: E402
from overlay import Overlay, line_of  # noqa: E402

KEY_FILE = "spinesd.keys"
HEIGHT = 5
# pieces of a change of the key file, and how many changes a start makes: its boot, and its indexes. A format and a reserve make one
PIECES, START = 3, 2
STATUS_KEEPER = 8
# a daemon with two neighbours that rests makes at most so many turns a second, in so much of a core, by so many calls
RESTS, SHARE, CALLS = 12, 0.01, 40
Call = collections.namedtuple("Call", "name fd said result")


class Calls:
    """The program under the library, an overlay in a folder of its own, and how many looks differed."""

    def __init__(self, program, folder, graph=line_of(3)):
        self.program, self.folder, self.looks, self.wrong = program, folder, 0, 0
        self.library = os.path.join(folder, "system_calls.so")
        source = os.path.join(ROOT, ".ci", "system_calls.c")
        subprocess.run(["cc", "-O1", "-shared", "-fPIC", "-o", self.library, source], check=True)
        self.overlay = Overlay(os.path.join(folder, "overlay"), program)
        self.overlay.make(graph, HEIGHT)
        with open(self.keys(2), "rb") as file:
            self.formatted = file.read()

    def equal(self, name, got, wanted):
        self.holds(name, got == wanted, f"{got!r}, wanted {wanted!r}")

    def holds(self, name, is_so, told):
        self.looks += 1
        if not is_so:
            self.wrong += 1
            print(f"{name}: {str(told)[:600]}")

    def guarded(self, look, *words):
        """A look that comes to no end differs."""
        try:
            look(self, *words)
        except (StopIteration, TimeoutError, subprocess.SubprocessError) as error:
            self.holds(look.__name__, False, repr(error))

    def keys(self, node):
        return os.path.join(self.overlay.home(node), KEY_FILE)

    def environment(self, **plan):
        self.log = os.path.join(self.folder, "log")
        if os.path.exists(self.log):
            os.remove(self.log)
        return {**os.environ, "LD_PRELOAD": self.library, "CALLS_LOG": self.log, **plan}

    def run(self, turns, node=2, again=False, **plan):
        """The status and the output of a daemon of so many turns, from a key file that was just formatted or as it is."""
        if not again:
            with open(self.keys(node), "wb") as file:
                file.write(self.formatted)
        words, given = [self.program, "daemon", "--turns", str(turns)], self.overlay.read(f"{node}.toml")
        ended = subprocess.run(words, input=given, cwd=self.overlay.home(node), stdout=subprocess.PIPE, check=False, timeout=60, env=self.environment(**plan))
        return ended.returncode, ended.stdout

    def calls(self):
        """The calls that were made, in order."""
        with open(self.log, encoding="ascii") as file:
            rows = [line.rstrip("\n").split(" ") for line in file]
        return [Call(row[0], int(row[1]), row[2], int(row[3])) for row in rows]


def descriptor(calls, path):
    """The descriptor of a file that was opened."""
    return next((call.fd for call in calls if call.name == "open" and call.said == path and call.result >= 0), None)


def orders(looks, name, calls, changes):
    """The key file is locked, its folder is synced, and each piece of a change is synced before anything else goes out."""
    keys = descriptor(calls, KEY_FILE)
    of_keys = [call for call in calls if call.fd == keys and call.name in ("flock", "pread", "pwrite", "fsync")]
    looks.holds(f"{name}: the key file is locked first", of_keys and of_keys[0].name == "flock", of_keys[:1])
    place = next(place for place, call in enumerate(calls) if call.fd == keys and call.name in ("pread", "pwrite"))
    folder = descriptor(calls[:place], ".")
    looks.holds(f"{name}: its folder is synced first", any(call.name == "fsync" and call.fd == folder for call in calls[:place]), calls[:place])
    looks.equal(f"{name}: how often it is written", sum(call.name == "pwrite" for call in of_keys), PIECES * changes)
    unsynced, early = False, []
    for call in calls:
        if call.fd == keys and call.name in ("pwrite", "fsync"):
            early += [call] if unsynced and call.name == "pwrite" else []
            unsynced = call.name == "pwrite"
        elif unsynced and call.name in ("sendto", "write"):
            early.append(call)
    looks.equal(f"{name}: what went out before a sync", early, [])


def starts(looks):
    """The calls of a start, and of a format."""
    status, output = looks.run(2)
    looks.equal("a start", (status, output.split(b"\n")[-2]), (0, b"end turns 2 lost 0"))
    calls = looks.calls()
    orders(looks, "a start", calls, START)
    bound = {call.said for call in calls if call.name == "bind"}
    looks.equal("the addresses of its sockets", bound, {f"127.0.0.1:{port}" for port in looks.overlay.ports[2]})
    own = [call.said for call in calls if call.name == "connect"]
    looks.equal("whose sockets of their own it opens", own, [f"127.0.0.1:{looks.overlay.ports[node][0]}" for node in (1, 3)])
    sent = [call for call in calls if call.name == "sendto"]
    looks.equal("a frame for each turn, to 127.0.0.1", [call.said.split(":")[0] for call in sent], ["127.0.0.1"] * 2)
    home = os.path.join(looks.folder, "format")
    os.mkdir(home)
    subprocess.run([looks.program, "format"], cwd=home, stdout=subprocess.PIPE, check=True, env=looks.environment())
    orders(looks, "a format", looks.calls(), 1)


def failing(looks):
    """Each call of the key file fails in turn: status 8, nothing is tried again, and the file is as sound as before."""
    looks.run(1)
    counts = collections.Counter(call.name for call in looks.calls())
    for name in ("pread", "pwrite", "fsync"):
        looks.holds(f"there is a {name}", counts[name] > 0, counts)
        for number in range(1, counts[name] + 1):
            ended = looks.run(1, CALLS_FAIL=f"{name}:{number}")
            looks.equal(f"{name} {number} fails", ended, (STATUS_KEEPER, b"keeper\n"))
            calls = looks.calls()
            place = next(place for place, call in enumerate(calls) if call.name == name and call.result == -errno.EIO)
            after = [call for call in calls[place + 1:] if call.name in ("pread", "pwrite", "fsync", "sendto")]
            looks.equal(f"{name} {number} fails: what is called then", after, [])
            looks.equal(f"{name} {number} fails: the next start", looks.run(1, again=True)[0], 0)
    for name in ("pread", "pwrite"):
        for number in range(1, counts[name] + 1):
            looks.equal(f"{name} {number} does less", looks.run(1, CALLS_SHORT=f"{name}:{number}")[0], 0)
            with open(looks.keys(2), "rb") as file:
                slot = b"\xa5" + b"".join(number.to_bytes(8, "big") for number in (3, 32, 1))
                looks.equal(f"{name} {number} does less: the key file", file.read()[:len(slot)], slot)


def lost(looks):
    """A send or a receive that fails, and a send that moves less, is counted as lost."""
    plans = [("CALLS_FAIL", "sendto:1"), ("CALLS_FAIL", "sendto:3"), ("CALLS_SHORT", "sendto:2"), ("CALLS_FAIL", "recvfrom:1"), ("CALLS_FAIL", "recvfrom:4")]
    for plan in (dict([each]) for each in plans):
        status, output = looks.run(4, **plan)
        looks.equal(f"{plan}: what was lost", (status, output.split(b"\n")[-2]), (0, b"end turns 4 lost 1"))


def clocks(looks):
    """The readings of the clock in milliseconds, as the recording has them."""
    rows = [
        ("in milliseconds", "1764356400123456789", [1_764_356_400_123] * 3), ("that goes on", "1000000000,2000000000,3000000000", [1_000, 2_000, 3_000]),
        ("that goes back", "9000000000,5000000000,7000000000", [9_000, 5_000, 7_000]), ("that fails", "5000000000,-,6000000000", [5_000, 5_000, 6_000]),
    ]
    for name, plan, wanted in rows:
        _, output = looks.run(3, CALLS_CLOCK=plan)
        looks.equal(f"a clock {name}", [int(found) for found in re.findall(rb"^tick (\d+) ", output, re.MULTILINE)], wanted)


class Running:
    """Daemons, of which the second runs under the library."""

    nodes = 1, 3

    def __init__(self, looks):
        self.looks, self.overlay = looks, looks.overlay

    def __enter__(self):
        for node in self.overlay.ports:
            with open(self.looks.keys(node), "wb") as file:
                file.write(self.looks.formatted)
        for node in self.nodes:
            self.overlay.start(node, 1_000_000)
        with open(self.overlay.path("2.toml"), "rb") as given, open(self.overlay.path("2.recording"), "wb") as recording:
            self.child = subprocess.Popen([self.looks.program, "daemon", "--turns", "1000000"], cwd=self.overlay.home(2), stdin=given, stdout=recording,
                                          env=self.looks.environment())
        try:
            Client(self.overlay.ports[2][1]).ask("close")
        except TimeoutError:
            self.__exit__()
            raise
        return self

    def __exit__(self, *_):
        self.overlay.end_all()
        if self.child.poll() is None:
            self.child.send_signal(signal.SIGTERM)
        self.child.wait()

    def lines(self):
        return self.overlay.recording(2).split(b"\n")[:-1]


def reserves(looks):
    """A daemon that signs so much that it reserves, more than once, and whose frames go out once."""
    with Running(looks) as running:
        client, taker = Client(running.overlay.ports[2][1]), Client(running.overlay.ports[3][1])
        taker.ask("listen")
        accepted, until = 0, time.monotonic() + 60
        while accepted < 70 and time.monotonic() < until:
            accepted += client.ask(f"send 3 {accepted:02x}")[0] == "accepted"
            taker.ask("take 2")
    calls, lines = looks.calls(), running.lines()
    looks.equal("messages that were accepted", accepted, 70)
    count = sum(line.startswith(b"reserve ") for line in lines)
    looks.holds("reserves: there are some", count >= 2, count)
    orders(looks, "reserves", calls, START + count)
    overlay = {running.overlay.ports[node][0] for node in (1, 3)}
    sent = [call for call in calls if call.name == "sendto" and int(call.said.split(":")[1]) in overlay]
    polls = sum(line.startswith(b"poll ") for line in lines)
    looks.holds("a frame goes out once", 0 < len(sent) <= polls, f"{len(sent)} sends of {polls} frames")
    looks.equal("all go to 127.0.0.1", {call.said.split(":")[0] for call in calls if call.name == "sendto"}, {"127.0.0.1"})


def fault_of(other, port):
    """Why a socket can't have this port; None where it has it."""
    try:
        return other.bind(("127.0.0.1", port))
    except OSError as fault:
        return fault.errno


def strangers(looks):
    """Nobody else opens a socket on a daemon's port, and who isn't at 127.0.0.1 isn't heard, at neither port, whatever his port is."""
    with Running(looks) as running:
        overlay, client = running.overlay.ports[2]
        time.sleep(0.5)
        for port in (overlay, client):
            with socket.socket(socket.AF_INET, socket.SOCK_DGRAM) as other:
                other.setsockopt(socket.SOL_SOCKET, socket.SO_REUSEADDR, 1)
                looks.equal("another socket on a daemon's port", fault_of(other, port), errno.EADDRINUSE)
        for port in (running.overlay.ports[1][0], 0):
            with socket.socket(socket.AF_INET, socket.SOCK_DGRAM) as other:
                other.bind(("127.0.0.2", port))
                name = other.getsockname()[1]
                other.sendto(b"x" * 70, ("127.0.0.1", overlay))
                other.sendto(b"1 open", ("127.0.0.1", client))
                other.settimeout(0.5)
                try:
                    looks.equal("an answer to another address", other.recv(100), None)
                except TimeoutError:
                    pass
                fronts = b"client %d " % name, b"overlay 1 " + b"78" * 70
                heard = [line for line in running.lines() if line == b"stray %d" % name or line.startswith(fronts)]
                looks.equal("what another address says", heard, [])


def rests(looks):
    """A daemon with two neighbours that has nothing to do."""
    with Running(looks) as running:
        time.sleep(2)
        before = sum(line.startswith(b"tick ") for line in running.lines()), seconds_of(running.child.pid), len(looks.calls())
        time.sleep(5)
        after = sum(line.startswith(b"tick ") for line in running.lines()), seconds_of(running.child.pid), len(looks.calls())
    turns, share, calls = ((now - then) / 5 for now, then in zip(after, before))
    looks.holds("turns a second of a daemon that rests", turns <= RESTS, turns)
    looks.holds("calls a turn of a daemon that rests", calls <= CALLS * RESTS, calls)
    looks.holds("the share of a core of a daemon that rests", share <= SHARE, share)


def main():
    if len(sys.argv) != 2:
        sys.exit("usage: python3 .ci/system_calls.py PATH/TO/spinesd")
    with tempfile.TemporaryDirectory() as folder:
        looks = Calls(os.path.abspath(sys.argv[1]), folder)
        for look in (starts, failing, lost, clocks, reserves, strangers, rests):
            looks.guarded(look)
    print(f"{looks.looks - looks.wrong} looks at the calls of the system as wanted, {looks.wrong} not")
    sys.exit(1 if looks.wrong else 0)


if __name__ == "__main__":
    main()
