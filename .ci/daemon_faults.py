"""Runs daemons of the built program where something outside fails: python3 .ci/daemon_faults.py PATH/TO/spinesd

A port in use, a full disk, a signal in the middle of a turn, a neighbour that is down, a configuration that doesn't fit its topology, and floods:
of garbage from a stranger and from a neighbour's port, of the longest datagrams at both sockets, of requests, and one that is there before the daemon
is. Ports are the system's, and nothing is left running. Each difference is told, and the status is then 1.
"""

import os
import resource
import signal
import socket
import subprocess
import sys
import tempfile
import threading
import time

ROOT = os.path.dirname(os.path.dirname(os.path.abspath(__file__)))
sys.path.insert(0, os.path.join(ROOT, "examples", "overlay"))

from overlay import Overlay, free_ports, line_of  # noqa: E402

HEIGHT = 5
MANY_TURNS = 100_000
LONE_TURNS = 60
FULL_AT = 20_000
FLOOD_SECONDS, FLOOD_RATE = 5, 10_000
# a hub that rests takes 0.3 seconds for a cycle of its three neighbours, and hears a stranger in every second one while an impostor floods it too: 8 times in
# those of the flood, and far oftener while messages cross it. Fewer says that strangers aren't heard at all, or not in turn
LEAST_HEARD = 10
# the longest datagram, which goes so often, and the longest request
LONGEST, LONG_RATE, FEW_RATE, REQUEST_BYTES = 65_507, 500, 20, 4_096
GARBAGE = [b"", b"\x53\x49\x01" + bytes(73), bytes(64), os.urandom(200), os.urandom(1_400)]
# a hub with three neighbours, the last of which is an impostor
STAR = 4, [(1, 2, 10), (2, 3, 10), (2, 4, 10)]
MESSAGES = [f"message {number}".encode() for number in range(1, 17)]
# how much more memory a daemon may hold after a flood, in KB
MORE_MEMORY = 256


class Faults:
    """The program, a folder of its own for each overlay, and how many looks differed."""

    def __init__(self, program, folder):
        self.program, self.folder, self.looks, self.wrong = program, folder, 0, 0

    def equal(self, name, got, wanted):
        self.holds(name, got == wanted, f"{got!r}, wanted {wanted!r}")

    def holds(self, name, is_so, told):
        self.looks += 1
        if not is_so:
            self.wrong += 1
            print(f"{name}: {told}")

    def overlay(self, name, graph):
        overlay = Overlay(os.path.join(self.folder, name), self.program)
        overlay.make(graph, HEIGHT)
        return overlay

    def run(self, words, given, **more):
        """The status and the output of a run, in a folder without a key file if no other is said."""
        ended = subprocess.run([self.program, *words], input=given, check=False, timeout=60, **{"stdout": subprocess.PIPE, "cwd": self.folder, **more})
        return ended.returncode, ended.stdout


def held(port):
    """A socket that has this port."""
    taken = socket.socket(socket.AF_INET, socket.SOCK_DGRAM)
    taken.bind(("127.0.0.1", port))
    return taken


def ports_in_use(faults):
    overlay = faults.overlay("ports", line_of(2))
    given = overlay.read("1.toml")
    for name, port in zip(("overlay", "client"), overlay.ports[1]):
        with held(port):
            faults.equal(f"a daemon whose {name} port is in use", faults.run(["daemon", "--turns", "3"], given, cwd=overlay.home(1)), (7, b"wire\n"))
    local, = free_ports(1)
    words = ["ask", "--port", str(overlay.ports[1][1]), "--local", str(local), "--turns", "3", "--request", "1 open"]
    with held(local):
        faults.equal("a question from a port in use", faults.run(words, b""), (7, b"wire\n"))
    faults.equal("a question to nobody", faults.run(words, b""), (11, b"unanswered 3\n"))


def full_disks(faults):
    overlay = faults.overlay("disks", line_of(2))
    given, words, home = overlay.read("1.toml"), ["daemon", "--turns", str(MANY_TURNS)], overlay.home(1)
    with open("/dev/full", "wb") as full:
        faults.equal("a recording on a full disk", faults.run(words, given, stdout=full, cwd=home)[0], 6)

    def limited():
        signal.signal(signal.SIGXFSZ, signal.SIG_IGN)
        resource.setrlimit(resource.RLIMIT_FSIZE, (FULL_AT, FULL_AT))

    with open(overlay.path("1.recording"), "wb") as recording:
        faults.equal("a disk that fills", faults.run(words, given, stdout=recording, preexec_fn=limited, cwd=home)[0], 6)
    faults.equal("the recording up to where the disk was full", len(overlay.read("1.recording")), FULL_AT)
    faults.equal("its whole lines are verified", overlay.verify(1)[0], 0)


def wait_for(path, size):
    """Waits until a file has so many bytes, for ten seconds at most."""
    until = time.monotonic() + 10
    while os.path.getsize(path) < size and time.monotonic() < until:
        time.sleep(0.0007)


def signals(faults):
    """The recording of a daemon that was ended anywhere is a beginning of one."""
    for place, by in enumerate([signal.SIGTERM, signal.SIGKILL] * 4):
        overlay = faults.overlay(f"signal{place}", line_of(2))
        try:
            children = [overlay.start(node, MANY_TURNS) for node in overlay.ports]
            wait_for(overlay.path("1.recording"), 1_000 * (place + 1))
            overlay.end(1, by)
            faults.equal(f"a daemon that is ended by {by.name}", children[0].returncode, -by)
        finally:
            overlay.end_all()
        status, output = overlay.verify(1)
        faults.holds("its recording, without an end line", status == 0 and output != "verified 0", f"status {status}, {output}")


def lone(faults):
    """A neighbour that is down costs nothing but its frames."""
    overlay = faults.overlay("lone", line_of(2))
    try:
        faults.equal("a daemon whose neighbour is down", overlay.start(1, LONE_TURNS).wait(timeout=20), 0)
    finally:
        overlay.end_all()
    faults.equal("its last line", overlay.recording(1).split(b"\n")[-2], b"end turns %d lost 0" % LONE_TURNS)
    faults.equal("its recording", overlay.verify(1), (0, f"verified {2 * LONE_TURNS}"))


def configurations(faults):
    """A configuration that doesn't fit its topology is refused before any port is opened, by `daemon` and by `verify`."""
    overlay = faults.overlay("configurations", line_of(3))
    good, other = overlay.read("2.toml"), overlay.read("1.toml")
    lines = good.split(b"\n")
    peer = good.index(b"\n[[peer]]")
    second = good.index(b"\n[[peer]]", peer + 1)
    port = b"port = %d\n"
    rows = [
        ("an administrator who didn't sign it", good.replace(lines[2], lines[2][:-2] + (b'0"' if lines[2][-2:] != b'0"' else b'1"')), b"Topology Signature"),
        ("a node that isn't in it", good.replace(b"node = 2\n", b"node = 9\n"), b"Topology Me"),
        ("a seed of another key", good.replace(lines[1], other.split(b"\n")[1]), b"Topology Key"),
        ("a neighbour too few", good[:second], b"Topology Peer"),
        ("neighbours in the wrong order", good[:peer] + good[second:] + good[peer:second], b"Topology Peer"),
        ("two neighbours at one port", good.replace(port % overlay.ports[3][0], port % overlay.ports[1][0]), b"Topology Peer"),
        ("no port", good.replace(port % overlay.ports[2][0], b""), b"Missing port"),
        ("a port beyond the last", good.replace(port % overlay.ports[2][0], port % 65_536), b"Range port"),
        ("no TOML", b"recording 1 1 0 1024\n", b"Toml"),
    ]
    for name, given, kind in rows:
        for words in (["daemon", "--turns", "3"], ["verify"]):
            if name != "no TOML" or words[0] == "daemon":
                faults.equal(f"{words[0]}: {name}", faults.run(words, given), (3, b"refused 0 " + kind + b"\n"))
    faults.equal("a configuration and no recording", faults.run(["verify"], good), (3, b"refused %d Form\n" % (good.count(b"\n") + 1)))
    folder = os.open(ROOT, os.O_RDONLY)
    faults.equal("a folder for a configuration", faults.run(["daemon", "--turns", "3"], None, stdin=folder), (5, b""))
    os.close(folder)


def memory_of(child):
    """What a process holds, in KB."""
    with open(f"/proc/{child.pid}/status", encoding="ascii") as lines:
        return next(int(line.split()[1]) for line in lines if line.startswith("VmRSS"))


def flood(senders, port, until, garbage=None, rate=FLOOD_RATE):
    """Garbage from each sender in turn, at the rate of the flood."""
    sent, begun, garbage = 0, time.monotonic(), garbage or GARBAGE
    while time.monotonic() < until:
        while sent < rate * (time.monotonic() - begun):
            senders[sent % len(senders)].sendto(garbage[sent % len(garbage)], ("127.0.0.1", port))
            sent += 1
        time.sleep(0.001)


def floods(faults):
    """All messages arrive in their order, whatever comes from a stranger and under a neighbour's address, and no memory is taken for it."""
    overlay = faults.overlay("flood", STAR)
    try:
        hub = [overlay.start(node, MANY_TURNS) for node in (1, 2, 3)][1]
        with held(overlay.ports[4][0]) as impostor, socket.socket(socket.AF_INET, socket.SOCK_DGRAM) as stranger:
            overlay.ask(3, "listen")
            overlay.ask(1, "open")
            time.sleep(0.3)
            before = memory_of(hub)
            until = time.monotonic() + FLOOD_SECONDS
            garbage = threading.Thread(target=flood, args=([impostor, stranger], overlay.ports[2][0], until))
            garbage.start()
            sent = [overlay.ask(1, f"send 3 {payload.hex()}") for payload in MESSAGES]
            arrived = [overlay.take(3, 1, 10.0) for _ in MESSAGES]
            garbage.join()
            more = memory_of(hub) - before
    finally:
        overlay.end_all()
    faults.equal("messages that are sent in a flood", sent, [f"accepted {number}" for number in range(1, len(MESSAGES) + 1)])
    faults.equal("messages that arrive in a flood", arrived, MESSAGES)
    faults.holds("the memory of the hub", more <= MORE_MEMORY, f"{more} KB more after the flood")
    lines = overlay.recording(2).split(b"\n")
    strays, impostors = (sum(line.startswith(front) for line in lines) for front in (b"stray ", b"overlay 4 "))
    is_heard = strays > LEAST_HEARD and impostors > LEAST_HEARD
    faults.holds("the flood was heard", is_heard, f"{strays} strays, {impostors} from the impostor")
    faults.equal("the recording of the hub", overlay.verify(2)[0], 0)
    print(f"the hub heard {strays} datagrams of a stranger and {impostors} of an impostor, and holds {more} KB more")


def hears_in_turn(faults):
    """The hub is flooded at both sockets before it starts: by the longest datagrams, by strays, from a neighbour's port, and by requests without a session.
    Messages cross it all the same, its own client is answered, and what no request can be is recorded seldom, and not whole."""
    overlay = faults.overlay("turns", STAR)
    port, client_port = overlay.ports[2]
    strangers = [socket.socket(socket.AF_INET, socket.SOCK_DGRAM) for _ in range(4)]
    impostor = held(overlay.ports[4][0])
    until = time.monotonic() + 2 * FLOOD_SECONDS
    rows = [(strangers[:1], port, [bytes(LONGEST)], LONG_RATE), ([impostor], port, [bytes(LONGEST)], FEW_RATE),
            (strangers[1:2], client_port, [b"x" * LONGEST], LONG_RATE),
            (strangers[2:3], port, [bytes(100)], FLOOD_RATE), (strangers[3:], client_port, [b"1 take 1", b"5 open"], FLOOD_RATE // 10)]
    threads = [threading.Thread(target=flood, args=(senders, to, until, garbage, rate)) for senders, to, garbage, rate in rows]
    try:
        for thread in threads:
            thread.start()
        for node in (1, 2, 3):
            overlay.start(node, MANY_TURNS)
        overlay.ask(3, "listen")
        sent = [overlay.ask(1, f"send 3 {payload.hex()}") for payload in MESSAGES]
        own = overlay.ask(2, "send 3 6f776e")
        arrived = [overlay.take(3, 1, 10.0) for _ in MESSAGES] + [overlay.take(3, 2, 10.0)]
        is_flooded = time.monotonic() < until
    finally:
        for thread in threads:
            thread.join()
        overlay.end_all()
        for each in (*strangers, impostor):
            each.close()
    faults.equal("messages that are sent over a hub that is flooded from its start", sent, [f"accepted {number}" for number in range(1, len(MESSAGES) + 1)])
    faults.equal("its own client is answered", own, "accepted 1")
    faults.equal("messages that arrive over it", arrived, [*MESSAGES, b"own"])
    faults.holds("the flood went on", is_flooded, "it ended before the messages came")
    lines = overlay.recording(2).split(b"\n")
    requests = [len(line.split(b" ")[2]) // 2 for line in lines if line.startswith(b"client ")]
    long = [length for length in requests if length > REQUEST_BYTES]
    turns = sum(line.startswith(b"tick ") for line in lines)
    is_seldom = long and max(long) == REQUEST_BYTES + 1 and 3 * len(long) <= turns + 3
    faults.holds("what no request can be is recorded", is_seldom, f"{len(long)} in {turns} turns, {max(long, default=0)} bytes")
    strays = sum(line.startswith(b"stray ") for line in lines)
    faults.holds("strays are recorded once in a cycle", 0 < strays and 3 * strays <= turns + 3, f"{strays} in {turns} turns")
    faults.equal("its recording", overlay.verify(2)[0], 0)


def main():
    if len(sys.argv) != 2:
        sys.exit("usage: python3 .ci/daemon_faults.py PATH/TO/spinesd")
    with tempfile.TemporaryDirectory() as folder:
        faults = Faults(os.path.abspath(sys.argv[1]), folder)
        for look in (ports_in_use, full_disks, signals, lone, configurations, floods, hears_in_turn):
            look(faults)
    print(f"{faults.looks - faults.wrong} looks at daemons among faults as wanted, {faults.wrong} not")
    sys.exit(1 if faults.wrong else 0)


if __name__ == "__main__":
    main()
