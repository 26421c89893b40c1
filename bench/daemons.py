"""What daemons of the built program cost and carry on this machine: python3 bench/daemons.py PATH/TO/spinesd [SECONDS]

Two idle daemons, and an idle hub of five leaves: the share of a core and the memory of each. How long single messages take over idle daemons, of which
nobody knows that one comes. Then a line of three, whose client at one end sends messages of 64 bytes as fast as they are accepted, and one at the other end
takes them: how many arrive in a second, with their acknowledgements back, and how much of a core each daemon takes. Then that hub, each leaf of which sends
to the next over it: the same, and how many datagrams the system dropped at the hub. Each runs for SECONDS, 10 if not said. Of the line also the signatures
and checks that a message took in all daemons together, and how many messages a second one core would allow that made nothing else; a signature is timed
beside the line, since the speed of a core changes with what its neighbours do. Last two daemons that end by themselves: the processor time of their turns,
and that of the verification of what they recorded. Figures depend on the machine, and nothing is judged. On a virtual machine look at the time that its host
stole (`st` of `vmstat`): where it isn't near 0 they say little.

The daemons' files lie in the system's folder of temporary files; TMPDIR=/dev/shm takes the disk, which each start and each 28 signatures wait for, out of
the figures.
"""

import os
import resource
import socket
import statistics
import subprocess
import sys
import tempfile
import threading
import time

ROOT = os.path.dirname(os.path.dirname(os.path.abspath(__file__)))
sys.path.insert(0, os.path.join(ROOT, "examples", "overlay"))

from overlay import Overlay, line_of  # noqa: E402

MANY_TURNS = 1_000_000
RECORDED_TURNS = 8_000
PAYLOAD = "5a" * 64
# how many requests of a client are on their way at a time
ON_THEIR_WAY = 4
# how many messages are sent one after another over idle daemons
LONE_MESSAGES = 40
# the greatest bounds of a daemon: messages of a flow, and entries of a store
BOUNDS = 64, 256
# how many indexes a line `reserve` of a recording stands for
RESERVED = 32
# how many messages are signed in a schedule that is timed
SIGNED = 2_000
# a check takes so much of a signature's time, where the front of its signer is remembered (docs/MEASURES.md, "Hashes, tags and signatures")
CHECK = 0.377
TICKS = os.sysconf("SC_CLK_TCK")


class Client:
    """A session at a daemon, which asks one request after another, and has a few on their way."""

    def __init__(self, port):
        self.socket, self.last = socket.socket(socket.AF_INET, socket.SOCK_DGRAM), 0
        self.socket.bind(("127.0.0.1", 0))
        self.socket.connect(("127.0.0.1", port))
        self.socket.settimeout(0.2)
        self.ask("open")

    def send(self, number, command):
        try:
            self.socket.send(f"{number} {command}".encode())
        except ConnectionRefusedError:
            pass

    def answers(self, command, until, most=ON_THEIR_WAY):
        """Asks the same until then, and gives the answers in their order. A request is sent again where its reply doesn't come, so each runs once;
        two seconds later nobody waits for it."""
        sent = self.last
        while time.monotonic() < until or self.last < sent and time.monotonic() < until + 2:
            while sent < self.last + most and time.monotonic() < until:
                sent += 1
                self.send(sent, command)
            try:
                number, reply = self.socket.recv(65_535).decode().split(" ", 1)
            except (TimeoutError, ConnectionRefusedError):
                for number in range(self.last + 1, sent + 1):
                    self.send(number, command)
                continue
            if int(number) == self.last + 1:
                self.last += 1
                yield reply.split(" ")

    def ask(self, command, seconds=30):
        """The answer to one request, which is waited for so long."""
        until = time.monotonic() + seconds
        while time.monotonic() < until:
            answer = next(self.answers(command, time.monotonic() + 0.001, 1), None)
            if answer is not None:
                return answer
        raise TimeoutError(f"nobody answers: {command}")


def seconds_of(pid):
    """The processor seconds that a process has taken."""
    with open(f"/proc/{pid}/stat", encoding="ascii") as file:
        cells = file.read().rsplit(") ", 1)[1].split(" ")
    return (int(cells[11]) + int(cells[12])) / TICKS


def memory_of(pid):
    """The most memory that a process has held, in kilobytes."""
    with open(f"/proc/{pid}/status", encoding="ascii") as file:
        return next(int(line.split()[1]) for line in file if line.startswith("VmHWM"))


def drops_of(port):
    """How many datagrams the system dropped at a port, since nobody had taken those before."""
    with open("/proc/net/udp", encoding="ascii") as file:
        return sum(int(line.split()[-1]) for line in file if line.split()[1].endswith(f":{port:04X}"))


def carried(overlay, ways, seconds):
    """Messages go these ways for so long. Gives how many arrived."""
    arrived, until = [], time.monotonic() + seconds
    senders = [(Client(overlay.ports[source][1]), f"send {target} {PAYLOAD}") for source, target in ways]
    takers = [(Client(overlay.ports[target][1]), f"take {source}") for source, target in ways]
    for taker, _ in takers:
        taker.ask("listen")

    def send(client, command):
        for _ in client.answers(command, until):
            pass

    def take(client, command):
        arrived.extend(1 for answer in client.answers(command, until) if answer[0] == "payload")

    threads = [threading.Thread(target=send, args=sender) for sender in senders] + [threading.Thread(target=take, args=taker) for taker in takers]
    for thread in threads:
        thread.start()
    for thread in threads:
        thread.join()
    return len(arrived)


def signed(overlay, node):
    """How many signatures a daemon took for itself, by its recording: at most 32 more than it made."""
    with open(overlay.path(f"{node}.recording"), "rb") as lines:
        return RESERVED * sum(line.startswith(b"reserve ") for line in lines)


def measured(program, name, graph, ways, seconds, times=None):
    """Runs an overlay, and tells what its daemons carried and took. Gives the messages of a second, and the signatures of each node. Where there is a list
    of times, signatures are timed beside the messages."""
    with tempfile.TemporaryDirectory() as folder:
        overlay = Overlay(folder, program, BOUNDS)
        overlay.make(graph)
        try:
            pids = {node: overlay.start(node, MANY_TURNS).pid for node in overlay.ports}
            time.sleep(2)
            before = {node: seconds_of(pid) for node, pid in pids.items()}
            rate, timer = 0, threading.Thread(target=signature_times, args=(program, time.monotonic() + seconds, times))
            if times is not None:
                timer.start()
            if ways:
                rate = carried(overlay, ways, seconds) / seconds
                print(f"{name}: {rate:.0f} messages a second arrived")
            else:
                time.sleep(seconds)
            used = {node: seconds_of(pid) - before[node] for node, pid in pids.items()}
            if times is not None:
                timer.join()
            for node, pid in pids.items():
                share = used[node] / seconds
                print(f"{name}, node {node}: {100 * share:.1f} % of a core, {memory_of(pid)} KB, {drops_of(overlay.ports[node][0])} datagrams dropped")
            return rate, {node: signed(overlay, node) / seconds for node in pids}
        finally:
            overlay.end_all()


def delays(program, name, graph, way):
    """Messages of idle daemons, one after another: how long after its request each was accepted, and taken at its destination, in milliseconds."""
    source, target = way
    with tempfile.TemporaryDirectory() as folder:
        overlay = Overlay(folder, program, BOUNDS)
        overlay.make(graph)
        try:
            for node in overlay.ports:
                overlay.start(node, MANY_TURNS)
            time.sleep(2)
            sender, taker = Client(overlay.ports[source][1]), Client(overlay.ports[target][1])
            taker.ask("listen")
            accepted, taken = [], []
            for _ in range(LONE_MESSAGES):
                time.sleep(0.3)
                begin = time.monotonic()
                sender.ask(f"send {target} {PAYLOAD}")
                accepted.append(time.monotonic() - begin)
                while taker.ask(f"take {source}")[0] != "payload":
                    pass
                taken.append(time.monotonic() - begin)
        finally:
            overlay.end_all()
        for word, each in (("accepted", accepted), ("taken", taken)):
            print(f"{name}: {word} after {1e3 * statistics.median(each):.1f} ms, at most {1e3 * max(each):.1f}")


def signing(sends):
    """A schedule in which so many messages are signed at height 10, and no frame goes."""
    header = f"schedule 1\nseed {'00' * 32}\nheight 10\nbounds 1 256\nnodes 2\nedge 1 2 10\nbegin\n"
    return header + f"prio 1 2 5 18446744073709551615 0 {PAYLOAD}\n" * sends + "end\n"


def replayed(program, path):
    """The processor time of a replay."""
    with open(path, "rb") as schedule:
        child = subprocess.Popen([program, "replay"], stdin=schedule, stdout=subprocess.DEVNULL)
    used = os.wait4(child.pid, 0)[2]
    return used.ru_utime + used.ru_stime


def signature_times(program, until, times):
    """Times signatures again and again, in seconds of a core."""
    with tempfile.TemporaryDirectory() as folder:
        paths = {sends: os.path.join(folder, str(sends)) for sends in (0, SIGNED)}
        for sends, path in paths.items():
            with open(path, "w", encoding="ascii") as file:
                file.write(signing(sends))
        while time.monotonic() < until:
            times.append((replayed(program, paths[SIGNED]) - replayed(program, paths[0])) / SIGNED)


def line_of_three(program, seconds):
    """What a line carries, and what one core would that made its signatures and checks and nothing else: each message and each acknowledgement is checked
    by two daemons. A signature is timed beside the line."""
    times = []
    rate, signatures = measured(program, "a line of three", line_of(3), [(1, 3)], seconds, times)
    signature, acks = statistics.median(times), signatures[3] / rate
    print(f"a line of three: {1e3 * signature:.3f} ms a signature beside it; {1 + acks:.2f} signatures and {2 + 2 * acks:.2f} checks a message")
    for whose, signed_here, checked in (("of all three daemons", 1 + acks, 2 + 2 * acks), ("of its source", 1, acks)):
        work = signature * (signed_here + CHECK * checked)
        print(f"one core with nothing but the signatures and checks {whose} allows {1 / work:.0f} a second: the line carries {rate * work:.2f} of that")


def recorded(program, seconds):
    """Runs two daemons to their end while messages go from one to the other, and verifies what they recorded."""
    with tempfile.TemporaryDirectory() as folder:
        overlay = Overlay(folder, program)
        overlay.make(line_of(2))
        try:
            pids = {node: overlay.start(node, RECORDED_TURNS).pid for node in overlay.ports}
            arrived = carried(overlay, [(1, 2)], seconds)
            used = {node: os.wait4(pid, 0)[2] for node, pid in pids.items()}
        finally:
            overlay.children = {}
            overlay.end_all()
        print(f"{RECORDED_TURNS} turns of two daemons: {arrived} messages arrived")
        for node, daemon in used.items():
            before = resource.getrusage(resource.RUSAGE_CHILDREN)
            _, output = overlay.verify(node)
            after = resource.getrusage(resource.RUSAGE_CHILDREN)
            turns, checks = daemon.ru_utime + daemon.ru_stime, after.ru_utime + after.ru_stime - before.ru_utime - before.ru_stime
            size = len(overlay.recording(node))
            print(f"node {node}: {turns:.2f} s of a processor for its turns, a recording of {size} bytes, {checks:.2f} s for `{output}`")


def main():
    if not 2 <= len(sys.argv) <= 3:
        sys.exit("usage: python3 bench/daemons.py PATH/TO/spinesd [SECONDS]")
    program, seconds = os.path.abspath(sys.argv[1]), float(sys.argv[2] if len(sys.argv) == 3 else 10)
    hub = (6, [(1, leaf, 10) for leaf in range(2, 7)])
    measured(program, "two idle daemons", line_of(2), [], seconds)
    measured(program, "an idle hub of five leaves", hub, [], seconds)
    delays(program, "over an idle line of three", line_of(3), (1, 3))
    delays(program, "over an idle hub of five leaves", hub, (2, 6))
    delays(program, "over an idle line of eight", line_of(8), (1, 8))
    line_of_three(program, seconds)
    measured(program, "a hub of five leaves", hub, [(leaf, leaf % 5 + 2 if leaf < 6 else 2) for leaf in range(2, 7)], seconds)
    recorded(program, seconds)


if __name__ == "__main__":
    main()
