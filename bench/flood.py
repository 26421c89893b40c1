"""What a line of daemons carries while one process of the machine floods the daemon in its middle:
python3 bench/flood.py PATH/TO/spinesd [SECONDS [ROUNDS [WORD]]]

Nodes 1, 2 and 3 stand in a line, and a client sends messages of 64 bytes from 1 to 3 as fast as they are accepted. Node 2 has a fourth neighbour, which is
down. Each row has ROUNDS, 1 if not said, of SECONDS, 4 if not said, without a flood and of as many with one, in turn. It floods node 2 with 300, 3,000,
30,000 and as many datagrams a second as one process can send, of 100 and of 20,000 bytes, from one port and from 200: strays to its overlay port, frames with
a wrong tag from the port of the neighbour that is down, and what is no request to its client port, also 1,000 a second. Told are the messages a second before
and during it, the most of all rounds each, how much of the first the second is, and of node 2 in the last flood the share of a core, turns a second, the
growth of its recording, what the system dropped at its ports, and the growth of its memory. With a WORD only the rows that have it are run. All datagrams
stay on 127.0.0.1. It needs a C compiler, `cc`. Figures depend on the machine, and nothing is judged.
"""

import os
import subprocess
import sys
import tempfile
import threading
import time

ROOT = os.path.dirname(os.path.dirname(os.path.abspath(__file__)))
sys.path.insert(0, os.path.join(ROOT, "examples", "overlay"))

from daemons import PAYLOAD, Client, drops_of, memory_of, seconds_of  # noqa: E402
from overlay import Overlay  # noqa: E402

MANY_TURNS = 10_000_000
BOUNDS = 64, 256
# the fourth neighbour of node 2 is never started
STAR = 4, [(1, 2, 10), (2, 3, 10), (2, 4, 10)]
RATES, CLIENT_RATES = (300, 3_000, 30_000, 0), (300, 1_000, 3_000, 30_000, 0)
SIZES = (100, 20_000)
# the head of a frame from node 4 to node 2, of boot 1
HEAD = (b"SI\x01\x04\x02" + (1).to_bytes(8, "big") + bytes(20)).hex()


def carried(overlay, seconds):
    """How many messages go from 1 to 3 in a second. The sessions are closed afterwards."""
    sender, taker, arrived = Client(overlay.ports[1][1]), Client(overlay.ports[3][1]), []
    taker.ask("listen")
    until = time.monotonic() + seconds

    def send():
        for _ in sender.answers(f"send 3 {PAYLOAD}", until):
            pass

    thread = threading.Thread(target=send)
    thread.start()
    for answer in taker.answers("take 1", until):
        arrived.append(answer[0] == "payload")
    thread.join()
    for client in (sender, taker):
        client.ask("close")
    return sum(arrived) / seconds


class Flooded:
    """The overlay whose node 2 is flooded, and its daemon there."""

    def __init__(self, overlay, flood, seconds):
        self.overlay, self.flood, self.seconds = overlay, flood, seconds
        self.pid = int(overlay.read("2.pid"))

    def look(self):
        """The seconds of a core, the bytes of the recording, the datagrams that were dropped, and the most memory so far."""
        dropped = sum(drops_of(port) for port in self.overlay.ports[2])
        return seconds_of(self.pid), os.path.getsize(self.overlay.path("2.recording")), dropped, memory_of(self.pid)

    def turns_since(self, size):
        """How many turns the recording has after so many bytes."""
        with open(self.overlay.path("2.recording"), "rb") as file:
            file.seek(size)
            return sum(line.startswith(b"tick ") for line in file)

    def flooded(self, words):
        """One flood: the datagrams that were sent and the messages that arrived in a second, and what it did to the daemon."""
        then = self.look()
        child = subprocess.Popen([str(word) for word in words], stdout=subprocess.PIPE)
        during = carried(self.overlay, self.seconds)
        sent = int(child.communicate()[0]) / self.seconds
        changes = [now - old for now, old in zip(self.look(), then)]
        return sent, during, changes, self.turns_since(then[1])

    def row(self, kind, rate, size, ports, rounds):
        """One kind of flood, and what it did."""
        port = self.overlay.ports[2][1 if kind == "client port" else 0]
        source, head = (self.overlay.ports[4][0], HEAD) if kind == "wrong tag" else (0, "00")
        words = [self.flood, port, size, rate, self.seconds, source, ports, head]
        before, during = 0, 0
        for _ in range(rounds):
            before = max(before, carried(self.overlay, self.seconds))
            sent, arrived, (used, grown, dropped, memory), turns = self.flooded(words)
            during = max(during, arrived)
        share = during / before if before else 0
        print(f"| {kind} | {ports} | {size:,} | {sent:,.0f} | {before:.0f} | {during:.0f} | {share:.2f} | {100 * used / self.seconds:.0f} % "
              f"| {turns / self.seconds:,.0f} | {grown / self.seconds / 1e6:.2f} | {dropped / self.seconds:,.0f} | {memory} |", flush=True)


def main():
    if not 2 <= len(sys.argv) <= 5:
        sys.exit("usage: python3 bench/flood.py PATH/TO/spinesd [SECONDS [ROUNDS [WORD]]]")
    program, seconds, rounds = os.path.abspath(sys.argv[1]), float((sys.argv[2:3] or [4])[0]), int((sys.argv[3:4] or [1])[0])
    rows = [("stray", rate, size, ports) for rate in RATES for size in SIZES for ports in (1, 200)]
    rows += [("wrong tag", rate, size, 1) for rate in RATES for size in SIZES]
    rows += [("client port", rate, size, 1) for rate in CLIENT_RATES for size in SIZES]
    with tempfile.TemporaryDirectory() as folder:
        flood = os.path.join(folder, "flood")
        subprocess.run(["cc", "-O2", "-o", flood, os.path.join(ROOT, "bench", "flood.c")], check=True)
        overlay = Overlay(os.path.join(folder, "overlay"), program, BOUNDS)
        overlay.make(STAR)
        try:
            for node in (1, 2, 3):
                overlay.start(node, MANY_TURNS)
            print("| Flood | Ports | Bytes | Sent a second | Messages before | during | of it | Core | Turns a second | Recording MB/s | Dropped | More KB |")
            print("|---|---|---|---|---|---|---|---|---|---|---|---|")
            for row in rows:
                if len(sys.argv) < 5 or sys.argv[4] in f"{row[0]} {row[1]} {row[2]} {row[3]}":
                    Flooded(overlay, flood, seconds).row(*row, rounds)
        finally:
            overlay.end_all()


if __name__ == "__main__":
    main()
