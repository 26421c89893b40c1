"""What the kit computes of a daemon's answers, against the digests: of the recordings of conformance/, and of ten daemons that have much to do.

Ten nodes in a ring with chords carry reliable messages both ways, priority messages over all edges and over two paths, and weights.
Each answer that the kit computes has the recorded digest, and each reply and tick is told. Used by kit.py, which has the judge.
"""

import glob
import os
import sys
import threading
import time

ROOT = os.path.dirname(os.path.dirname(os.path.abspath(__file__)))
sys.path[:0] = [os.path.join(ROOT, "kit", "lib"), os.path.join(ROOT, "bench"), os.path.join(ROOT, "examples", "overlay")]

import configurations  # noqa: E402
import recordings  # noqa: E402
from daemons import Client  # noqa: E402
from overlay import Overlay  # noqa: E402
from watching import Watch  # noqa: E402

MANY_TURNS = 1_000_000
SECONDS = 4
NEVER = 2 ** 64 - 1
RING = 10, sorted([(node, node + 1, 10) for node in range(1, 10)] + [(1, 10, 10), (1, 6, 15), (3, 8, 15)])
# whose client sends to whom, and what it asks again and again; {} is a payload
ASKS = [(1, "send 6 {}"), (6, "send 1 {}"), (3, "send 10 {}"), (4, "sendprio 9 5 %d 0 {}" % NEVER), (8, "sendprio 2 7 %d 2 {}" % NEVER), (5, "weight 4 {}")]
TAKES = [(6, "take 1"), (1, "take 6"), (10, "take 3"), (9, "takeprio"), (2, "takeprio")]


def watch_of(configuration, recording):
    """All lines of a recording, watched."""
    watch = Watch(configurations.configuration_of(configuration))
    for line in recordings.lines_of(recording)[0]:
        watch.feed(line)
    return watch


def untold(watch):
    """How many answers differ or stay untold: of datagrams, of requests and of ticks."""
    return watch.wrong, sum(n.untold for n in watch.neighbours.values()), watch.requests["untold"], watch.untold_ticks


def of_conformance(kit):
    for path in sorted(glob.glob(os.path.join(ROOT, "conformance", "recordings", "whole_*.recording"))):
        with open(path, "rb") as file:
            watch = watch_of(*recordings.split(file.read()))
        kit.equal(f"the answers of {os.path.basename(path)}", untold(watch), (0, 0, 0, 0))


def asks(client, command, until):
    """Asks again and again, each time of another payload or weight."""
    number = 0
    while time.monotonic() < until:
        number += 1
        answer = client.ask(command.format(f"{number:08x}" if "send" in command else 10 + number % 50))
        if answer[0] in ("full", "empty"):
            time.sleep(0.002)


def busy(overlay):
    """All clients ask for some seconds."""
    takers = [(Client(overlay.ports[node][1]), command) for node, command in TAKES]
    for client, _ in takers:
        client.ask("listen")
    until = time.monotonic() + SECONDS
    rows = takers + [(Client(overlay.ports[node][1]), command) for node, command in ASKS]
    threads = [threading.Thread(target=asks, args=(client, command, until)) for client, command in rows]
    for thread in threads:
        thread.start()
    for thread in threads:
        thread.join()


def look(kit):
    of_conformance(kit)
    overlay = Overlay(kit.path("busy"), kit.program)
    try:
        overlay.make(RING, 5)
        for node in overlay.ports:
            overlay.start(node, MANY_TURNS)
        busy(overlay)
    finally:
        overlay.end_all()
    for node in overlay.ports:
        watch = watch_of(overlay.read(f"{node}.toml"), overlay.recording(node))
        kit.equal(f"ten busy daemons: what is untold of node {node}", untold(watch), (0, 0, 0, 0))
        kit.holds(f"ten busy daemons: node {node} heard frames", watch.right > 20, watch.right)
    kit.holds("ten busy daemons: messages arrived", watch_of(overlay.read("6.toml"), overlay.recording(6)).delivered[1, 6] > 3, "hardly any")
