"""A walk through an overlay on this machine: python3 walk.py start [N | GRAPH], python3 walk.py ask NODE COMMAND.., python3 walk.py stop

N is a number of nodes, which stand in a line then; GRAPH is a file with a graph, as `spinesd paths` reads it. The overlay lies in the folder
`run` beside this file, or in that of the environment's OVERLAY.
"""

import os
import shutil
import signal
import subprocess
import sys
import time

from building import build
from overlay import BUILT, Overlay, PROGRAM, ROOT, line_of, read_graph

FOLDER = os.environ.get("OVERLAY", os.path.join(os.path.dirname(os.path.abspath(__file__)), "run"))
# a daemon ends by itself after so many turns: hours where nothing happens, some minutes where much does
TURNS = 150_000
# the format of its documents: under it a daemon may end and begin again
FORMAT = 2
# a node is waited for so many seconds until its start has come to another
MET_SECONDS = 20.0


def graph_of(words):
    if not words:
        return line_of(3)
    return line_of(int(words[0])) if words[0].isdigit() else read_graph(words[0])


def route(graph):
    """The cheapest way from the first node to the last, by `spinesd paths`."""
    nodes, edges = graph
    text = f"graph 1\nnodes {nodes}\n" + "".join(f"edge {low} {high} {weight}\n" for low, high, weight in edges) + "end\n"
    words = ["paths", "--from", "1", "--to", str(nodes), "--paths", "1"]
    ended = subprocess.run([PROGRAM, *words], input=text.encode(), stdout=subprocess.PIPE, check=True)
    return [int(word) for word in ended.stdout.split(b"\n")[0].split()[1:]]


def begin(graph):
    """A new overlay in the place of an old one, and its daemons."""
    if os.path.exists(os.path.join(FOLDER, "overlay.json")):
        Overlay(FOLDER).end_all()
        shutil.rmtree(FOLDER)
    overlay = Overlay(FOLDER)
    overlay.make(graph, of_format=FORMAT)
    print(f"Keys, the signed topology and {graph[0]} configurations are in {overlay.folder}.")
    for node, (port, client_port) in overlay.ports.items():
        child = overlay.start(node, TURNS)
        print(f"Node {node} is process {child.pid}. Its neighbours reach it at port {port}, its clients at port {client_port}.")
    return overlay


def send(overlay, last, text):
    """Node 1 sends a text. Before it heard of the last node's start, it answers `badend`, and is asked again."""
    until, answer = time.monotonic() + MET_SECONDS, "badend"
    while answer == "badend" and time.monotonic() < until:
        answer = overlay.ask(1, f"send {last} {text.encode().hex()}")
    print(f"Node 1, asked to send {text!r} to node {last}, answers: {answer}")


def arrives(overlay, last, seconds):
    payload = overlay.take(last, 1, seconds)
    print(f"Node {last} has nothing from node 1 after {seconds} seconds." if payload is None else f"Node {last} gives what node 1 sent: {payload.decode()!r}")
    return payload


def recordings(overlay):
    """Whether the recordings so far are those of correct daemons, of each life of each node."""
    for node in overlay.ports:
        for name in [*overlay.earlier(node), f"{node}.recording"]:
            recording = overlay.recording(node, name)
            status, output = overlay.verify(node, recording) if recording else ("none", "nothing, it was ended before it had started")
            print(f"The recording of node {node}, {life_of(recording)}: {output}, status {status}")


def life_of(recording):
    """Which life of its node a recording is of, by its first line."""
    return f"life {recording.split(b' ', 3)[2].decode()}" if recording.startswith(b"recording ") else "no life"


def again(overlay, way, last):
    """The node in the middle is killed, and a message waits or goes another way; it begins again, and messages arrive."""
    middle = way[len(way) // 2]
    overlay.end(middle, signal.SIGKILL)
    print(f"Node {middle} is killed; it was on the cheapest way, {'-'.join(str(node) for node in way)}.")
    send(overlay, last, "are you there?")
    arrived = arrives(overlay, last, 3.0)
    overlay.start(middle, TURNS)
    print(f"Node {middle} is started again: it takes its next boot from its key file, and tells all that it began anew.")
    if arrived is None:
        arrives(overlay, last, MET_SECONDS)
    send(overlay, last, "welcome back")
    arrives(overlay, last, MET_SECONDS)


def start(words):
    graph = graph_of(words)
    last = graph[0]
    overlay = begin(graph)
    overlay.ask(last, "listen")
    send(overlay, last, "hello")
    arrives(overlay, last, 10.0)
    recordings(overlay)
    way = route(graph)
    if len(way) > 2:
        again(overlay, way, last)
        recordings(overlay)
    print("The daemons go on until they made their turns. Ask them by examples/overlay/ask NODE REQUEST, as `ask 3 take 1` and `ask 1 send 3 6869` (all")
    print("requests: docs/FORMATS.md, \"Requests of clients\"; no number before them), and end them by examples/overlay/stop.")


def ask(words):
    """The answer to a request, or one line that says why there is none."""
    overlay, node, command = Overlay(FOLDER), int(words[0]) if words[0].isdecimal() else None, " ".join(words[1:])
    if not overlay.ports:
        sys.exit(f"ask: no overlay is in {FOLDER}; examples/overlay/start makes one")
    if node not in overlay.ports:
        sys.exit(f"ask: the overlay has no node {words[0]}; it has the nodes 1 to {len(overlay.ports)}")
    if not overlay.runs(node):
        sys.exit(f"ask: the daemon of node {node} doesn't run: it was ended, or made all its turns; examples/overlay/start begins anew")
    try:
        print(overlay.ask(node, command))
    except (RuntimeError, TimeoutError) as fault:
        sys.exit(f"ask: {fault}")


def stop():
    overlay = Overlay(FOLDER)
    overlay.end_all()
    recordings(overlay)


def main():
    words = sys.argv[1:]
    if words[:1] == ["start"] and PROGRAM == BUILT and not os.path.exists(BUILT) and shutil.which("rt"):
        build(ROOT, "spinesd")
    if not os.access(PROGRAM, os.X_OK):
        sys.exit(f"There is no program {PROGRAM}. `cd crates/spinesd && rt run -- generate --seed 7` builds it; another one is named by SPINESD.")
    if words[:1] == ["start"] and len(words) <= 2:
        start(words[1:])
    elif words[:1] == ["ask"] and len(words) > 2:
        ask(words[1:])
    elif words == ["stop"]:
        stop()
    else:
        sys.exit(__doc__)


if __name__ == "__main__":
    main()
