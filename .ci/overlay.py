"""Runs overlays of daemons with the built program: python3 .ci/overlay.py PATH/TO/spinesd

It makes keys, a signed topology and configurations in folders of its own, sends messages from one end of a line of three to the other, verifies
each recording, and does the same of four in a square, where two ways cost the same, and of three that end by themselves, all this in each format.
In format 2 daemons start again. Two daemons of different formats don't hear each other. Ports are the system's, nothing is left running, and it
takes less than half a minute. Each difference is told, and the status is then 1.
"""

import hashlib
import os
import re
import signal
import subprocess
import sys
import tempfile
import time

ROOT = os.path.dirname(os.path.dirname(os.path.abspath(__file__)))
sys.path.insert(0, os.path.join(ROOT, "examples", "overlay"))

from overlay import Overlay, line_of  # noqa: E402

HEIGHT = 5
MANY_TURNS = 100_000
FEW_TURNS = 25
MESSAGES = [b"\x00", b"hello", bytes(range(256)) * 4]
# both ways round cost the same, so a message over one path has two least sets of paths
SQUARE = 4, [(1, 2, 10), (1, 3, 10), (2, 4, 10), (3, 4, 10)]
# the greatest expiry
NEVER = 2**64 - 1
# a line of a recording that has a digest
VERSION = hashlib.sha256(b"version\n").hexdigest().encode()
WITH_DIGEST = re.compile(rb"^(?:tick|overlay|client|poll) .*[0-9a-f]{64}$", re.MULTILINE)


class Judge:
    """How many differences there were, of how many looks."""

    def __init__(self):
        self.looks, self.wrong = 0, 0

    def equal(self, name, got, wanted):
        self.looks += 1
        if got != wanted:
            self.wrong += 1
            print(f"{name}: {got!r}, wanted {wanted!r}")


def verified(judge, name, overlay, node):
    """All digests of a recording agree, and one that is changed doesn't."""
    recording = overlay.recording(node)
    found = list(WITH_DIGEST.finditer(recording))
    judge.equal(f"{name}: the recording of node {node}", overlay.verify(node), (0, f"verified {len(found)}"))
    last = found[-1]
    changed = recording[: last.end() - 64] + 64 * b"0" + recording[last.end():]
    line = overlay.read(f"{node}.toml").count(b"\n") + changed[: last.end()].count(b"\n") + 1
    status, output = overlay.verify(node, changed)
    told = f"mismatch {line} {64 * '0'} {recording[last.end() - 64: last.end()].decode()}"
    judge.equal(f"{name}: the recording of node {node} with another digest", (status, output), (10, told))


def met(overlay, node, request, seconds=5.0):
    """The answer to a send, which is asked again while no start of its destination was heard there, as in format 2 at first."""
    return answered(overlay, node, request, lambda answer: answer != "badend", seconds)


def answered(overlay, node, request, is_wanted, seconds=5.0):
    """The first answer to a request that is wanted, or the last one in time."""
    until = time.monotonic() + seconds
    answer = overlay.ask(node, request)
    while not is_wanted(answer) and time.monotonic() < until:
        answer = overlay.ask(node, request)
    return answer


def messages_arrive(judge, folder, program, of_format):
    """Messages go from one end to the other in their order. Then the middle is killed, and the last one doesn't arrive."""
    overlay = Overlay(folder, program)
    try:
        overlay.make(line_of(3), HEIGHT, of_format)
        for node in overlay.ports:
            overlay.start(node, MANY_TURNS)
        overlay.ask(3, "listen")
        for number, payload in enumerate(MESSAGES, 1):
            judge.equal(f"message {number} is sent", met(overlay, 1, f"send 3 {payload.hex()}"), f"accepted {number}")
        for number, payload in enumerate(MESSAGES, 1):
            judge.equal(f"message {number} arrives", overlay.take(3, 1), payload)
        overlay.end(2, signal.SIGKILL)
        judge.equal("a message that can't arrive is sent", overlay.ask(1, "send 3 -"), f"accepted {len(MESSAGES) + 1}")
        judge.equal("and doesn't arrive", overlay.take(3, 1, 0.5), None)
    finally:
        overlay.end_all()
    for node in overlay.ports:
        verified(judge, "daemons that are stopped", overlay, node)


def taken(overlay, node, seconds=5.0):
    """The oldest priority message of a node, which is waited for."""
    return answered(overlay, node, "takeprio", lambda answer: answer != "empty", seconds)


def ways_tie(judge, folder, program, of_format):
    """A priority message over one of two ways of equal cost arrives, and so does one over both. The recordings have the choice, and `verify` makes it again."""
    overlay = Overlay(folder, program)
    try:
        overlay.make(SQUARE, HEIGHT, of_format)
        for node in overlay.ports:
            overlay.start(node, MANY_TURNS)
        overlay.ask(4, "listen")
        for number, paths in enumerate((1, 2), 1):
            name = f"the message over {paths} of two equal ways"
            judge.equal(f"{name} is sent", met(overlay, 1, f"sendprio 4 5 {NEVER} {paths} 746965"), f"accepted {number}")
            judge.equal(f"{name} arrives", taken(overlay, 4), f"payload 1 {number} 746965")
        judge.equal("a third way isn't there", overlay.ask(1, f"sendprio 4 5 {NEVER} 3 746965"), "nopaths 2")
    finally:
        overlay.end_all()
    for node in overlay.ports:
        verified(judge, "daemons of a square", overlay, node)


def daemons_end(judge, folder, program, of_format):
    """Daemons end by themselves after their turns, and the last line says so."""
    overlay = Overlay(folder, program)
    try:
        overlay.make(line_of(3), HEIGHT, of_format)
        children = [overlay.start(node, FEW_TURNS) for node in overlay.ports]
        for node, child in zip(overlay.ports, children):
            judge.equal(f"node {node} ends", child.wait(timeout=5), 0)
    finally:
        overlay.end_all()
    for node in overlay.ports:
        lines = overlay.recording(node).split(b"\n")
        judge.equal(f"the first line of node {node}", lines[0], b"recording 1 1 0 32")
        judge.equal(f"the last line of node {node}", lines[-2], b"end turns %d lost 0" % FEW_TURNS)
        judge.equal(f"the ticks of node {node}", sum(line.startswith(b"tick ") for line in lines), FEW_TURNS)
        judge.equal(f"the polls of node {node}", sum(line.startswith(b"poll ") for line in lines), FEW_TURNS)
        verified(judge, "daemons that ended", overlay, node)


def again(overlay, node):
    """A daemon is killed and starts again: its clients have no session."""
    overlay.end(node, signal.SIGKILL)
    overlay.start(node, MANY_TURNS)
    if os.path.exists(overlay.path(f"{node}.session")):
        os.remove(overlay.path(f"{node}.session"))


def daemons_start_again(judge, folder, program):
    """In format 2 the middle of a line starts again, and a flow over it goes on; then its destination does, and the flow begins again."""
    overlay = Overlay(folder, program)
    try:
        overlay.make(line_of(3), HEIGHT, 2)
        for node in overlay.ports:
            overlay.start(node, MANY_TURNS)
        overlay.ask(3, "listen")
        judge.equal("a message is sent", met(overlay, 1, "send 3 6a"), "accepted 1")
        judge.equal("a message arrives", overlay.take(3, 1), b"j")
        again(overlay, 2)
        judge.equal("a message over a middle that started again is sent", overlay.ask(1, "send 3 6b"), "accepted 2")
        judge.equal("a message over a middle that started again arrives", overlay.take(3, 1), b"k")
        again(overlay, 3)
        overlay.ask(3, "listen")
        judge.equal("the flow begins again", answered(overlay, 1, "send 3 6c", lambda answer: answer == "accepted 1"), "accepted 1")
        judge.equal("and its first message arrives", overlay.take(3, 1), b"l")
    finally:
        overlay.end_all()
    for node, start in ((1, b"1 0 32"), (2, b"2 32 64"), (3, b"2 32 64")):
        judge.equal(f"the last start of node {node}", overlay.recording(node).split(b"\n")[0], b"recording 1 " + start)
        verified(judge, "daemons that started again", overlay, node)


def in_other_format(overlay, node):
    """Gives a node the document of the other format, of the same nodes and links, under the administrator's next index."""
    draft = overlay.read("draft.toml").replace(b"format = 2\n", b"").replace(b"admin_index = 0\n", b"admin_index = 1\n")
    document = subprocess.run([overlay.program, "topology"], input=draft, stdout=subprocess.PIPE, check=True).stdout.decode().split()[0]
    text = overlay.read(f"{node}.toml").decode()
    overlay.write(f"{node}.toml", re.sub(r'(?m)^topology = ".*"$', f'topology = "{document}"', text))


def formats_differ(judge, folder, program):
    """Of two neighbours with one link key and documents of different formats each answers the other's frames `version`, and nothing arrives."""
    overlay = Overlay(folder, program)
    try:
        overlay.make(line_of(2), HEIGHT, 2)
        in_other_format(overlay, 1)
        for node in overlay.ports:
            overlay.start(node, MANY_TURNS)
        for source, target, told in ((1, 2, "accepted 1"), (2, 1, "badend")):
            overlay.ask(target, "listen")
            judge.equal(f"a message from node {source} is asked for", overlay.ask(source, f"send {target} 6869"), told)
            judge.equal("and doesn't arrive under another format", overlay.take(target, source, 1), None)
    finally:
        overlay.end_all()
    for node in overlay.ports:
        answers = re.findall(rb"^overlay \d+ [0-9a-f]+ ([0-9a-f]{64})$", overlay.recording(node), re.MULTILINE)
        judge.equal(f"what node {node} answers to frames of another format", {*answers}, {VERSION})
        verified(judge, "daemons of two formats", overlay, node)


def main():
    if len(sys.argv) != 2:
        sys.exit("usage: python3 .ci/overlay.py PATH/TO/spinesd")
    judge = Judge()
    with tempfile.TemporaryDirectory() as folder:
        for of_format in (1, 2):
            for look in (messages_arrive, ways_tie, daemons_end):
                look(judge, os.path.join(folder, f"{look.__name__}_{of_format}"), sys.argv[1], of_format)
        daemons_start_again(judge, os.path.join(folder, "starts"), sys.argv[1])
        formats_differ(judge, os.path.join(folder, "formats"), sys.argv[1])
    print(f"{judge.looks - judge.wrong} looks at an overlay of daemons as wanted, {judge.wrong} not")
    sys.exit(1 if judge.wrong else 0)


if __name__ == "__main__":
    main()
