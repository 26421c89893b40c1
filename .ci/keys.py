"""Starts daemons of the built program over key files, good, broken and cut off at any moment: python3 .ci/keys.py PATH/TO/spinesd [STARTS [HEIGHT]]

A key file that is made, made twice, missing, broken in its bytes, unwritable, in use, or at its end: each answer is compared. Then a daemon is started
STARTS times, 10 if not said, and killed at some moment each time. A neighbour that the script plays reads the index of each signature that comes in a
frame: no index signs two messages, and each start begins above all that came before. Each difference is told, and the status is then 1.
"""

import os
import random
import resource
import signal
import socket
import struct
import subprocess
import sys
import tempfile
import time

ROOT = os.path.dirname(os.path.dirname(os.path.abspath(__file__)))
sys.path.insert(0, os.path.join(ROOT, "examples", "overlay"))

from overlay import Overlay, line_of  # noqa: E402

KEY_FILE = "spinesd.keys"
MANY_TURNS = 100_000
OPEN, CLOSED = 0xA5, 0
SECOND_SLOT = 64
TOTAL = 1_024
# a frame has so many bytes between a payload and its signature, their length; a signature of two levels so many before its upper leaf; a key has so many
LENGTH_BYTES = 2
UPPER_LEAF = 4
PUBLIC_KEY_BYTES = 56


def signature_bytes(height):
    """How long a signature of one level is: leaf, type, 68 elements of 32 bytes, type and path."""
    return 4 + 4 + 68 * 32 + 4 + 32 * height


def index_of(signature, height):
    """Which of the key's signatures this is: the upper leaf says which lower tree, the lower leaf where in it."""
    upper, = struct.unpack_from(">I", signature, UPPER_LEAF)
    lower, = struct.unpack_from(">I", signature, UPPER_LEAF + signature_bytes(height) + PUBLIC_KEY_BYTES)
    return (upper << height) + lower


def slot(serial, bound, boot, gate=OPEN):
    return bytes([gate]) + struct.pack(">QQQ", serial, bound, boot)


def file_of(first, second=b""):
    return first + bytes(SECOND_SLOT - len(first)) + second if second else first


class Judge:
    """How many looks there were, and how many differed."""

    def __init__(self, program, folder):
        self.program, self.folder, self.looks, self.wrong = program, folder, 0, 0

    def equal(self, name, got, wanted):
        self.holds(name, got == wanted, f"{got!r}, wanted {wanted!r}")

    def holds(self, name, is_so, told):
        self.looks += 1
        if not is_so:
            self.wrong += 1
            print(f"{name}: {told}")

    def run(self, home, words, given=b"", **more):
        ended = subprocess.run([self.program, *words], input=given, check=False, timeout=60, cwd=home, **{"stdout": subprocess.PIPE, **more})
        return ended.returncode, ended.stdout

    def overlay(self, name, height=5):
        overlay = Overlay(os.path.join(self.folder, name), self.program)
        overlay.make(line_of(2), height)
        return overlay


def stored(path):
    with open(path, "rb") as file:
        return file.read()


def store(path, data):
    with open(path, "wb") as file:
        file.write(data)


def made(judge):
    """A key file is made once, and no other command leaves one."""
    home = os.path.join(judge.folder, "made")
    os.makedirs(home)
    path = os.path.join(home, KEY_FILE)
    judge.run(home, ["paths", "--from", "1", "--to", "2", "--paths", "1"], b"graph 1\n")
    judge.run(home, ["replay"], b"schedule 1\n")
    judge.holds("no other command makes a key file", not os.path.exists(path), "there is one")
    judge.equal("a key file is made", judge.run(home, ["format"]), (0, b"formatted\n"))
    judge.equal("its bytes", stored(path), slot(1, 0, 0))
    judge.equal("it isn't made again", judge.run(home, ["format"]), (13, b"keystate formatted\n"))
    judge.equal("its bytes then", stored(path), slot(1, 0, 0))
    os.remove(path)
    os.mkdir(path)
    judge.equal("a folder in its place", judge.run(home, ["format"]), (8, b"keeper\n"))
    os.rmdir(path)
    judge.equal("no room on the disk", judge.run(home, ["format"], preexec_fn=without_room), (8, b"keeper\n"))
    with open("/dev/full", "wb") as full:
        judge.equal("a line that can't be written", judge.run(home, ["format"], stdout=full)[0], 6)


def without_room():
    signal.signal(signal.SIGXFSZ, signal.SIG_IGN)
    resource.setrlimit(resource.RLIMIT_FSIZE, (0, 0))


def broken(judge):
    """What a daemon says of a key file, by its bytes."""
    overlay = judge.overlay("broken")
    home, given = overlay.home(1), overlay.read("1.toml")
    path, words = os.path.join(home, KEY_FILE), ["daemon", "--turns", "2"]
    unformatted, exhausted = (13, b"keystate unformatted\n"), (13, b"keystate exhausted\n")
    last = 2 ** 64 - 1
    rows = [
        ("an empty file", b"", unformatted),
        ("half a slot", slot(1, 0, 0)[:24], unformatted),
        ("a gate of another byte", slot(1, 0, 0, 0xA4), unformatted),
        ("a closed gate", slot(1, 0, 0, CLOSED), unformatted),
        ("half a second slot", file_of(slot(9, 9, 9, CLOSED), slot(1, 0, 0)[:24]), unformatted),
        ("no index left", slot(1, TOTAL, 0), exhausted),
        ("no index left in the second slot", file_of(slot(1, 0, 0), slot(2, TOTAL, 0)), exhausted),
        ("no boot left", slot(1, 0, 2 ** 63 - 1), exhausted),
        ("no serial left", slot(last, 0, 0), exhausted),
        ("one serial left", slot(last - 1, 0, 0), exhausted),
    ]
    for name, data, wanted in rows:
        store(path, data)
        judge.equal(name, judge.run(home, words, given), wanted)
    starts = [
        ("a formatted file", slot(1, 0, 0), b"recording 1 1 0 32"),
        ("the second slot is the later", file_of(slot(3, 32, 1), slot(4, 64, 2)), b"recording 1 3 64 96"),
        ("the first slot is the later", file_of(slot(5, 96, 7), slot(4, 64, 2)), b"recording 1 8 96 128"),
        ("of equal serials the first counts", file_of(slot(4, 32, 1), slot(4, 64, 2)), b"recording 1 2 32 64"),
        ("a torn second slot", file_of(slot(3, 32, 1), slot(9, 9, 9, CLOSED)), b"recording 1 2 32 64"),
        ("few indexes left", slot(3, TOTAL - 5, 1), b"recording 1 2 1019 1024"),
    ]
    for name, data, wanted in starts:
        store(path, data)
        status, output = judge.run(home, words, given)
        judge.equal(name, (status, output.split(b"\n")[0]), (0, wanted))
    os.remove(path)
    judge.equal("no file", judge.run(home, words, given), unformatted)
    judge.holds("and none is left behind", not os.path.exists(path), "there is one")
    os.mkdir(path)
    judge.equal("a folder in its place", judge.run(home, words, given), (8, b"keeper\n"))
    os.rmdir(path)
    store(path, slot(1, 0, 0))
    judge.equal("no room on the disk", judge.run(home, words, given, preexec_fn=without_room), (8, b"keeper\n"))


def in_use(judge):
    """The second daemon of a folder ends, and the first one goes on."""
    overlay = judge.overlay("in_use")
    other = overlay.read("1.toml").replace(b"port = %d" % overlay.ports[1][0], b"port = %d" % overlay.ports[2][0])
    other = other.replace(b"port = %d" % overlay.ports[1][1], b"port = %d" % overlay.ports[2][1])
    try:
        child = overlay.start(1, MANY_TURNS)
        wait_for(lambda: overlay.recording(1), b"poll ")
        judge.equal("a second daemon of one key file", judge.run(overlay.home(1), ["daemon", "--turns", "2"], other)[0] in (3, 8), True)
        judge.equal("a file is made that is in use", judge.run(overlay.home(1), ["format"]), (8, b"keeper\n"))
        judge.equal("the first daemon goes on", child.poll(), None)
    finally:
        overlay.end_all()


def wait_for(read, word, seconds=20):
    """Waits until a text has this word."""
    until = time.monotonic() + seconds
    while word not in read() and time.monotonic() < until:
        time.sleep(0.002)


def reserves(judge):
    """A daemon whose clients sign more than it reserved goes on reserving, and its recording says so and is verified."""
    overlay = judge.overlay("reserves")
    try:
        overlay.start(1, MANY_TURNS)
        for weight in range(10, 110):
            overlay.ask(1, f"weight 2 {weight}")
    finally:
        overlay.end_all()
    lines = overlay.recording(1).split(b"\n")
    found = [line for line in lines if line.startswith(b"reserve ")]
    judge.equal("the reserves of 100 signatures", found[:3], [b"reserve 64", b"reserve 96", b"reserve 128"])
    judge.equal("their recording", overlay.verify(1)[0], 0)
    first = next(place for place, line in enumerate(lines) if line.startswith(b"reserve "))
    lacking = b"\n".join(lines[:first] + lines[first + 1:])
    judge.equal("the recording without its first reserve", overlay.verify(1, lacking)[0] in (3, 10), True)


def frames_of(neighbour):
    """All datagrams that wait at a socket."""
    found = []
    while True:
        try:
            found.append(neighbour.recv(65_535))
        except BlockingIOError:
            return found


def signed_in(frame, payloads, height):
    """Each of these payloads in a frame with the index of its signature."""
    for payload in payloads:
        place = frame.find(payload)
        if place >= 0:
            yield payload, index_of(frame[place + len(payload) + LENGTH_BYTES:], height)


def killed(judge, starts, height):
    """A daemon is killed at some moment of each of its starts: no index signs two messages, and each start begins above all of them."""
    overlay = judge.overlay("killed", height)
    chance, signer, payloads, repeated, low = random.Random(starts), {}, [], 0, 0
    with socket.socket(socket.AF_INET, socket.SOCK_DGRAM) as neighbour:
        neighbour.bind(("127.0.0.1", overlay.ports[2][0]))
        neighbour.setblocking(False)
        for start in range(starts):
            highest = max(signer, default=-1)
            child = overlay.start(1, MANY_TURNS)
            if chance.random() < 0.8:
                wait_for(lambda: overlay.read("1.recording"), b"\n")
                opening = overlay.read("1.recording").split(b"\n")[0].split(b" ")
                low += int(opening[3]) <= highest
                try:
                    send_some(overlay, chance, start, payloads)
                except (TimeoutError, RuntimeError):
                    pass
            else:
                time.sleep(chance.random() * 0.02)
            child.kill()
            overlay.end(1)
            session = overlay.path("1.session")
            if os.path.exists(session):
                os.remove(session)
            for frame in frames_of(neighbour):
                for payload, index in signed_in(frame, payloads, height):
                    repeated += signer.setdefault(index, payload) != payload
    judge.equal(f"starts that begin at an index that signed, of {starts}", low, 0)
    judge.equal(f"indexes that signed two messages, of {len(signer)}", repeated, 0)
    judge.holds("signatures were seen", len(signer) >= starts // 4, f"{len(signer)} of {starts} starts")
    return len(signer)


def send_some(overlay, chance, start, payloads):
    """Up to three messages to the neighbour, each with a payload of its own."""
    for number in range(chance.randrange(4)):
        payload = b"start %d message %d " % (start, number) + chance.randbytes(12)
        payloads.append(payload)
        overlay.ask(1, f"send 2 {payload.hex()}", 3)
    time.sleep(chance.random() * 0.03)


def main():
    if not 2 <= len(sys.argv) <= 4:
        sys.exit("usage: python3 .ci/keys.py PATH/TO/spinesd [STARTS [HEIGHT]]")
    starts, height = (int(word) for word in (sys.argv[2:] + ["10", "5"][len(sys.argv) - 2:]))
    with tempfile.TemporaryDirectory() as folder:
        judge = Judge(os.path.abspath(sys.argv[1]), folder)
        for look in (made, broken, in_use, reserves):
            look(judge)
        signatures = killed(judge, starts, height)
    print(f"{judge.looks - judge.wrong} looks at key files as wanted, {judge.wrong} not; {signatures} signatures of {starts} killed starts")
    sys.exit(1 if judge.wrong else 0)


if __name__ == "__main__":
    main()
