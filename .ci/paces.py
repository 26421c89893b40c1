"""Looks at when a daemon rests, waits and sends: python3 .ci/paces.py PATH/TO/spinesd

A hub runs under the library of system_calls.c, and the script plays its three neighbours and a client, so its calls follow from what these send. Without news
it rests, for 100 ms at a time, and each frame goes. News, new starts and requests wake it, and what says nothing new doesn't. Awake it waits for its
neighbours, each of which is sent no frame while it has one to answer, but for one of 32; who lets three waits pass is waited for no more, and a stranger
answers for nobody. Of a neighbour that floods it a bounded number is taken in a turn, and the newest few are heard; strays that aren't taken end no wait, and
one is heard in every second cycle at most while neighbours wait. Each difference is told, and the status is then 1. It needs a C compiler, `cc`.
"""

import hashlib
import os
import signal
import socket
import subprocess
import sys
import tempfile
import threading
import time

from system_calls import Calls, Running

HUB = 4, [(1, 2, 10), (2, 3, 10), (2, 4, 10)]
NEIGHBOURS = 1, 3, 4
# the longest wait for neighbours, and the longest rest, in milliseconds
HOLD, REST = 40, 100
# what carries a message is longer than 1,000 bytes; what says nothing new is short. Each length stands in the log
NEWS, WORD, REQUEST = 1_201, 41, b"2 listen"
# what starts an overlay has, and how long a signature of height 5 is
STARTS, SIGNATURE = 32, 4_756
# a neighbour that answers so often; of one that owes an answer meanwhile one frame of 32 goes
ANSWERS, UNSENT = 100, 32
# so many datagrams come at once; so many are taken in a turn, and so many of them wait
BURST, TAKEN, WAITING = 40, 16, 4
# of the strays that came with as many of three neighbours so many are heard before the last of these
SELDOM = 2
# so many strays in a second, of which at most so many end a wait
STRAYS, WAKES = 1_000, 250
# without news for so many cycles it rests, whoever answers
QUIET, TRIES = 8, 5


class Hub(Running):
    """The hub, and a socket at the port of each neighbour."""

    nodes = ()

    def __enter__(self):
        ports = self.overlay.ports
        self.port_of = {str(ports[node][0]): node for node in NEIGHBOURS}
        self.target, self.client = ("127.0.0.1", ports[2][0]), ("127.0.0.1", ports[2][1])
        self.sockets = {node: socket.socket(socket.AF_INET, socket.SOCK_DGRAM) for node in (*NEIGHBOURS, "stranger", "client")}
        for node in NEIGHBOURS:
            self.sockets[node].bind(("127.0.0.1", ports[node][0]))
        return super().__enter__()

    def __exit__(self, *words):
        super().__exit__(*words)
        for each in self.sockets.values():
            each.close()

    def until(self, place, is_last, count=1, seconds=10):
        """The calls from this place up to the last one, the first or a later one of its kind, which is waited for."""
        end = time.monotonic() + seconds
        while time.monotonic() < end:
            calls = self.looks.calls()[place:]
            last = [number for number, call in enumerate(calls) if is_last(call)]
            if count <= len(last):
                return calls[:last[count - 1] + 1]
            time.sleep(0.01)
        raise TimeoutError(f"the call didn't come: {calls[-3:]}")

    def until_rest(self, place, count=1):
        return self.until(place, lambda call: call.name == "epoll_wait" and int(call.said) > HOLD, count)

    def after(self, node, datagram, to=None):
        """The place in the log of the receive of a datagram, which is sent while the hub rests."""
        place = len(self.looks.calls())
        self.until_rest(place)
        self.sockets[node].sendto(datagram, to or self.target)
        return place + len(self.until(place, lambda call: call.name == "recvfrom" and call.result == len(datagram)))

    def sent(self, calls):
        """To which neighbours frames went, in order."""
        return [self.port_of[call.said.split(":")[1]] for call in calls if call.name == "sendto" and call.said.split(":")[1] in self.port_of]

    def answers(self, count):
        """The first neighbour answers so many frames, each with news."""
        one = self.sockets[1]
        one.setblocking(False)
        try:
            while one.recv(65_535):
                pass
        except BlockingIOError:
            one.settimeout(1)
        for _ in range(count):
            one.sendto(os.urandom(NEWS), self.target)
            one.recv(65_535)


def start_of(number):
    """A frame that says nothing but of this start: its Epoch object is the last part, before the tag."""
    signature = hashlib.sha256(b"%d" % number).digest() * (SIGNATURE // 32 + 1)
    body = b"\x07" + (number % 32 + 1).to_bytes(1, "big") + (number + 1).to_bytes(8, "big")
    sections = bytes(13) + b"\x01" + len(body).to_bytes(2, "big") + body + SIGNATURE.to_bytes(2, "big") + signature[:SIGNATURE]
    return os.urandom(33) + sections + os.urandom(32)


def is_wait(call):
    """A look at what came, for 0 milliseconds, is none."""
    return call.name == "epoll_wait" and 0 < int(call.said)


def unwaited(looks, hub, place):
    """The frames since then that went right after another one."""
    frames = [call for call in looks.calls()[place:] if is_wait(call) or hub.sent([call])]
    return [call for before, call in zip(frames, frames[1:]) if before.name == call.name == "sendto"]


def holds_of(calls):
    return sum(is_wait(call) and int(call.said) <= HOLD for call in calls)


def rests(looks, hub):
    """A rest isn't longer than it may be, and a frame goes after each."""
    hub.until_rest(0)
    place = len(looks.calls())
    time.sleep(1)
    calls = looks.calls()[place:]
    waits = [int(call.said) for call in calls if is_wait(call)]
    looks.holds("its rests", waits and max(waits) == REST, waits)
    looks.holds("a frame goes at each turn of a rest", abs(len(hub.sent(calls)) - len(waits)) <= 1, f"{len(hub.sent(calls))} frames in {len(waits)} rests")


def news(looks, hub):
    """News of one neighbour wake it. That one is waited for three times, whatever strangers send meanwhile, and sent no frame without a wait."""
    for name in ("quiet", "a stranger sends"):
        is_done = threading.Event()

        def strays():
            while name != "quiet" and not is_done.wait(0.005):
                hub.sockets["stranger"].sendto(bytes(60), hub.target)

        place = hub.after(1, os.urandom(NEWS))
        thread = threading.Thread(target=strays)
        thread.start()
        calls = hub.until_rest(place)
        is_done.set()
        thread.join()
        if name == "quiet":
            looks.equal("waits after news", holds_of(calls), 3 * len(NEIGHBOURS))
        looks.equal(f"frames to the neighbour that had news, {name}", hub.sent(calls).count(1), 4)


def starts(looks, hub):
    """Frames that tell of starts wake it once for each start, in whatever order they come again."""
    for number in range(STARTS):
        hub.sockets[1].sendto(start_of(number), hub.target)
        time.sleep(0.02)
    for number, is_new in ((0, False), (STARTS - 1, False), (STARTS, True), (7, False), (STARTS, False)):
        hub.until_rest(len(looks.calls()), QUIET * len(NEIGHBOURS))
        place = hub.after(1, start_of(number))
        if is_new:
            looks.equal("waits after a new start", holds_of(hub.until_rest(place)), 3 * len(NEIGHBOURS))
        else:
            time.sleep(0.5)
            looks.equal(f"frames without a wait, after start {number} came again", unwaited(looks, hub, place), [])


def words(looks, hub):
    """What says nothing new doesn't wake it, once it has rested for so long, and neither does who has no session: after each wait one frame goes."""
    hub.until_rest(len(looks.calls()), QUIET * len(NEIGHBOURS))
    for node, to in ((1, hub.target), ("stranger", hub.client)):
        place = hub.after(node, bytes(WORD), to)
        time.sleep(0.5)
        looks.equal(f"frames without a wait, after a word of {node}", unwaited(looks, hub, place), [])


def requests(looks, hub):
    """A request is answered at once, and a frame goes to each neighbour without a rest."""
    client = hub.sockets["client"]
    client.settimeout(5)
    client.sendto(b"1 open", hub.client)
    looks.equal("a session", client.recv(100), b"1 opened")
    place = hub.after("client", REQUEST, hub.client)
    calls = hub.until(place, is_wait)
    looks.equal("the neighbours to which a frame goes after a request", sorted(set(hub.sent(calls))), list(NEIGHBOURS))


def owed(looks, hub):
    """While one neighbour answers, those that don't are sent one frame, and one of 32."""
    for number in range(1, TRIES + 1):
        place = hub.after(1, os.urandom(NEWS))
        for node in NEIGHBOURS[1:]:
            hub.sockets[node].sendto(os.urandom(NEWS), hub.target)
        hub.answers(ANSWERS)
        calls = hub.until_rest(place)
        last = max((number for number, call in enumerate(calls) if call.name == "recvfrom" and call.result == NEWS), default=0)
        sent = hub.sent(calls[:last])
        frames = {node: sent.count(node) for node in NEIGHBOURS}
        is_so = frames[1] >= ANSWERS and all(2 <= frames[node] <= 2 + ANSWERS // UNSENT for node in NEIGHBOURS[1:])
        # a machine that is busy lets waits pass, after which frames go
        if is_so or number == TRIES:
            looks.holds("frames to those that answer and those that don't", is_so, frames)
            return


def bursts(looks, hub):
    """Of what a neighbour sent while the hub stood so many are taken in a turn, and the newest few of these wait."""
    place = len(looks.calls())
    hub.until_rest(place)
    hub.child.send_signal(signal.SIGSTOP)
    before, sent = len(hub.lines()), [b"%08d" % number for number in range(BURST)]
    for datagram in sent:
        hub.sockets[1].sendto(datagram, hub.target)
    place = len(looks.calls())
    hub.child.send_signal(signal.SIGCONT)
    calls = hub.until(place, lambda call: hub.sent([call]), BURST // TAKEN + WAITING + 2)
    heard = [bytes.fromhex(line.split(b" ")[2].decode()) for line in hub.lines()[before:] if line.startswith(b"overlay 1 ")]
    turns, taken = [], 0
    for call in calls:
        taken += call.name == "recvfrom" and call.result == len(sent[0])
        if hub.sent([call]):
            turns, taken = [*turns, taken], 0
    looks.holds("datagrams that are taken in a turn", sum(turns) == BURST and max(turns) == TAKEN, turns)
    looks.holds("datagrams that are heard", heard[-WAITING:] == sent[-WAITING:] and heard[0] >= sent[TAKEN - WAITING], heard)


def strays(looks, hub):
    """Who isn't heard doesn't wake the hub once enough of it was taken."""
    place = len(looks.calls())
    hub.until_rest(place, QUIET * len(NEIGHBOURS))
    place = len(looks.calls())
    for number in range(STRAYS):
        hub.sockets["stranger"].sendto(bytes(WORD), hub.target)
        time.sleep(1 / STRAYS)
    waits = sum(is_wait(call) for call in looks.calls()[place:])
    looks.holds("waits while strays come", waits <= WAKES, waits)


def turns(looks, hub):
    """While something of its neighbours waits, the hub hears a stray in every second cycle of them at most."""
    place = len(looks.calls())
    hub.until_rest(place)
    hub.child.send_signal(signal.SIGSTOP)
    before = len(hub.lines())
    for number in range(WAITING):
        for node in (*NEIGHBOURS, "stranger", "stranger"):
            hub.sockets[node].sendto(b"%08d" % number, hub.target)
    place = len(looks.calls())
    hub.child.send_signal(signal.SIGCONT)
    hub.until(place, lambda call: hub.sent([call]), WAITING * len(NEIGHBOURS) + SELDOM + 2)
    heard = [line.split(b" ")[0] for line in hub.lines()[before:] if line.startswith((b"overlay ", b"stray "))]
    last = max(place for place, word in enumerate(heard) if word == b"overlay")
    looks.holds("strays that are heard while neighbours wait", heard[:last].count(b"stray") <= SELDOM, heard)


def main():
    if len(sys.argv) != 2:
        sys.exit("usage: python3 .ci/paces.py PATH/TO/spinesd")
    with tempfile.TemporaryDirectory() as folder:
        looks = Calls(os.path.abspath(sys.argv[1]), folder, HUB)
        with Hub(looks) as hub:
            for look in (rests, news, starts, words, requests, owed, bursts, strays, turns, turns):
                looks.guarded(look, hub)
    print(f"{looks.looks - looks.wrong} looks at the pace of a daemon as wanted, {looks.wrong} not")
    sys.exit(1 if looks.wrong else 0)


if __name__ == "__main__":
    main()
