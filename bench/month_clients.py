"""The clients of a rehearsal: at each node one that sends numbered messages to all others, and takes what comes. Used by month.py."""

import socket
import threading
import time

# how long a reply is waited for before the request is sent again, and the pause where nobody has the daemon's port
EVERY, NOBODY = 0.25, 0.05
# a session that the daemon doesn't have: it was started again
GONE = ("nosession", "badnumber")
PRIORITY = 5


class Talker(threading.Thread):
    """A client that asks one request after another, each until it is answered. After a restart of the daemon it begins a new session."""

    def __init__(self, node, port, others, expiry):
        super().__init__(daemon=True)
        self.node, self.others, self.expiry, self.last = node, others, expiry, 0
        self.socket = socket.socket(socket.AF_INET, socket.SOCK_DGRAM)
        self.socket.bind(("127.0.0.1", 0))
        self.socket.connect(("127.0.0.1", port))
        # how long it rests after each node; seconds between two messages of a flow, since a seed of height 5 has 1,024 signatures; and which flows rest
        self.pause, self.gap, self.resting, self.is_over = 0.25, 5.0, set(), False
        self.next_at = {}
        # how many messages there were in each flow; when each payload was accepted; when, from whom and what was taken
        self.counts, self.accepted, self.taken = {}, {}, []

    # ---- requests

    def heard(self, number):
        """The words of the reply of this number; none where it didn't come."""
        until = time.monotonic() + EVERY
        while (left := until - time.monotonic()) > 0:
            self.socket.settimeout(left)
            try:
                words = self.socket.recv(65_535).decode("ascii", "replace").split(" ")
            except TimeoutError:
                return None
            if words[0] == str(number):
                return words[1:]
        return None

    def ask(self, command):
        """The words of the answer; None where the session is gone, or the client is to end."""
        while not self.is_over:
            try:
                self.socket.send(f"{self.last + 1} {command}".encode())
                words = self.heard(self.last + 1)
            except ConnectionRefusedError:
                time.sleep(NOBODY)
                continue
            if words and words[0] in GONE:
                self.last = 0
                return None
            if words:
                self.last += words[0] != "sessionsfull"
                return words
        return None

    def begins(self):
        """Opens a session that listens, where there is none."""
        return self.last > 0 or (self.ask("open") is not None and self.ask("listen") is not None)

    # ---- messages

    def payload(self, kind, other):
        """The next payload of a flow: who sends what to whom, by its number."""
        number = self.counts[kind, other] = self.counts.get((kind, other), 0) + 1
        return f"{kind} {self.node} {other} {number}".encode().hex()

    def is_due(self, kind, other):
        """Whether it is time for the next message of a flow, or for a priority message to anybody."""
        return other not in self.resting and time.monotonic() >= self.next_at.get((kind, other), 0)

    def sends(self, other, kind):
        payload = self.payload(kind, other)
        command = f"send {other} {payload}" if kind == "rel" else f"sendprio {other} {PRIORITY} {round(1000 * (time.time() + self.expiry))} 0 {payload}"
        words = self.ask(command)
        if words and words[0] == "accepted":
            self.accepted[payload] = time.monotonic()
            self.next_at[kind, other if kind == "rel" else None] = time.monotonic() + self.gap

    def takes(self, command, source=None):
        """All that waits of a source, or of priority messages."""
        while (words := self.ask(command)) and words[0] == "payload":
            self.taken.append((time.monotonic(), source, words[-1]))

    def run(self):
        turn = 0
        while not self.is_over:
            turn += 1
            for place, other in enumerate(self.others):
                if not self.begins():
                    break
                if self.is_due("rel", other):
                    self.sends(other, "rel")
                self.takes(f"take {other}", other)
                if place == turn % len(self.others):
                    if self.is_due("prio", None):
                        self.sends(other, "prio")
                    self.takes("takeprio")
                time.sleep(self.pause)

    def stop(self):
        self.is_over = True
        self.join()
        self.socket.close()


def waits(talkers, since):
    """How many reliable messages weren't taken yet that were accepted behind the first one of their flow that was accepted since then and arrived: these
    are all of one pair of lives."""
    taken, flows = {payload for talker in talkers.values() for _, source, payload in list(talker.taken) if source}, {}
    for talker in talkers.values():
        for payload, when in list(talker.accepted.items()):
            kind, source, destination, number = bytes.fromhex(payload).decode().split(" ")
            if kind == "rel" and when > since:
                flows.setdefault((source, destination), []).append((int(number), payload in taken))
    firsts = {flow: min((number for number, arrived in rows if arrived), default=0) for flow, rows in flows.items()}
    return sum(firsts[flow] < number and not arrived for flow, rows in flows.items() for number, arrived in rows)


def moved(talkers, since):
    """For each flow the seconds from then on until a message arrived that was accepted after it; None where none did."""
    found = {}
    for talker in talkers.values():
        for source in talker.others:
            accepted = talkers[source].accepted
            times = [when for when, node, payload in list(talker.taken) if node == source and when > since and accepted.get(payload, 0) > since]
            found[source, talker.node] = min(times) - since if times else None
    return found
