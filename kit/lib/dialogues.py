"""A client's dialogue with a daemon: each request under the next number of its session, asked again until its reply comes, in a session that begins anew
where the daemon did.
"""

import errno
import functools
import math
import secrets
import socket
import sys
import time

from clients import BEGUN_ANEW
from endings import endings, filled, of_line
from scripts import Refused
from sessions import Asked, Kept, kept_in, taken_by

# a request is sent again after so many seconds without its reply, and after so many times it is said that nobody answers
EVERY, SILENT = 0.25, 40
# how often a request is asked anew of daemons that begin anew; how often a file is read until it is ours
TRIES = 8
MOST_REPLY = 65_535
# ports that a system doesn't give away by itself, so that they are free when the client comes again
OWN_PORTS = range(20_000, 30_000)
PORT_IN_USE, UNANSWERED = 7, 11
# the status of each answer that refuses, and of those that are none
STATUSES = {"badend": 20, "full": 21, "spent": 22, "notreserved": 23, "expired": 24, "nopaths": 25, "busy": 26, "sessionsfull": 27, "badrequest": 28}
UNSURE, EMPTY, PATHS_BUSY = 29, 30, 31
SENDS, TAKES = ("send", "sendprio", "ksend"), ("take", "takeprio", "ktake")


def say(text):
    print(f"spinesd-client: {text}", file=sys.stderr, flush=True)


@functools.cache
def replies():
    """The rows of all replies."""
    return [row for row in endings() if row.commands == ("ask",) and row.status == "0"]


def cause_of(number, words, is_send=False):
    """What a reply means and what to do, in plain words; None where no daemon replies so. A send is `busy` by paths, and a take by another session."""
    found = of_line(replies(), " ".join([str(number), *words]))
    row, values = max(found, key=lambda each: ("PATHS" in each[1]) == is_send, default=(None, None))
    return f"{filled(row.means, values)} {filled(row.do, values)}" if row else None


def refuse_unless(wanted, words):
    """Refuses an answer that isn't the wanted one, with its cause."""
    if words[0] != wanted:
        is_send = wanted == "accepted"
        status = PATHS_BUSY if is_send and words[0] == "busy" else STATUSES.get(words[0], 1)
        raise Refused(f"{words[0]}: {cause_of(0 if words[0] == 'badrequest' else 1, words, is_send)}", status)


class Wire:
    """A port of our own, from which a daemon's client port is asked."""

    def __init__(self, daemon, local):
        self.daemon, self.socket = daemon, socket.socket(socket.AF_INET, socket.SOCK_DGRAM)
        try:
            self.socket.bind(("127.0.0.1", local))
        except OSError as fault:
            self.socket.close()
            if fault.errno == errno.EADDRINUSE:
                told = f"a process has port {local}: another client goes on with this session (`ss -ulnp` tells which). A session of its own has --session FILE"
                raise Refused(told, PORT_IN_USE) from fault
            raise Refused(f"port {local}: {fault.strerror}", PORT_IN_USE) from fault
        self.socket.connect(("127.0.0.1", daemon))

    def exchange(self, number, command, until):
        """The words of the reply, which is waited for until then, and how many of the datagrams that were sent may have come to a daemon."""
        sent = tries = 0
        while True:
            words = self.once(f"{number} {command}".encode(), str(number))
            sent, tries = sent + (words is not None), tries + 1
            if words:
                return words, sent
            if time.monotonic() >= until:
                raise Refused(f"no daemon answers at port {self.daemon}. Ask the same again: it has its number, and runs once", UNANSWERED)
            if words is None:
                time.sleep(EVERY)
            if tries == SILENT:
                say(f"no daemon answers at port {self.daemon} yet; it is asked again")

    def once(self, request, number):
        """The words of the reply to a datagram: none where none came, and None where nobody has the daemon's port."""
        try:
            self.socket.send(request)
            return self.heard(number, time.monotonic() + EVERY)
        except ConnectionRefusedError:
            return None

    def heard(self, number, until):
        """The words of the reply of this number; what else comes is a late reply to an earlier request."""
        while (left := until - time.monotonic()) > 0:
            self.socket.settimeout(left)
            try:
                words = self.socket.recv(MOST_REPLY).decode("ascii", "replace").split(" ")
            except TimeoutError:
                break
            if words[0] == number or words == ["0", "badrequest"]:
                return words[1:]
        return ()


def own_port():
    """A port that nobody has."""
    for _ in range(100):
        with socket.socket(socket.AF_INET, socket.SOCK_DGRAM) as trial:
            try:
                trial.bind(("127.0.0.1", port := OWN_PORTS[secrets.randbelow(len(OWN_PORTS))]))
                return port
            except OSError:
                continue
    raise Refused(f"no port of {OWN_PORTS[0]} to {OWN_PORTS[-1]} is free", PORT_IN_USE)


def opened(path, daemon):
    """The session of a file and the wire of its port, which keeps all others from this session. What another wrote before is read again."""
    for _ in range(TRIES):
        kept = kept_in(path) or Kept(path, daemon, own_port())
        if kept.daemon != daemon:
            raise Refused(f"{path} is the session of a client of the daemon at port {kept.daemon}, not {daemon}: name another file by --session")
        wire = Wire(daemon, kept.local)
        again = kept_in(path)
        if (again and again.text()) == kept.written:
            return kept, wire
        wire.socket.close()
    raise Refused(f"{path}: others write it again and again", PORT_IN_USE)


class Dialogue:
    """A session that asks one request after another."""

    def __init__(self, kept, wire, wait=10.0, is_once=False):
        """An answer is waited for so many seconds. Where it isn't known whether a send ran, it is asked again, or refused where it may run only once."""
        self.kept, self.wire, self.wait, self.is_once = kept, wire, wait, is_once
        # when nothing is waited for any more; how long the last answer took, and all writes of the file
        self.until, self.seconds, self.writing = -math.inf, 0.0, 0.0

    def ask(self, command):
        """The words of the answer to a command. A session is opened where there is none, also where the daemon began anew."""
        is_unsure = self.resumes(command)
        for _ in range(TRIES):
            asked = "open" if self.kept.is_closed() else command
            words, times = self.request(asked)
            if words[0] in BEGUN_ANEW:
                self.begun_anew(asked, words, is_unsure or times > 1)
                is_unsure = False
            elif words[0] != "opened":
                return words
        raise Refused(f"the daemon at port {self.kept.daemon} begins anew again and again")

    def request(self, command):
        """Asks under the next number, which the file has before; gives the words of the reply, and how often it may have come to a daemon."""
        self.kept.asked = self.kept.asked or Asked(self.kept.last + 1, command)
        began = time.monotonic()
        self.kept.write()
        written = time.monotonic()
        words, times = self.exchange(command)
        self.seconds, self.writing = time.monotonic() - written, self.writing + written - began
        self.kept.answered(words)
        return words, times

    def exchange(self, command):
        """Asks under the number of what is asked, and refuses what no daemon replies."""
        number = self.kept.asked.number
        words, times = self.wire.exchange(number, command, max(self.until, time.monotonic() + self.wait))
        if cause_of(0 if words == ["badrequest"] else number, words) is None:
            raise Refused(f"port {self.kept.daemon} replies `{' '.join(words)[:100]}`, which no daemon of this release does")
        return words, times

    def begun_anew(self, command, words, is_unsure):
        """What is said where a daemon doesn't have the session any more, or has it at another number, and a send may have run before."""
        told = f"the daemon at port {self.kept.daemon} doesn't have this session any more: it was started again, or the session was closed"
        if self.kept.last:
            told = f"the daemon at port {self.kept.daemon} has port {self.kept.local}'s session at number {words[1]}, which isn't that of {self.kept.path}"
        if not is_unsure or command.split(" ")[0] not in SENDS:
            say(f"{told}. The client goes on")
        elif self.is_once:
            raise Refused(f"{told}. The answer was lost: nobody knows whether the message was sent, and it isn't sent again", UNSURE)
        else:
            say(f"{told}. The answer was lost: the message is sent again, and may have been sent before")

    # ---- what an earlier run left

    def resumes(self, command):
        """Whether this very command was left unanswered. Of another one it is found out first what became of it."""
        if self.kept.asked and self.kept.asked.command != command:
            self.settle(self.kept.asked)
        return self.kept.asked is not None

    def settle(self, left):
        """`open` under the number of what was left does nothing, and gives the reply to it where it ran."""
        words, _ = self.exchange("open")
        ran = words[0] not in ("opened", *BEGUN_ANEW)
        told = "ran: " + " ".join(words) if ran else "didn't run" if words[0] == "opened" else "may have run: the daemon doesn't have the session any more"
        self.kept.answered(words)
        if left.command.split(" ")[0] in (*SENDS, *TAKES) and words[0] != "empty":
            say(f"the request that was left unanswered {told} (`{left.number} {left.command[:100]}`)")

    # ---- messages

    def take(self, command):
        """The message that waits for a take, of a session that listens; None where none waits. It is kept until `told`."""
        kept = next((each for each in self.kept.taken if command == taken_by(each)), None)
        for _ in range(TRIES if kept is None else 0):
            words = self.ask(command)
            if words[0] == "payload":
                return self.kept.taken[-1]
            if words[0] != "notlistening":
                return refuse_unless("empty", words)
            refuse_unless("listening", self.ask("listen"))
        return kept

    def told(self, message):
        self.kept.taken.remove(message)

    def close(self):
        """Closes the session, where the daemon has one."""
        self.resumes("close")
        for _ in range(TRIES):
            words = ["closed"] if self.kept.is_closed() else self.request("close")[0]
            if words[0] == "closed" or words[0] not in (*BEGUN_ANEW, "opened"):
                return refuse_unless("closed", words)
        raise Refused(f"the daemon at port {self.kept.daemon} has this session at another number again and again")
