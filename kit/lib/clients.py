"""What clients ask a daemon, and what they were answered, as far as the digests of a recording tell it.

A recording has a request and the SHA-256 of its reply. There are few replies that a request can have: each is tried, and the one with that digest
is the reply. A payload is found only where the recording has the message that brought it.
"""

import collections
import hashlib
import re

import stores
from frames import KREL, REL, Item

# how many bytes a request has at most
MOST = 4_096
# how many ports may have a session
MOST_SESSIONS = 8
# what is answered where nothing ran
NOT_RUN = ("badnumber", "nosession", "sessionsfull")
# which of these a session is answered that the daemon doesn't have, or not with these numbers
BEGUN_ANEW = ("badnumber", "nosession")
# how many bytes a payload has at most, and the greatest number of a request
MOST_PAYLOAD, MOST_NUMBER = 1_024, 2 ** 63 - 1
# the numbers that the words of a command may be; None stands for a payload
NODES, PRIORITIES, EXPIRIES, PATHS, WEIGHTS = range(256), range(1, 11), range(2 ** 64), range(9), range(1, 1_000_001)
SOME_PATHS = range(1, 9)
COMMANDS = {
    "open": (), "listen": (), "send": (NODES, None), "sendprio": (NODES, PRIORITIES, EXPIRIES, PATHS, None), "take": (NODES,), "takeprio": (),
    "weight": (NODES, WEIGHTS), "close": (), "ksend": (NODES, SOME_PATHS, None), "ktake": (NODES,),
}
# the kinds of reliable messages by the commands that send and take them
KIND_OF = {"send": REL, "take": REL, "ksend": KREL, "ktake": KREL}
DECIMAL, HEX = re.compile(r"0|[1-9][0-9]*"), re.compile(r"-|(?:[0-9a-f]{2})+")

Reply = collections.namedtuple("Reply", "words is_repeat")


def is_number(word, numbers):
    """Whether a word is one of these numbers, in its one spelling."""
    return DECIMAL.fullmatch(word) is not None and len(word) <= 20 and int(word) in numbers


def is_payload(word):
    return HEX.fullmatch(word) is not None and len(word) <= 2 * MOST_PAYLOAD


def is_command(words):
    """Whether these words are a command of a client, with its words."""
    fields = COMMANDS.get(words[0])
    return fields is not None and len(fields) == len(words) - 1 and all(
        is_payload(word) if numbers is None else is_number(word, numbers) for word, numbers in zip(words[1:], fields))


def digest_of(text):
    return hashlib.sha256(text.encode()).hexdigest().encode()


class Session:
    """A port that has a session: its last number, with the digest and the words of the reply, and whether it listens."""

    def __init__(self):
        self.number, self.digest, self.words, self.listens = "0", b"", None, False


class Clients:
    """The sessions of a daemon's clients as a recording shows them, the numbers that were accepted, and the messages that arrived for them."""

    def __init__(self, minimum_of, rules):
        self.minimum_of = minimum_of                    # the administrator's least weight of the link to a neighbour, or None
        self.rules = rules                              # what the node keeps, which requests change
        self.sessions = {}                              # by their ports
        self.sent = {REL: collections.Counter(), KREL: collections.Counter()}           # reliable messages accepted, by kind and destination
        self.taken = {REL: collections.Counter(), KREL: collections.Counter()}          # reliable messages taken, by kind and source
        self.own = collections.Counter()                # own numbers of priority messages and weights
        self.arrived = collections.defaultdict(dict)    # payloads by kind and source, then by number, which each life of a source gives again
        self.now = 0

    def arrives(self, item):
        """A message for this node that a fresh frame brought."""
        self.arrived[item.kind, item.source].setdefault(item.number, []).append(item.payload.hex() or "-")

    def ended(self, node):
        """Another life of a node began: its flows count from 1 again, and what waited of them is gone."""
        for kind in (REL, KREL):
            self.sent[kind].pop(node, None)
            self.taken[kind].pop(node, None)
            self.arrived.pop((kind, node), None)

    def reply(self, port, request, digest):
        """The words of a reply without its number, and whether it was given before; None where no reply that fits was found."""
        number, *command = request[:MOST + 1].decode("ascii", "replace").split(" ")
        session = self.sessions.get(port)
        if session and (session.number, session.digest) == (number, digest):
            return Reply(session.words, True)
        for words in self.candidates(port, command) if len(request) <= MOST else ():
            if digest_of(f"{number} {words}") == digest:
                self.answered(port, number, digest, words, command)
                return Reply(words, False)
        if digest == digest_of("0 badrequest"):
            return Reply("badrequest", False)
        if session and number.isdecimal() and int(number) == int(session.number) + 1:
            session.number, session.digest, session.words = number, digest, None
        return Reply(None, False)

    def answered(self, port, number, digest, words, command):
        """What a reply that was found did."""
        name, first = words.split(" ")[0], command[0] if command else ""
        if name not in NOT_RUN:
            session = self.sessions.setdefault(port, Session())
            session.number, session.digest, session.words = number, digest, words
            session.listens |= name == "listening"
        if name == "closed":
            self.sessions.pop(port, None)
        elif name == "accepted":
            self.accepted(command)
        elif name == "payload" and first in KIND_OF:
            kind, source = KIND_OF[first], int(command[1])
            self.taken[kind][source] += 1
            self.arrived[kind, source].pop(self.taken[kind][source], None)
            self.rules.took(kind, source)
        elif name == "payload":
            _, source, number, payload = words.split(" ")
            self.took_prio(int(source), int(number), payload)

    def took_prio(self, source, number, payload):
        waiting = self.arrived["prio", source]
        waiting[number].remove(payload)
        if not waiting[number]:
            del waiting[number]
        self.rules.took_prio()

    def accepted(self, command):
        """A message or a weight was taken."""
        if command[0] in KIND_OF:
            kind, destination = KIND_OF[command[0]], int(command[1])
            self.sent[kind][destination] += 1
            self.rules.sent(kind, destination, self.sent[kind][destination])
            return
        self.own[self.numbered(command)] += 1
        number = self.own[self.numbered(command)]
        if command[0] == "weight":
            self.rules.weighed(int(command[1]), number, int(command[2]))
        else:
            item = Item("prio", self.rules.me, int(command[1]), number, b"", int(command[2]), int(command[3]))
            self.rules.sent_prio(item, int(command[4]))

    def numbered(self, command):
        """What an own number counts: all priority messages together, and the updates of each link."""
        return tuple(command[:2]) if command[0] == "weight" else command[0]

    def candidates(self, port, command):
        """The replies that a request can have, the usual ones first."""
        name = command[0] if command else ""
        yield from {"open": ["opened"], "listen": ["listening"], "close": ["closed"]}.get(name, [])
        if name in ("send", "ksend", "sendprio", "weight") and len(command) > 1:
            yield from self.of_sending(name, command)
        elif name in ("take", "ktake", "takeprio"):
            yield from self.of_taking(name, command)
        yield "badend"
        yield "nosession"
        yield "sessionsfull"
        yield f"badnumber {self.sessions[port].number if port in self.sessions else 0}"
        yield from (f"busy {other}" for other in self.sessions)

    def of_sending(self, name, command):
        is_flow = name in KIND_OF and command[1].isdecimal()
        sent = self.sent[KIND_OF[name]][int(command[1])] if is_flow else self.own[self.numbered(command)]
        yield f"accepted {sent + 1}"
        yield f"spent {self.rules.total}"
        if name in KIND_OF:
            yield from (f"full {base} {sent}" for base in range(max(0, sent - 64), sent + 1))
        if name == "ksend":
            yield from (f"busy {count}" for count in SOME_PATHS)
        if name == "sendprio":
            yield f"expired {self.now}"
        if name in ("sendprio", "ksend"):
            yield from (f"nopaths {found}" for found in range(9))
        if name == "weight":
            yield f"low {self.minimum_of(command[1])}"

    def of_taking(self, name, command):
        yield "empty"
        yield "notlistening"
        if name in KIND_OF and len(command) == 2 and command[1].isdecimal():
            kind, source = KIND_OF[name], int(command[1])
            yield from (f"payload {payload}" for payload in self.arrived[kind, source].get(self.taken[kind][source] + 1, ()))
        elif name == "takeprio":
            for entry in self.rules.guesses[0][stores.INBOX].entries[:1]:
                yield from (f"payload {entry.source} {entry.number} {payload}" for payload in self.arrived["prio", entry.source].get(entry.number, ()))
