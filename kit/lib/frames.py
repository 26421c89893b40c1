"""What a datagram says, and what a link answers it: the head, the tag and the sections of a frame, as docs/FORMATS.md and docs/RULES.md have them."""

import collections
import hashlib
import hmac

HEAD, TAG, LEAST, MOST = 33, 32, 65, 65_507
# the kinds of messages by their first byte; format 1 has the first four
KINDS = {1: "prio", 2: "rel", 3: "ack", 4: "weight", 5: "krel", 6: "kack", 7: "epoch"}
FIRST_KINDS = 4
# the two kinds of flows by the kind of their messages, and of each message and acknowledgement
REL, KREL = "rel", "krel"
FLOW_OF = {"ack": REL, "rel": REL, "kack": KREL, "krel": KREL}
# how many messages of a kind a frame has at most, and of the reliable ones in each format
MOST_MESSAGES = 4
MOST_RELIABLE = (4, 2)
# the first byte of a frame's sections where they are a document, and the sizes of the numbers behind it, which are all 0
DOCUMENT = 128
NOTHING = (8, 1, 1, 1, 1, 1)
FLOW = (("src", 1, 1), ("dst", 1, 1), ("sboot", 0, 8), ("dboot", 0, 8), ("seq", 8, 8))
MASK = (("high", 0, 16), ("mask", 16, 16))
LENGTH = (("length", 2, 2),)
# the fields of each kind behind its first byte, with the bytes that each has in format 1 and in format 2
FIELDS = {
    "prio": FLOW[:3] + (("seq", 8, 8), ("prio", 1, 1), ("expiry", 8, 8)) + MASK + LENGTH,
    "rel": FLOW + LENGTH,
    "ack": FLOW,
    "weight": (("origin", 1, 1), ("edge", 2, 2), ("seq", 8, 8), ("weight", 4, 4)),
    "krel": FLOW + MASK + LENGTH,
    "kack": FLOW,
    "epoch": (("origin", 1, 1), ("boot", 0, 8)),
}

Head = collections.namedtuple("Head", "sender to boot echo counter topology version")
# of a weight the source is the origin and the destination the edge's number; of an epoch the source is the origin and the number its boot;
# rank and expiry are of a priority message, and a mask of one and of a K-path message; the boots are those of the two ends
Item = collections.namedtuple("Item", "kind source destination number payload rank expiry mask boots", defaults=(0, 0, 0, (0, 0)))
Slot = collections.namedtuple("Slot", "source destination base have boots", defaults=((0, 0),))
Probe = collections.namedtuple("Probe", "number nonce echo proof")
# the objects that a node handles, in their order, the link number that the neighbour acknowledges, what it reports of a flow and of a K-path flow,
# its probe, and a signed document of a topology, with which nothing else comes
Sections = collections.namedtuple("Sections", "items heard slot paths probe document", defaults=(None, None, None))


class Bad(Exception):
    """A section that isn't right; the text is the journal's word."""


def number(data):
    return int.from_bytes(data, "big")


def head_of(frame):
    """The head of a frame."""
    return Head(frame[3], frame[4], number(frame[5:13]), number(frame[13:21]), number(frame[21:29]), number(frame[29:33]), frame[2])


def fault_of(datagram, version):
    """The word for a datagram that is no frame of this format; None for a frame."""
    if len(datagram) > MOST:
        return "toolong"
    if len(datagram) < LEAST:
        return f"short {LEAST} {len(datagram)}"
    if datagram[:2] != b"SI":
        return "magic"
    return None if datagram[2] == version else "version"


def has_right_tag(frame, key):
    return hmac.compare_digest(hmac.new(key, frame[:-TAG], hashlib.sha256).digest(), frame[-TAG:])


def body_of(data, version=1):
    """The kind of a message of a format, its numbers by name, and the bytes behind them. None where the format has no such kind, or where
    the message ends within a number; ranges aren't judged."""
    kind = KINDS.get(data[0]) if data and (version > 1 or data[0] <= FIRST_KINDS) else None
    if kind is None:
        return None
    numbers, at = {}, 1
    for name, *sizes in FIELDS[kind]:
        size = sizes[min(version, 2) - 1]
        numbers[name], at = number(data[at:at + size]), at + size
    return (kind, numbers, data[at:]) if at <= len(data) else None


def item_of(kind, said, payload):
    """A message by its kind, its numbers and the bytes behind them."""
    if kind == "weight":
        return Item(kind, said["origin"], said["edge"], said["seq"], said["weight"].to_bytes(4, "big"))
    if kind == "epoch":
        return Item(kind, said["origin"], 0, said["boot"], b"")
    mask = said["high"] << 128 | said["mask"] if "mask" in said else 0
    boots = said["sboot"], said.get("dboot", 0)
    return Item(kind, said["src"], said["dst"], said["seq"], payload, said.get("prio", 0), said.get("expiry", 0), mask, boots)


class Pieces:
    """The bytes of the sections of a format, read from the left, where signatures have this length."""

    def __init__(self, data, version, signature):
        self.data, self.version, self.signature, self.at = data, version, signature, 0

    def take(self, count):
        if len(self.data) - self.at < count:
            raise Bad("cut")
        self.at += count
        return self.data[self.at - count:self.at]

    def number(self, size=8):
        return number(self.take(size))

    def count(self, most=1):
        """How many come next; of a flag 0 or 1."""
        value = self.number(1)
        if value > most:
            raise Bad("count")
        return value

    def item(self, section):
        """One signed message of a section; its ranges aren't judged."""
        body = body_of(self.take(self.number(2)), self.version)
        if body is None or body[0] != section or self.number(2) != self.signature:
            raise Bad("object")
        self.take(self.signature)
        return item_of(*body)

    def items(self, section, most=1):
        return [self.item(section) for _ in range(self.count(most))]

    def numbered(self):
        """A priority message, which stands after its link number."""
        self.take(8)
        return self.item("prio")

    def prios(self):
        return [self.numbered() for _ in range(self.count(MOST_MESSAGES))]

    def report(self, ack, message, most):
        """The report on a flow, if there is one, and the objects in it: an acknowledgement of this kind, and messages of that."""
        if not self.count():
            return None, []
        ends = self.take(2)
        boots = (self.number(), self.number()) if self.version > 1 else (0, 0)
        slot = Slot(ends[0], ends[1], self.number(), self.number(), boots)
        return slot, self.items(ack) + self.items(message, most)

    def probe(self):
        return Probe(self.number(), self.take(8), self.number(), self.take(32)) if self.count() else None

    def plain(self):
        """The sections without a document. Format 1 ends after the report on a reliable flow."""
        items, heard = self.items("weight"), self.number()
        items += self.prios()
        slot, told = self.report("ack", "rel", MOST_RELIABLE[min(self.version, 2) - 1])
        if self.version == 1:
            return Sections(items + told, heard, slot)
        paths, on_paths = self.report("kack", "krel", 1)
        probe = self.probe()
        return Sections(items + told + on_paths + self.items("epoch"), heard, slot, paths, probe)

    def document(self):
        """The document, and the zeros in the place of all other sections."""
        self.take(1)
        document = self.take(self.number(2))
        for size in NOTHING:
            if self.number(size):
                raise Bad("count")
        return Sections([], 0, None, document=document)


def has_document(frame):
    """Whether the sections of a frame begin as a document does."""
    return frame[2] > 1 and frame[HEAD:-TAG][:1] == bytes([DOCUMENT])


def sections_of(frame, signature):
    """The objects of a frame in their order, its reports, its probe and its document; `signature` is how many bytes one has."""
    pieces = Pieces(frame[HEAD:-TAG], frame[2], signature)
    sections = pieces.document() if has_document(frame) else pieces.plain()
    if pieces.at < len(pieces.data):
        raise Bad("tail")
    return sections


class Link:
    """A link to a neighbour, as a node keeps it: the boot that is known of the neighbour, and the pair above which its frames are fresh."""

    def __init__(self, me, peer, boot, key):
        self.me, self.peer, self.boot, self.key = me, peer, boot, key
        self.peer_boot, self.seen = 0, (0, 0)

    def answer(self, frame):
        """The journal's words of what the link answers a frame, which moves the link."""
        head = head_of(frame)
        if (head.sender, head.to) != (self.peer, self.me):
            return "notforme"
        if not has_right_tag(frame, self.key):
            return "badtag"
        if head.echo != self.boot:
            return self.learned(head.boot)
        if (head.boot, head.counter) <= self.seen:
            return "stale %d %d" % self.seen
        self.peer_boot, self.seen = head.boot, (head.boot, head.counter)
        return "fresh"

    def learned(self, boot):
        if boot > self.peer_boot:
            self.peer_boot, self.seen = boot, (boot, 0)
        return f"learned {self.peer_boot}"
