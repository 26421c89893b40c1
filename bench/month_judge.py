"""What the recordings of a rehearsal say: what was accepted and delivered in each pair of lives, what was signed under which index, whether all verify.

Used by month.py. Each recording is read by the operator's kit, line by line, and verified by the program.
"""

import collections
import concurrent.futures
import hashlib
import os
import sys

ROOT = os.path.dirname(os.path.dirname(os.path.abspath(__file__)))
sys.path[:0] = [os.path.join(ROOT, "kit", "lib"), os.path.join(ROOT, ".ci")]

import configurations  # noqa: E402
import frames  # noqa: E402
import lives  # noqa: E402
import recordings  # noqa: E402
from keys import index_of  # noqa: E402
from watching import Watch  # noqa: E402

WORKERS = os.cpu_count() or 1
# whose signature a message bears: the place of the signer's id in its bytes, by the kind that the first byte says
SIGNERS = {1: 1, 2: 1, 3: 2, 4: 1, 7: 1}

# a pair of lives, and one message of it
Pair = collections.namedtuple("Pair", "source source_boot destination destination_boot")
Message = collections.namedtuple("Message", "number payload")
# what one life tells; its text stays behind
Told = collections.namedtuple("Told", "node life size turns accepted delivered taken signed differing ended held_up verified")


class Signatures(frames.Pieces):
    """The sections of a frame, with the bytes and the signature of each message."""

    found = ()

    def item(self, section):
        begin = self.at
        item = super().item(section)
        size = int.from_bytes(self.data[begin:begin + 2], "big")
        self.found = (*self.found, (self.data[begin + 2:begin + 2 + size], self.data[begin + 4 + size:self.at]))
        return item


class Witness(Watch):
    """A watch that notes what clients sent and took, what arrived, and each signature that came."""

    def __init__(self, configuration):
        super().__init__(configuration)
        self.sent, self.arrived, self.took, self.signed = [], [], [], {}
        self.height = configuration.topology.height

    def feed_client(self, line):
        repeats = self.requests["repeated"]
        super().feed_client(line)
        words, asked = self.told[0].split(" "), line.data.decode("ascii", "replace").split(" ")
        if self.requests["repeated"] > repeats:
            return
        if words[0] == "accepted" and asked[1].startswith("send"):
            self.note("rel" if asked[1] == "send" else "prio", int(asked[2]), int(words[1]), asked[-1])
        elif words[0] == "payload" and asked[1] == "take":
            self.took.append((int(asked[2]), self.rules.lives[int(asked[2])], words[1]))

    def note(self, kind, to, number, payload):
        me = self.configuration.node
        self.sent.append((kind, Pair(me, self.boot, to, self.rules.lives[to]), Message(number, payload)))

    def sections_of(self, frame):
        """The sections of a frame, whose signatures are noted on the way."""
        pieces = Signatures(frame[frames.HEAD:-frames.TAG], frame[2], self.signature)
        sections = pieces.plain()
        if pieces.at < len(pieces.data):
            raise frames.Bad("tail")
        for body, signature in pieces.found:
            digest = hashlib.sha256(body).digest()[:12]
            self.signed.setdefault((body[SIGNERS[body[0]]], index_of(signature, self.height)), set()).add(digest)
        return sections

    def of_item(self, neighbour, item, word):
        me = self.configuration.node
        if word == "new" and item.kind in ("rel", "prio") and item.destination == me:
            self.arrived.append((item.kind, Pair(item.source, item.boots[0], me, self.boot), Message(item.number, item.payload.hex() or "-")))
        super().of_item(neighbour, item, word)


def told_of(program, place, path):
    """What a life of the node of a folder tells; None where the file is of none."""
    with open(os.path.join(place, "spinesd.conf"), "rb") as file:
        text = file.read()
    life = lives.life_of(path, os.path.getsize(path))
    if not life.boot:
        return None
    witness = Witness(configurations.configuration_of(text))
    for line in recordings.lines_of(life.text)[0]:
        witness.feed(line)
    room = lives.MOST_BYTES - len(text)
    front = life if len(life.text) <= room else life._replace(text=life.text[:life.text.rindex(b"\n", 0, room) + 1])
    return Told(witness.configuration.node, life._replace(text=b""), len(life.text), witness.turns, witness.sent, witness.arrived, witness.took, witness.signed,
                witness.wrong, sum(witness.ended_flows.values()), sum(n.held_up["epoch"] for n in witness.neighbours.values()),
                lives.verified(program, [text], front))


def all_told(program, places):
    """What all lives of all nodes tell, ascending; several at once."""
    work = [(place, path) for place in places for path in lives.paths_in(place)]
    with concurrent.futures.ProcessPoolExecutor(WORKERS) as pool:
        rows = list(pool.map(told_of, [program] * len(work), [place for place, _ in work], [path for _, path in work]))
    return sorted((told for told in rows if told), key=lambda told: (told.node, told.life.boot))


class Judge:
    """The judgements over what all lives tell; each that is wrong is told."""

    def __init__(self, rows):
        self.rows, self.looks, self.wrong = rows, 0, 0
        self.last = {told.node: told.life.boot for told in rows}
        self.accepted, self.delivered, self.taken = ({kind: collections.defaultdict(list) for kind in ("rel", "prio")} for _ in range(3))
        for told in rows:
            for kind, pair, message in told.accepted:
                self.accepted[kind][pair].append(message)
            for kind, pair, message in told.delivered:
                self.delivered[kind][pair].append(message)
            for source, boot, payload in told.taken:
                self.taken["rel"][Pair(source, boot, told.node, told.life.boot)].append(payload)

    def holds(self, is_so, text):
        self.looks += 1
        if not is_so:
            self.wrong += 1
            print(f"WRONG: {text}", flush=True)

    def per_pair(self):
        """What is delivered in a pair of lives is a front of what was accepted in it, in its order and each once; and what a client took is a front of that."""
        for pair, got in self.delivered["rel"].items():
            sent = self.accepted["rel"].get(pair, [])
            self.holds(got == sent[:len(got)], f"{pair}: delivered {told_as(got)}, accepted {told_as(sent)}")
        for pair, got in self.taken["rel"].items():
            sent = [message.payload for message in self.delivered["rel"].get(pair, [])]
            self.holds(got == sent[:len(got)], f"{pair}: a client took other messages than were delivered")

    def stayed(self, nodes):
        """Between nodes that stayed up, all that was accepted arrived and was taken."""
        pairs = [pair for pair in self.accepted["rel"] if pair.source in nodes and pair.destination in nodes
                 and (pair.source_boot, pair.destination_boot) == (self.last[pair.source], self.last[pair.destination])]
        for pair in pairs:
            sent, got, took = self.accepted["rel"][pair], self.delivered["rel"][pair], self.taken["rel"][pair]
            self.holds(sent == got and len(took) == len(got), f"{pair}: {len(sent)} were accepted, {len(got)} arrived, {len(took)} were taken")
        return sum(len(self.accepted["rel"][pair]) for pair in pairs)

    def urgent(self):
        """Each life delivers a priority message of a life of a source once, and only what was accepted. Gives how many messages more than one life told."""
        by_message = collections.Counter()
        for pair, got in self.delivered["prio"].items():
            numbers = [message.number for message in got]
            self.holds(len(numbers) == len(set(numbers)), f"{pair}: a priority message was delivered twice")
            sent = {message for other in self.accepted["prio"] if other[:3] == pair[:3] for message in self.accepted["prio"][other]}
            self.holds(set(got) <= sent, f"{pair}: a priority message was delivered that wasn't accepted")
            by_message.update((pair[:3], number) for number in set(numbers))
        return sum(count > 1 for count in by_message.values())

    def signed_once(self):
        """No index of a node signs two messages, and no two lives have a boot or an index in common."""
        bodies = collections.defaultdict(set)
        for told in self.rows:
            for key, found in told.signed.items():
                bodies[key] |= found
        twice = [key for key, found in bodies.items() if len(found) > 1]
        self.holds(not twice, f"signed twice, by node and index: {twice[:5]}")
        for node in self.last:
            for line in lives.told_twice([told.life for told in self.rows if told.node == node]):
                self.holds(False, line)
        return len(bodies)

    def verified(self):
        """Every recording verifies, and the kit's answers are those of the daemon."""
        for told in self.rows:
            self.holds(told.verified[0] == 0, f"node {told.node}, life {told.life.boot}, {told.life.path}: {told.verified}")
            self.holds(told.differing == 0, f"node {told.node}, life {told.life.boot}: {told.differing} answers aren't those that the kit computes")


def told_as(messages):
    return [f"{message.number} {bytes.fromhex(message.payload).decode('ascii', 'replace')}" for message in messages[:6]] + ["..."] * (len(messages) > 6)
