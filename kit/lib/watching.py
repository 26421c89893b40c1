"""What a recording tells of its daemon, line by line: neighbours, flows, clients, indexes.

The answers to datagrams are computed from the recording's inputs and the configuration's link keys, by the rules of docs/RULES.md, and each is compared
with its digest: so the counts of fresh, stale and wrongly tagged frames are exact. Signatures aren't checked here: whether one was right is found by the
digest (tellings.py). An answer stays untold where own messages went over so many sets of paths that not all can be tried.
"""

import collections
import hashlib

import frames
import tellings
from clients import Clients
from configurations import SIGNATURES, TOTALS
from frames import KREL, REL

ANSWERS = ("fresh", "learned", "stale", "badtag", "notforme", "malformed", "topology", "section", "withdrawn")
UNTAGGED = ("badtag", "notforme")
NO_FRAME = ("toolong", "short", "magic", "version")
TICKED = hashlib.sha256(b"ticked\n").hexdigest().encode()
# the answers to a message that comes too early for a flow, and to one of another life of an end
HELD_UP = ("gap", "epoch")
# what is told of a tick of which no answer has the digest
SOMETHING = ["ticked", "and something was signed or expired, which only the digest tells"]


class Neighbour:
    """What came from a neighbour, and what was made for it."""

    def __init__(self, link, port):
        self.link, self.port = link, port
        self.polls, self.lost, self.bad_signatures, self.untold = 0, 0, 0, 0
        self.answers, self.held_up = collections.Counter(), collections.Counter()
        self.last_fresh = None
        self.reports = {}

    def fresh(self, now, before, head):
        """A fresh frame, with the pair that was kept before it: the counters between them never came, or come too late."""
        if before[0] == head.boot:
            self.lost += head.counter - before[1] - 1
        self.last_fresh = now


class Watch:
    """All that the lines so far tell."""

    def __init__(self, configuration):
        self.configuration = configuration
        self.format, self.signature = configuration.topology.format, SIGNATURES[configuration.topology.height]
        self.total = TOTALS[configuration.topology.height]
        self.boot = self.index = self.bound = self.first_tick = self.now = self.ended = None
        self.turns, self.quiet_ticks, self.untold_ticks, self.lines, self.strays = 0, 0, 0, 0, collections.Counter()
        self.right, self.wrong = 0, 0
        self.requests = collections.Counter()
        self.rules = tellings.Rules(configuration)
        self.clients = Clients(self.minimum_of, self.rules)
        self.told = []                                  # of the last line, its answer and effects as far as they are found
        self.acknowledged, self.delivered = collections.Counter(), collections.Counter()
        self.acknowledged_on_paths = collections.Counter()
        self.ended_flows = collections.Counter()        # how often a flow ended, since another life of an end began or an end was removed
        self.held_up = {}                               # of a neighbour and a flow, the answer to its last messages where they were held up
        self.neighbours = {}
        self.moved = {}                                 # of a flow, its numbers and the clock at which one of them rose last
        self.touched = set()                            # the flows that something came of since the last tick

    def minimum_of(self, peer):
        """The least weight of the link to this neighbour, as the administrator says."""
        ends = sorted([str(self.configuration.node), peer])
        return next((weight for low, high, weight in self.rules.versions.edges if sorted([str(low), str(high)]) == ends), None)

    def feed(self, line):
        """One line more."""
        self.lines += 1
        self.told = []
        getattr(self, "feed_" + line.name)(line)

    def feed_recording(self, line):
        self.boot, self.index, self.bound = line.numbers
        self.rules.begins(self.boot)
        for peer in self.configuration.peers:
            self.neighbours[peer.node] = Neighbour(frames.Link(self.configuration.node, peer.node, self.boot, peer.key), peer.port)

    def feed_reserve(self, line):
        self.bound = line.numbers[0]

    def feed_tick(self, line):
        self.now = self.clients.now = line.numbers[0] if self.now is None else max(self.now, line.numbers[0])
        self.first_tick = self.now if self.first_tick is None else self.first_tick
        self.turns += 1
        self.told = self.rules.tick(line.numbers[0], line.digest) or SOMETHING
        self.untold_ticks += self.told == SOMETHING
        self.quiet_ticks += line.digest == TICKED
        if len(self.told) > 1:
            self.touched.update(flow for flow in self.rules.flows[REL] if flow[1] == self.configuration.node)
        self.note_moves()

    def feed_stray(self, line):
        self.strays[line.numbers[0]] += 1

    def feed_poll(self, line):
        if line.numbers[0] in self.neighbours:
            self.neighbours[line.numbers[0]].polls += 1
            self.rules.polled(line.numbers[0])

    def feed_end(self, line):
        self.ended = tuple(line.numbers)

    def feed_client(self, line):
        reply = self.clients.reply(line.numbers[0], line.data, line.digest)
        self.told = [reply.words or "an answer that only its digest tells"]
        self.touched.update(flow for flow in self.rules.flows[REL] if self.configuration.node in flow)
        self.requests["untold" if reply.words is None else "repeated" if reply.is_repeat else reply.words.split(" ")[0]] += 1

    # ---- datagrams of neighbours

    def feed_overlay(self, line):
        neighbour = self.neighbours.get(line.numbers[0])
        if neighbour is None:
            return
        before, known = neighbour.link.seen, neighbour.link.peer_boot
        fault = frames.fault_of(line.data, self.format)
        answer = fault or neighbour.link.answer(line.data)
        if self.format > 1 and not fault and answer not in UNTAGGED:
            self.met(neighbour, frames.head_of(line.data), known)
        if answer == "fresh":
            neighbour.fresh(self.now, before, frames.head_of(line.data))
            answer, sections = self.of_fresh(neighbour, line.data)
            if sections:
                self.of_sections(neighbour, sections, line.digest)
            else:
                self.compare(answer, line.digest)
        else:
            self.compare(answer, line.digest)
        name = answer.split(" ")[0]
        neighbour.answers["malformed" if name in NO_FRAME else name] += 1

    def met(self, neighbour, head, known):
        """A frame with the right tag: its version counts, and where another life of the neighbour began, what that one reported is forgotten."""
        rises = neighbour.link.peer_boot > known
        self.rules.versions.hears(neighbour.link.peer, head.topology, rises, head.boot == known)
        if rises:
            neighbour.reports.clear()
            self.rules.greeted(neighbour.link.peer)

    def of_fresh(self, neighbour, frame):
        """The first word that a fresh frame is answered, and its sections where they are read."""
        theirs = frames.head_of(frame).topology
        if theirs != self.rules.versions.version and not frames.has_document(frame):
            return f"topology {theirs}", None
        try:
            sections = self.sections_of(frame)
        except frames.Bad as bad:
            return f"section {bad}", None
        if sections.document is None and self.rules.is_shut(neighbour.link.peer):
            return "withdrawn", None
        if sections.slot:
            self.touched.add(sections.slot[:2])
        if sections.slot and sections.slot.boots == self.rules.held(*sections.slot[:2]):
            neighbour.reports[sections.slot[:2]] = sections.slot[2:4]
        return "fresh", sections

    def sections_of(self, frame):
        """The sections of a frame."""
        return frames.sections_of(frame, self.signature)

    def compare(self, answer, digest):
        """Counts whether the answer that was computed is the recorded one."""
        self.told = [answer]
        if hashlib.sha256(answer.encode() + b"\n").hexdigest().encode() == digest:
            self.right += 1
        else:
            self.wrong += 1

    def of_sections(self, neighbour, sections, digest):
        """Finds what became of a fresh frame by the digest of the answer."""
        words, told = self.rules.fresh(neighbour.link.peer, sections, digest)
        self.right += told is not None
        if told is None and sections.items:
            neighbour.untold += 1
        elif told is None:
            self.wrong += 1
        self.told = told or ["fresh" + "".join(f" {item.kind}:?" for item in sections.items)]
        self.ended_flows.update(tuple(map(int, line.split(" ")[2:])) for line in self.told if line.startswith("+ ended "))
        for item, word in zip(sections.items, words):
            self.of_item(neighbour, item, word)

    def of_item(self, neighbour, item, word):
        """Counts one object by its word."""
        neighbour.bad_signatures += word == "badsig"
        neighbour.held_up[word] += word in HELD_UP
        flow = (item.source, item.destination)
        if item.kind in ("rel", "ack") and word in (*HELD_UP, "new", "old"):
            self.held_up[neighbour.link.peer, flow] = word
        if word != "new":
            return
        if item.kind == "epoch":
            self.began(item.source)
        elif item.kind == "ack":
            self.acknowledged[flow] = item.number
        elif item.kind == "kack":
            self.acknowledged_on_paths[flow] = item.number
        elif item.kind in (REL, KREL, "prio") and item.destination == self.configuration.node:
            self.clients.arrives(item)
            self.delivered[flow] += item.kind == REL

    def began(self, node):
        """Another life of a node began: its flows count from 1 again, and nothing is reported of them."""
        self.clients.ended(node)
        self.held_up = {(peer, flow): word for (peer, flow), word in self.held_up.items() if node not in flow}
        counted = self.acknowledged, self.acknowledged_on_paths, self.delivered, self.moved
        for counts in (*counted, *(neighbour.reports for neighbour in self.neighbours.values())):
            for flow in [flow for flow in counts if node in flow]:
                del counts[flow]

    # ---- what is asked of all lines together

    def flows(self):
        """All flows that were heard of, ascending."""
        found = {flow for neighbour in self.neighbours.values() for flow in neighbour.reports} | set(self.acknowledged)
        found |= {(self.configuration.node, destination) for destination in self.clients.sent[REL]}
        found |= set(self.delivered) | set(self.ended_flows)
        return sorted(found)

    def not_met(self):
        """The nodes of which no start was heard yet, but for removed ones; none where nodes run without epochs."""
        nodes = [node for node in self.configuration.topology.nodes if node not in self.rules.versions.removed]
        return [node for node in nodes if self.rules.lives and node not in self.rules.lives]

    def answers_to(self, peer, flow):
        """What this node answers to the last messages of a flow from a neighbour where they are held up; None where they aren't."""
        word = self.held_up.get((peer, flow))
        return word if word in HELD_UP else None

    def note_moves(self):
        """Keeps when a flow moved last: what this node keeps of it, or what its neighbours report."""
        for flow in self.touched:
            if row := self.rules.flows[REL].get(flow):
                now = (row.base, row.have, *(n.reports.get(flow) for n in self.neighbours.values()))
                if self.moved.get(flow, (None,))[0] != now:
                    self.moved[flow] = now, self.now
        self.touched.clear()

    def standing(self, flow, now):
        """For how many milliseconds a flow of this node hasn't moved although messages of it wait here for an acknowledgement; 0 where none waits."""
        row = self.rules.flows[REL].get(flow)
        if row is None or row.base >= row.have or flow not in self.moved:
            return 0
        return max(0, now - self.moved[flow][1])
