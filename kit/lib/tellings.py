"""What a node answers a fresh frame and a tick, by the rules of docs/RULES.md: computed from all that came before, and found by the recorded digest.

Two things aren't told by what came before, and each possible answer is tried until one has the digest: which signatures are wrong, and over which of its
links an own message goes that was sent over some paths.
"""

import collections
import hashlib
import itertools

import paths
import stores
import versions
from configurations import TOTALS
from frames import FLOW_OF, KREL, REL

# how many numbers below the greatest a window knows one by one; own updates above it are none; how many guesses are kept of what the stores hold
WINDOW, MOST_OWN, MOST_GUESSES = 1_024, 2 ** 62, 32

# what begins the body of an acknowledgement, and what tells that a flow ended
ACKNOWLEDGED, ENDED = {REL: "03", KREL: "06"}, {REL: "ended", KREL: "kended"}

Flow = collections.namedtuple("Flow", "base have inbox", defaults=(0, 0, 0))


def is_digest(text, digest):
    return hashlib.sha256(text.encode()).hexdigest().encode() == digest


class Rules:
    """What a node keeps, as far as its answers depend on it."""

    def __init__(self, configuration):
        self.me, self.bound, self.now, self.total = configuration.node, configuration.buffer, 0, TOTALS[configuration.topology.height]
        self.format, self.nodes = configuration.topology.format, set(configuration.topology.nodes)
        self.versions = versions.Versions(configuration.topology)
        ends = [edge[:2] for edge in configuration.topology.edges]
        self.edge_to = {peer.node: ends.index(pair) for peer in configuration.peers
                        if (pair := tuple(sorted((self.me, peer.node)))) in ends}
        self.flows, self.weights, self.marks = {REL: {}, KREL: {}}, {}, {}
        self.lives = {}                                 # the boots that are held of nodes; none where nodes run without epochs
        self.guesses = [stores.empty_places(configuration)]

    # ---- lives

    def begins(self, boot):
        """The node holds its own boot, where nodes run with epochs: under a document of format 2."""
        if self.format > 1:
            self.lives[self.me] = boot

    def are_ends(self, source, destination):
        """Whether the two are different nodes, neither of which is removed."""
        return source != destination and {source, destination} <= self.nodes - self.versions.removed

    def is_shut(self, peer):
        """Whether the link to a neighbour is withdrawn."""
        return not self.versions.edges[self.edge_to[peer]][2]

    def open_places(self):
        """The neighbours whose links aren't withdrawn, ascending, each with the number of its link."""
        return [(node, edge) for node, edge in sorted(self.edge_to.items()) if not self.is_shut(node)]

    def held(self, source, destination):
        """The boots that are held of two nodes, 0 where none is."""
        return self.lives.get(source, 0), self.lives.get(destination, 0)

    def greeted(self, peer):
        """Another life of a neighbour began: nothing is in flight to it."""
        self.guesses = [{**guess, peer: guess[peer]._replace(flight=())} for guess in self.guesses]

    # ---- what clients do

    def sent(self, kind, destination, number):
        ends = self.me, destination
        self.flows[kind][ends] = self.flow(kind, ends)._replace(have=number)

    def took(self, kind, source):
        ends = source, self.me
        if ends in self.flows[kind]:
            flow = self.flow(kind, ends)
            self.flows[kind][ends] = flow._replace(inbox=flow.inbox - 1)

    def took_prio(self):
        self.guesses = [{**guess, stores.INBOX: guess[stores.INBOX].taken()} for guess in self.guesses]

    def weighed(self, peer, number, weight):
        self.weights[self.me, self.edge_to.get(peer)] = number, weight

    def in_effect(self):
        """The weights of all edges that aren't withdrawn, by their ends: the administrator's or that of an end, whichever is the greatest."""
        return {(low, high): max(least, *(self.weights.get((end, place), (0, 0))[1] for end in (low, high)))
                for place, (low, high, least) in enumerate(self.versions.edges) if least}

    def sent_prio(self, item, count):
        """An own message over all edges, or over so many paths, each of which leaves by another link."""
        ways = paths.leaving(self.me, item.destination, count, self.in_effect()) if count else [tuple(node for node, _ in self.open_places())]
        after = [{**guess, **{node: guess[node].put(item)[0] for node in way}} for way in ways for guess in self.guesses]
        self.guesses = after[:MOST_GUESSES]

    # ---- turns

    def polled(self, node):
        """A frame with the document, and one over a withdrawn link, carry nothing of the stores."""
        if self.versions.is_behind(node) or (node in self.edge_to and self.is_shut(node)):
            return
        self.guesses = [{**guess, node: guess[node].polled()} if node in guess else guess for guess in self.guesses]

    def tick(self, now, digest):
        """The answer to a tick and its effects; None where none has this digest, and then nothing was signed."""
        self.now = max(self.now, now)
        after = [self.expired(guess) for guess in self.guesses]
        for signed, reply in self.ticks():
            lines = "".join(self.acknowledgement(kind, ends) for kind, ends in signed)
            kept = [(guess, text) for guess, text in after if is_digest(f"{reply}\n{text}{lines}", digest)]
            if kept:
                for kind, ends in signed:
                    self.flows[kind][ends] = self.flow(kind, ends)._replace(base=self.flow(kind, ends).have)
                self.guesses = [guess for guess, _ in kept]
                return f"{reply}\n{kept[0][1]}{lines}".split("\n")[:-1]
        self.guesses = [guess for guess, _ in after]
        return None

    def ticks(self):
        """What a tick may sign, at most an acknowledgement of a flow of each kind, with its reply: where the key is spent the later ones aren't signed."""
        plain, on_paths = ([(), *(((kind, ends),) for ends in self.due(kind))] for kind in (REL, KREL))
        yield from ((first + second, "ticked") for first in plain for second in on_paths)
        yield from ((first, f"tickspent {self.total}") for first in plain)

    def due(self, kind):
        """The flows to this node of which something came that isn't acknowledged."""
        return [ends for ends, row in self.flows[kind].items() if ends[1] == self.me and row.base < row.have]

    def acknowledgement(self, kind, ends):
        """The line that tells the acknowledgement of all that came of a flow."""
        boots = "".join(f"{boot:016x}" for boot in self.held(*ends)) if self.format > 1 else ""
        return f"+ signed {ACKNOWLEDGED[kind]}{ends[0]:02x}{ends[1]:02x}{boots}{self.flow(kind, ends).have:016x}\n"

    def expired(self, guess):
        """A guess without what expired, and the lines that tell it."""
        if not any(place.entries for place in guess.values()):
            return guess, ""
        rows = {node: place.expired(self.now) for node, place in guess.items()}
        return {node: place for node, (place, _) in rows.items()}, "".join(text for _, text in rows.values())

    # ---- a frame

    def flow(self, kind, ends):
        return self.flows[kind].get(ends, Flow())

    def without(self, nodes):
        """The flows without those that have an end among these nodes."""
        return {kind: {ends: row for ends, row in rows.items() if not {*ends} & nodes} for kind, rows in self.flows.items()}

    def is_seen(self, item):
        marks = self.marks.get(item.source)
        return item.source == self.me or (marks is not None and (item.number in marks or item.number + WINDOW <= max(marks, default=0)))

    def fresh(self, sender, sections, digest):
        """The words of the objects and the lines of the answer to a fresh frame; None for the lines where none has this digest."""
        if sections.document is not None:
            return [], self.documented(sections.document, digest)
        most = len(sections.items)
        for bad in itertools.chain.from_iterable(itertools.combinations(range(most), count) for count in range(most + 1)):
            trial = Trial(self, sender, sections, bad)
            if len(trial.bad) < len(bad):
                continue
            after = [trial.of_places(guess) for guess in self.guesses]
            kept = [(guess, text) for guess, text in after if is_digest(trial.reply + trial.front + text + trial.back, digest)]
            if kept:
                self.keep(trial, [guess for guess, _ in kept])
                return trial.words, (trial.reply + trial.front + kept[0][1] + trial.back).split("\n")[:-1]
        trial = Trial(self, sender, sections, ())
        self.keep(trial, [trial.of_places(guess)[0] for guess in self.guesses])
        return trial.words, None

    def documented(self, document, digest):
        """The lines of the answer to a document; None where none has this digest, and then it isn't taken."""
        for word, topology in self.versions.answers_to(document):
            front, back = f"fresh document:{word}\n", ""
            after = [(guess, "") for guess in self.guesses]
            if topology:
                removed = versions.removed_of(topology.edges)
                shut = {node for node, edge in self.edge_to.items() if not topology.edges[edge][2]}
                front += f"+ version {topology.version}\n"
                after = [versions.closed(guess, shut, removed) for guess in self.guesses]
                back = "".join(ended(kind, rows, removed) for kind, rows in self.flows.items())
            kept = [(guess, text) for guess, text in after if is_digest(front + text + back, digest)]
            if kept:
                if topology:
                    self.versions.topology, self.guesses = topology, [guess for guess, _ in kept]
                    self.flows = self.without(removed)
                return (front + kept[0][1] + back).split("\n")[:-1]
        return None

    def keep(self, trial, guesses):
        """What a frame did stands from now on."""
        self.guesses = guesses
        for kind, rows in trial.flows.items():
            self.flows[kind].update(rows)
        self.weights.update(trial.weights)
        if trial.started:
            self.lives[trial.started.source] = trial.started.number
            self.marks.pop(trial.started.source, None)
            self.flows = self.without({trial.started.source})
        for source, number in trial.marks:
            if trial.started and source == trial.started.source:
                continue
            marks = self.marks.setdefault(source, set())
            marks.add(number)
            if len(marks) > 2 * WINDOW:
                self.marks[source] = {each for each in marks if each + WINDOW > max(marks)}


def ended(kind, flows, nodes):
    """The lines that tell of the flows of a kind that end since another life of one of these nodes began, or since these are removed."""
    return "".join(f"+ {ENDED[kind]} {source} {destination}\n" for source, destination in sorted(flows) if {source, destination} & nodes)


class Trial:
    """A frame that is handled object by object, where the signatures at some places are wrong."""

    def __init__(self, rules, sender, sections, bad):
        self.rules, self.sender, self.sections, self.bad = rules, sender, sections, set()
        self.flows, self.weights, self.marks, self.stored, self.started = {REL: {}, KREL: {}}, {}, [], [], None
        self.front = self.back = ""
        self.words = [self.word_of(item, place in bad, place) for place, item in enumerate(sections.items)]
        self.reply = "fresh" + "".join(f" {item.kind}:{word}" for item, word in zip(sections.items, self.words)) + "\n"

    def word_of(self, item, is_bad, place):
        word = getattr(self, "of_" + item.kind)(item)
        if word != "new":
            return word
        if is_bad:
            self.bad.add(place)
            return "badsig"
        getattr(self, "keep_" + item.kind)(item)
        return word

    def of_weight(self, item):
        edges, origin, weight = self.rules.versions.edges, item.source, int.from_bytes(item.payload, "big")
        if item.destination >= len(edges) or origin not in edges[item.destination][:2] or (origin == self.rules.me and item.number > MOST_OWN):
            return "foreign"
        if not edges[item.destination][2]:
            return "foreign"
        if weight < edges[item.destination][2]:
            return "low"
        end = origin, item.destination
        held = self.weights.get(end) or self.rules.weights.get(end) or (0, 0)
        return "old" if item.number <= held[0] else "new"

    def keep_weight(self, item):
        self.weights[item.source, item.destination] = item.number, int.from_bytes(item.payload, "big")
        self.front += f"+ weight {item.source} {item.destination} {item.number} {int.from_bytes(item.payload, 'big')}\n"

    def of_prio(self, item):
        if not self.rules.are_ends(item.source, item.destination):
            return "badend"
        if item.boots[0] != self.rules.held(item.source, item.destination)[0]:
            return "epoch"
        if item.expiry < self.rules.now:
            return "expired"
        return "seen" if self.rules.is_seen(item) or (item.source, item.number) in self.marks else "new"

    def keep_prio(self, item):
        self.marks.append((item.source, item.number))
        self.stored.append(item)

    def flow(self, kind, ends):
        return self.flows[kind].get(ends) or self.rules.flow(kind, ends)

    def is_of_slot(self, item):
        ends, slot = (item.source, item.destination), self.sections.slot if FLOW_OF[item.kind] == REL else self.sections.paths
        return ends == slot[:2] and self.rules.are_ends(*ends)

    def is_off(self, item):
        """Whether a message on paths came over an edge that its mask doesn't have."""
        return item.kind == KREL and not item.mask >> self.rules.edge_to[self.sender] & 1

    def of_ack(self, item):
        flow = self.flow(FLOW_OF[item.kind], (item.source, item.destination))
        if not self.is_of_slot(item):
            return "badend"
        if item.boots != self.rules.held(item.source, item.destination):
            return "epoch"
        if item.number <= flow.base:
            return "old"
        return "ahead" if item.destination == self.rules.me or (item.source == self.rules.me and item.number > flow.have) else "new"

    def keep_ack(self, item):
        kind, ends = FLOW_OF[item.kind], (item.source, item.destination)
        self.flows[kind][ends] = self.flow(kind, ends)._replace(base=item.number, have=max(item.number, self.flow(kind, ends).have))

    of_kack, keep_kack = of_ack, keep_ack

    def of_rel(self, item):
        flow = self.flow(item.kind, (item.source, item.destination))
        if not self.is_of_slot(item):
            return "badend"
        if item.boots != self.rules.held(item.source, item.destination):
            return "epoch"
        if self.is_off(item):
            return "offmask"
        if item.number <= flow.have:
            return "old"
        if item.source == self.rules.me:
            return "ahead"
        if item.number > flow.have + 1:
            return "gap"
        if flow.have - flow.base >= self.rules.bound:
            return "full"
        return "inboxfull" if item.destination == self.rules.me and flow.inbox >= self.rules.bound else "new"

    def keep_rel(self, item):
        ends = item.source, item.destination
        flow, is_here = self.flow(item.kind, ends), item.destination == self.rules.me
        self.flows[item.kind][ends] = flow._replace(have=item.number, inbox=flow.inbox + is_here)
        self.back += f"+ delivered {item.kind} {item.source} {item.number} {item.payload.hex() or '-'}\n" if is_here else ""

    of_krel, keep_krel = of_rel, keep_rel

    def of_epoch(self, item):
        if item.source == self.rules.me or item.source not in self.rules.nodes:
            return "badend"
        return "old" if item.number <= self.rules.lives.get(item.source, 0) else "new"

    def keep_epoch(self, item):
        """Another life of a node began: its flows end, in order. It is the last object of its frame."""
        self.started = item
        self.back += "".join(ended(kind, {*self.rules.flows[kind], *rows}, {item.source}) for kind, rows in self.flows.items())

    def of_places(self, guess):
        """What a guess of the stores becomes, and the lines that tell it: what the neighbour acknowledged leaves, and then the new messages come."""
        after = dict(guess)
        after[self.sender], text = after[self.sender].acknowledged(self.sections.heard)
        for item in self.stored:
            is_here = item.destination == self.rules.me
            text += f"+ delivered prio {item.source} {item.number} {item.payload.hex() or '-'}\n" if is_here else ""
            for node in [stores.INBOX] if is_here else self.places_of(item):
                after[node], lines = after[node].put(item)
                text += lines
        return after, text

    def places_of(self, item):
        """Where a message for another node is stored."""
        return [node for node, edge in self.rules.open_places() if item.mask >> edge & 1 and node != self.sender]
