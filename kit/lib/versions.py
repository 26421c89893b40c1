"""The versions of the topology, as a node of format 2 takes them by docs/RULES.md: which it runs under, and which it keeps of each neighbour."""

import configurations
import stores


def removed_of(edges):
    """The nodes that have edges, all of them withdrawn."""
    ends = {end for low, high, _ in edges for end in (low, high)}
    return ends - {end for low, high, weight in edges if weight for end in (low, high)}


def follows(before, after):
    """Whether a topology has the nodes and edges of the one before under a higher version, and no removed node comes back. Keys aren't compared."""
    ends = lambda topology: [edge[:2] for edge in topology.edges]
    alike = (before.format, before.height, before.nodes, ends(before)) == (after.format, after.height, after.nodes, ends(after))
    return alike and before.version < after.version and removed_of(before.edges) <= removed_of(after.edges)


class Versions:
    """The topology that a node runs under, and the version that it keeps of each neighbour, 0 before one was heard."""

    def __init__(self, topology):
        self.topology, self.kept = topology, {}

    @property
    def version(self):
        return self.topology.version

    @property
    def edges(self):
        return self.topology.edges

    @property
    def removed(self):
        return removed_of(self.topology.edges)

    def withdrawn(self):
        """The links that are withdrawn, by their ends."""
        return [(low, high) for low, high, weight in self.topology.edges if not weight]

    def hears(self, peer, theirs, rises, is_known):
        """A frame of a neighbour with the right tag: the boot that is known of it rises by it, or is the one that was known."""
        before = self.kept.get(peer, 0)
        self.kept[peer] = theirs if rises else max(before, theirs) if is_known else before

    def is_behind(self, peer):
        """Whether a neighbour runs under an older version: then each poll offers it the document, and nothing else."""
        return 0 < self.kept.get(peer, 0) < self.version

    def answers_to(self, document):
        """The words that a document may be answered, with the topology that is adopted by it. Who signed it isn't looked at: the digest tells."""
        try:
            topology = configurations.topology_of(document)
        except (configurations.Unreadable, IndexError):
            return [("bad", None)]
        if topology.version <= self.version:
            return [("old", None), ("bad", None)]
        good = ("new", topology) if follows(self.topology, topology) else ("strange", None)
        return [good, ("badsig", None), ("strange", None), ("bad", None)]


def closed(guess, shut, removed):
    """A guess of the stores without what waits for a withdrawn link or has a removed end, and the lines that tell it. The inbox stays."""
    after, text = dict(guess), ""
    for node, place in sorted(guess.items()):
        if node != stores.INBOX:
            gone = [entry.id for entry in place.entries if node in shut or {entry.source, entry.destination} & removed]
            after[node] = place.without(gone) if gone else place
            text += "".join(f"+ gone {node} {number} withdrawn\n" for number in gone)
    return after, text
