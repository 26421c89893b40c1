"""The priority stores of a node, as docs/RULES.md has them: what each place holds, what is in flight to a neighbour, and what goes.

A place that changes is a new one, so that several guesses can share what they have in common.
"""

import collections

INBOX = 0
MOST_IN_FLIGHT = 4

Entry = collections.namedtuple("Entry", "id source number rank expiry destination")


class Place(collections.namedtuple("Place", "node capacity last entries number served flight")):
    """The inbox, or what waits for a neighbour: the id that was given last, the entries in order, the link number that was given last, the source that
    was served last, and what is in flight, pairs of a link number and an id."""

    def put(self, item):
        """With one message more, and the lines that tell it."""
        entry = Entry(self.last + 1, item.source, item.number, item.rank, item.expiry, item.destination)
        entries, text = (*self.entries, entry), f"+ stored {self.node} {entry.id} {item.source} {item.number} {item.rank}\n"
        if len(entries) > self.capacity:
            victim = self.victim(entries)
            entries = tuple(each for each in entries if each is not victim)
            text += f"+ gone {self.node} {victim.id} evicted\n"
        return self._replace(last=entry.id, entries=entries), text

    @staticmethod
    def victim(entries):
        """The entry that goes: of the source that has most the one of lowest rank, and the oldest of those."""
        counts = collections.Counter(entry.source for entry in entries)
        fullest = min(counts, key=lambda source: (-counts[source], source))
        return min((entry for entry in entries if entry.source == fullest), key=lambda entry: entry.rank)

    def without(self, ids):
        return self._replace(entries=tuple(entry for entry in self.entries if entry.id not in ids))

    def expired(self, now):
        """Without what expired, and the lines that tell it."""
        gone = [entry.id for entry in self.entries if entry.expiry < now]
        return (self.without(gone) if gone else self), "".join(f"+ gone {self.node} {number} expired\n" for number in gone)

    def acknowledged(self, number):
        """Without what is in flight up to this link number, and the lines that tell it."""
        landed = [entry for link, entry in self.flight if link <= number]
        if not landed:
            return self, ""
        held = {entry.id for entry in self.entries}
        text = "".join(f"+ gone {self.node} {entry} acked\n" for entry in landed if entry in held)
        return self.without(landed)._replace(flight=tuple(pair for pair in self.flight if pair[0] > number)), text

    def polled(self):
        """After a poll, which fills up what is in flight."""
        if not self.entries and not self.flight:
            return self
        held = {entry.id for entry in self.entries}
        flight = [pair for pair in self.flight if pair[1] in held]
        flying, number, served = {entry for _, entry in flight}, self.number, self.served
        while len(flight) < MOST_IN_FLIGHT and (free := [entry for entry in self.entries if entry.id not in flying]):
            sources = sorted({entry.source for entry in free})
            served = next((source for source in sources if source > served), sources[0])
            best = max((entry for entry in free if entry.source == served), key=lambda entry: (entry.rank, -entry.id))
            number += 1
            flying.add(best.id)
            flight.append((number, best.id))
        return self._replace(number=number, served=served, flight=tuple(flight))

    def taken(self):
        """Without its oldest entry."""
        return self._replace(entries=self.entries[1:])


def empty_places(configuration):
    """All places of a node at its start, by their nodes, the inbox first."""
    nodes = (INBOX, *sorted(peer.node for peer in configuration.peers))
    return {node: Place(node, configuration.store, 0, (), 0, 0, ()) for node in nodes}
