"""By which links a message leaves its source that goes over so many disjoint paths of the least cost: all ways that tie, since any may be taken."""

import itertools
import math

FAR = 1 << 60
# so many ways are tried; where a source has more, the first of them are taken untried
MOST_WAYS = 60


def leaving(source, target, count, weights):
    """The sets of neighbours over which the paths may leave; `weights` are those of edges, by their two ends."""
    near = sorted(low if high == source else high for low, high in weights if source in (low, high))
    ways = list(itertools.islice(itertools.combinations(near, count), MOST_WAYS))
    if math.comb(len(near), count) > MOST_WAYS:
        return ways
    costs = [(cost(source, target, way, weights), way) for way in ways]
    least = min((each for each, _ in costs), default=FAR)
    return [way for each, way in costs if each == least < FAR]


def cost(source, target, way, weights):
    """The least cost of disjoint paths of which each leaves over another of these neighbours."""
    arcs = Arcs()
    for (low, high), weight in weights.items():
        for start, end in ((low, high), (high, low)):
            if end != source and start != target and (start != source or end in way):
                arcs.add((start, "out"), (end, "in"), weight)
    for node in {node for edge in weights for node in edge} - {source, target}:
        arcs.add((node, "in"), (node, "out"), 0)
    total = 0
    for _ in way:
        step = arcs.push((source, "out"), (target, "in"))
        if step is None:
            return FAR
        total += step
    return total


class Arcs:
    """Arcs that one path goes over, each with its way back."""

    def __init__(self):
        self.free = {}

    def add(self, start, end, price):
        self.free[start, end] = price

    def push(self, start, end):
        """Sends one more path along the cheapest way, and gives what that adds; None where there is none."""
        reach, before = {start: 0}, {}
        for _ in range(len(self.free)):
            changed = False
            for (a, b), price in self.free.items():
                if a in reach and reach[a] + price < reach.get(b, FAR):
                    reach[b], before[b], changed = reach[a] + price, a, True
            if not changed:
                break
        if end not in reach:
            return None
        at = end
        while at != start:
            price = self.free.pop((before[at], at))
            self.free[at, before[at]] = -price
            at = before[at]
        return reach[end]
