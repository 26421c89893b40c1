"""A film of the recordings of an overlay's daemons: their lines in one order, with each frame followed from its poll to its arrival.

A frame is known by its SHA-256: a `poll` line has the digest of the frame that was made, and an `overlay` line of another daemon the frame that came.
Lines of one daemon keep their order. Between daemons the clock of their turns decides, and a frame never arrives before it was made.
"""

import collections
import hashlib

import configurations
import films
import frames
import recordings
from frames import KREL, REL
from watching import Watch

# what is said of a step of which nothing came: a start that was heard before goes round for ever
NOTHING = [], ["fresh"], ["ticked"], ["fresh epoch:old"], ["fresh epoch:badend"]

Daemon = collections.namedtuple("Daemon", "configuration lines")
# a line with the clock of its turn, and the digest of the frame that it brings or made
Timed = collections.namedtuple("Timed", "clock line digest")


def daemon_of(configuration, lives):
    """A daemon by the texts of its configuration and of its recordings, of one life after another."""
    return Daemon(configurations.configuration_of(configuration), [each for life in lives for each in timed(recordings.lines_of(life)[0])])


def timed(lines):
    """The lines, each with the clock of its turn, the first with that of the first turn, and the digest of its frame."""
    now, out = next((line.numbers[0] for line in lines[:2] if line.name == "tick"), 0), []
    for line in lines:
        if line.name == "tick":
            now = max(now, line.numbers[0])
        out.append(Timed(now, line, hashlib.sha256(line.data).hexdigest().encode() if line.name == "overlay" else line.digest))
    return out


def made_by(daemons):
    """The digests of all frames that were made, by direction."""
    return {(d.configuration.node, each.line.numbers[0], each.digest) for d in daemons for each in d.lines if each.line.name == "poll"}


def in_order(daemons):
    """All lines in one order, each with its node."""
    queues = {d.configuration.node: collections.deque(d.lines) for d in daemons}
    waited = made_by(daemons)
    while any(queues.values()):
        heads = sorted((queue[0].clock, node) for node, queue in queues.items() if queue)
        node = next((node for _, node in heads if not waits(queues[node][0], node, waited)), heads[0][1])
        each = queues[node].popleft()
        if each.line.name == "poll":
            waited.discard((node, each.line.numbers[0], each.digest))
        yield node, each


def waits(each, node, waited):
    """Whether this line brings a frame that another daemon hasn't made yet."""
    return each.line.name == "overlay" and (each.line.numbers[0], node, each.digest) in waited


def flows_of(watch, line, before):
    """What a client's request and an acknowledgement did to the tables, which were so before; no other line does anything to them."""
    if before is None:
        return []
    clients, me = watch.clients, watch.configuration.node
    flows = [[kind, me, to, "sent", count] for kind, counts in clients.sent.items() for to, count in counts.items() if count != before[0][kind][to]]
    if clients.own["sendprio"] != before[1] and line.name == "client":
        flows.append(["prio", me, int(line.data.split(b" ")[2]), "sent", clients.own["sendprio"]])
    flows += [[kind, *flow, "acknowledged", number] for kind, counts in acknowledged_by(watch).items() for flow, number in counts.items()
              if number != before[2][kind][flow]]
    return flows


def acknowledged_by(watch):
    """What is acknowledged of the flows of each kind."""
    return {REL: watch.acknowledged, KREL: watch.acknowledged_on_paths}


def copied(counts):
    return {kind: each.copy() for kind, each in counts.items()}


def told_as(line):
    """A line of a recording for a reader: bytes as their number, a request as its text."""
    if line.name == "client":
        return f"client {line.numbers[0]} {line.data[:200].decode('ascii', 'replace')}"
    if line.name == "overlay":
        return f"overlay {line.numbers[0]}, {len(line.data)} bytes"
    if line.name == "recording":
        return f"life {line.numbers[0]} begins, with the indexes {line.numbers[1]} to {line.numbers[2] - 1}"
    return " ".join([line.name, *map(str, line.numbers)])


def frame_of(node, each, arrived, said):
    """The frame that a line makes or brings; none where no recording tells whether it arrived."""
    line, digest = each.line, each.digest
    if line.name == "poll" and line.numbers[0] in arrived:
        carried = arrived[line.numbers[0]].get((node, digest))
        return ["lost" if carried is None else "made", node, line.numbers[0], digest[:8].decode(), carried or []]
    if line.name == "overlay":
        return ["arrives", line.numbers[0], node, digest[:8].decode(), films.objects_of(said[0] if said else "")]
    return None


def carried_by(line, topology):
    """The kinds of the messages in a frame that came."""
    signature = configurations.SIGNATURES[topology.height]
    try:
        return [] if frames.fault_of(line.data, topology.format) else [item.kind for item in frames.sections_of(line.data, signature).items]
    except frames.Bad:
        return []


def arrivals(daemons):
    """What each frame carried that arrived, by its receiver, and then by its sender and digest."""
    found = {}
    for d in daemons:
        found[d.configuration.node] = {
            (each.line.numbers[0], each.digest): carried_by(each.line, d.configuration.topology) for each in d.lines if each.line.name == "overlay"}
    return found


def step_of(time, watch, each, arrived):
    """One step, TIME milliseconds after the first, and whether nothing came of it."""
    line, clients = each.line, watch.clients
    before = (copied(clients.sent), clients.own["sendprio"], copied(acknowledged_by(watch))) if line.name in ("client", "overlay") else None
    watch.feed(line)
    node, said = watch.configuration.node, list(watch.told)
    frame = frame_of(node, each, arrived, said)
    flows, seen = films.of_effects(node, said, watch.format)
    flows += flows_of(watch, line, before)
    seen += sorted({change[3] for change in flows} - set(seen))
    shown = f"node {node}, {time / 1000:.3f} s: {told_as(line)}"
    idle = line.name in ("tick", "poll", "overlay", "reserve") and said in NOTHING and not (frame and frame[4] not in ([], ["epoch"]))
    return [node, line.name, shown, said, frame, flows, seen, films.mark_of(said, seen)], idle


def film_of(title, daemons, with_idle, most):
    """The film of these daemons: their last steps, at most so many, with or without those of which nothing came."""
    watches, turns = {d.configuration.node: Watch(d.configuration) for d in daemons}, collections.Counter()
    topology = daemons[0].configuration.topology
    arrived, steps, left_out = arrivals(daemons), collections.deque(maxlen=most), 0
    begin = min((each.clock for d in daemons for each in d.lines[:1] if each.clock), default=0)
    for node, each in in_order(daemons):
        if each.line.name == "recording":
            watches[node], turns[node] = Watch(watches[node].configuration), turns[node] + watches[node].turns
        step, idle = step_of(max(0, each.clock - begin), watches[node], each, arrived)
        if idle and not with_idle:
            left_out += 1
            continue
        left_out += len(steps) == most
        steps.append(step)
    told = ", ".join(f"{turns[node] + watch.turns} of node {node}" for node, watch in sorted(watches.items()))
    return films.film(title, topology.nodes, [], topology.edges, list(steps), f"turns: {told}", left_out)
