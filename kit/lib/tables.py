"""What a watch tells of a daemon, as one object and as a table for a person."""

import collections
import datetime

from frames import REL
from holders import MOST_TURNS
from watching import ANSWERS, HELD_UP

# a neighbour is silent where nothing fresh came for so long, a daemon where it made no turn, and a flow stands where it didn't move
SILENT_MS = 5_000
STANDS_MS = 10_000
# so much of a seed is left when its end is told
TENTH = 10

# the watch and the reading of a daemon, who holds its key file (None: nobody, False: unknown), and the clock of this look in milliseconds
Look = collections.namedtuple("Look", "watch reading holder now")
# so long after its first turn a daemon has heard of all starts
MET_MS = 10_000


def look_at(reading, holder, clock):
    """A look at a daemon. Of one that runs, or was killed, ages count from the clock; of files alone, and of one that ended, from the last turn."""
    last = reading.watch.now or 0
    goes_on = reading.watch.ended is None and holder is not False
    return Look(reading.watch, reading, holder, max(last, clock) if goes_on else last)


def state_of(look):
    """Whether a daemon runs, in words."""
    watch, age = look.watch, look.now - (look.watch.now or 0)
    if watch.ended is not None:
        return f"ended after {watch.ended[0]} turns, {watch.ended[1]} receives and sends failed"
    if look.holder is False:
        return "no end line: it runs, or was ended from outside"
    if look.holder is None:
        return f"not running: killed, its last turn was {age / 1000:.0f} s ago"
    return "running" if age <= SILENT_MS else f"process {look.holder.pid} holds its key file, and made no turn for {age / 1000:.0f} s"


def turns_left(look):
    """How many turns are left, and in how many seconds they end at the rate so far; None where nothing is left to be told, or no rate is known."""
    watch = look.watch
    if watch.ended is not None or look.holder is None:
        return None
    left = (look.holder.turns if look.holder else MOST_TURNS) - watch.turns
    span = ((watch.now or 0) - (watch.first_tick or 0)) / 1000
    return left, left * span / watch.turns if span > 0 and watch.turns else None


def standing_flows(look):
    """The flows of which messages wait here and that didn't move for a while, with the milliseconds."""
    found = [(flow, look.watch.standing(flow, look.now)) for flow in look.watch.flows()]
    return [(flow, age) for flow, age in found if age >= STANDS_MS] if look.watch.ended is None and look.holder is not None else []


def held_up_at(look, flow, looks):
    """What neighbours answer to this node's messages of a flow where these are held up, as far as their recordings are looked at too, by the neighbours."""
    me, others = look.watch.configuration.node, {each.watch.configuration.node: each.watch for each in looks}
    found = {node: others[node].answers_to(me, flow) for node in sorted(look.watch.neighbours) if node in others}
    return {node: word for node, word in found.items() if word}


def as_object(look, looks=()):
    """All that is told, as one object."""
    watch, reading, configuration, clients = look.watch, look.reading, look.watch.configuration, look.watch.clients
    left = turns_left(look)
    return {
        "node": configuration.node, "boot": watch.boot, "topology_format": watch.format, "topology_version": watch.rules.versions.version,
        "removed": sorted(watch.rules.versions.removed), "withdrawn": [f"{low}-{high}" for low, high in watch.rules.versions.withdrawn()],
        "state": state_of(look),
        "turns": watch.turns, "turns_left": left and left[0], "turns_end_in_seconds": left and left[1] and round(left[1]),
        "first_turn_ms": watch.first_tick, "last_turn_ms": watch.now,
        "ended": None if watch.ended is None else {"turns": watch.ended[0], "lost": watch.ended[1]},
        "lives": {str(node): boot for node, boot in sorted(watch.rules.lives.items())}, "not_met": watch.not_met(),
        "recording": {"lines": watch.lines, "bytes": reading.size, "cut_bytes": len(reading.rest)},
        "indexes": {"first": watch.index, "reserved": watch.bound, "limit": watch.total, "left": watch.total - (watch.bound or 0)},
        "strays": {str(port): count for port, count in sorted(watch.strays.items())},
        "requests": dict(sorted(watch.requests.items())),
        "sessions": [{"port": port, "last": int(session.number), "listens": session.listens} for port, session in sorted(clients.sessions.items())],
        "checked": {"right": watch.right, "different": watch.wrong}, "untold_ticks": watch.untold_ticks,
        "neighbours": [
            {"node": node, "port": n.port, "frames_sent": n.polls, "answers": {word: n.answers[word] for word in ANSWERS}, "lost": n.lost,
             "bad_signatures": n.bad_signatures, "untold": n.untold, "last_fresh_ms": n.last_fresh, "boot": n.link.peer_boot,
             "topology_version": watch.rules.versions.kept.get(node, 0),
             "held_up": {word: n.held_up[word] for word in HELD_UP}}
            for node, n in sorted(watch.neighbours.items())],
        "flows": [of_flow(look, flow, looks) for flow in watch.flows()],
    }


def of_flow(look, flow, looks):
    """What is told of a flow."""
    watch, me, clients = look.watch, look.watch.configuration.node, look.watch.clients
    return {
        "source": flow[0], "destination": flow[1], "sent": clients.sent[REL][flow[1]] if flow[0] == me else None,
        "delivered": watch.delivered[flow] if flow[1] == me else None, "taken": clients.taken[REL][flow[0]] if flow[1] == me else None,
        "acknowledged": watch.acknowledged[flow], "ended": watch.ended_flows[flow], "standing_ms": watch.standing(flow, look.now),
        "held_up_at": {str(node): word for node, word in held_up_at(look, flow, looks).items()},
        "held_up_here": {str(node): word for node in sorted(watch.neighbours) if (word := watch.answers_to(node, flow))},
        "reported": {str(node): {"base": n.reports[flow][0], "have": n.reports[flow][1]} for node, n in sorted(watch.neighbours.items()) if flow in n.reports},
    }


# ---- for a person

def clock(milliseconds):
    if milliseconds is None:
        return "never"
    try:
        return datetime.datetime.fromtimestamp(milliseconds / 1000, datetime.timezone.utc).strftime("%Y-%m-%d %H:%M:%S")
    except (OverflowError, ValueError, OSError):
        return f"{milliseconds} ms"


def columns(rows):
    """Rows of words with each column as wide as its widest word."""
    widths = [max(len(str(row[place])) for row in rows) for place in range(len(rows[0]))]
    return ["  " + "  ".join(str(word).rjust(width) for word, width in zip(row, widths)) for row in rows]


def of_neighbours(look, told):
    rows = [("neighbour", "start", "sent", *ANSWERS, "lost", "badsig", *HELD_UP, "untold", "last fresh")]
    for n in told["neighbours"]:
        age = None if n["last_fresh_ms"] is None else look.now - n["last_fresh_ms"]
        when = "never" if age is None else f"{age / 1000:.1f} s ago" + (" SILENT" if age > SILENT_MS else "")
        answers = (*n["answers"].values(), n["lost"], n["bad_signatures"], *n["held_up"].values())
        rows.append((n["node"], n["boot"] or "-", n["frames_sent"], *answers, n["untold"], when))
    return columns(rows)


def of_flows(told, standing):
    rows = [("flow", "sent", "delivered", "taken", "acknowledged", "ended", "reported base/have")]
    for flow in told["flows"]:
        reports = ", ".join(f"{node}: {report['base']}/{report['have']}" for node, report in flow["reported"].items()) or "-"
        words = ["-" if flow[name] is None else flow[name] for name in ("sent", "delivered", "taken")]
        ways = reports + stands(flow, standing.get((flow["source"], flow["destination"])))
        rows.append((f"{flow['source']}-{flow['destination']}", *words, flow["acknowledged"] or "-", flow["ended"] or "-", ways))
    return columns(rows)


def stands(flow, age):
    """The word for a flow that doesn't move, with the neighbours that hold it up; and those whose messages are held up here."""
    there = "".join(f", node {node} answers {word}" for node, word in flow["held_up_at"].items())
    here = "".join(f", {word} is answered to node {node}" for node, word in flow["held_up_here"].items())
    return (f" STANDS {age / 1000:.0f} s{there}" if age else "") + here


def attentions(look, told, standing):
    """What wants somebody to look."""
    watch, left = look.watch, told["indexes"]["left"]
    if watch.wrong:
        yield f"{watch.wrong} answers aren't those of the rules; run spinesd verify"
    if left * TENTH <= watch.total:
        yield f"a tenth or less of the seed's indexes is left; have a new seed signed, `spinesd-keys renew OVERLAY {told['node']}`"
    if told["not_met"] and (watch.now or 0) - (watch.first_tick or 0) >= MET_MS:
        yield f"no start of node {', '.join(map(str, told['not_met']))} was heard yet: a message to it is answered badend"
    for (source, destination), age in standing.items():
        yield f"the flow {source}-{destination} stands for {age / 1000:.0f} s: its messages aren't acknowledged (docs/GUIDE.md, When something fails)"


def of_turns(look):
    """The line of the turns that were made, and that are left."""
    watch, left = look.watch, turns_left(look)
    span = ((watch.now or 0) - (watch.first_tick or 0)) / 1000
    rate = f"{watch.turns / span:.0f} a second" if span > 0 else "too few for a rate"
    line = f"turns {watch.turns}, {rate}, the first {clock(watch.first_tick)}, the last {clock(watch.now)} UTC"
    if left and look.holder and left[1] is not None:
        line += f"\nturns left {left[0]}: at this rate it ends at {clock(watch.now + 1000 * left[1])} UTC, in {left[1] / 3600:.1f} hours"
    return line


def of_lives(told):
    """The line of the lives that are held of all nodes; none where nodes run without epochs."""
    lives = ", ".join(f"{node} at {boot}" for node, boot in told["lives"].items())
    return [f"starts of nodes {lives}; not met " + (", ".join(map(str, told["not_met"])) or "none")] if lives else []


def of_versions(told):
    """The lines of what the topology withdraws, and of neighbours that run under another version; none where there is nothing of it."""
    if told["withdrawn"]:
        yield f"withdrawn links {', '.join(told['withdrawn'])}; removed nodes " + (", ".join(map(str, told["removed"])) or "none")
    others = [f"{n['node']} under {n['topology_version']}" for n in told["neighbours"] if n["topology_version"] not in (0, told["topology_version"])]
    if others:
        yield "versions of neighbours " + ", ".join(others)


def as_table(look, looks=()):
    """All that is told, for a person."""
    watch, reading, told, standing = look.watch, look.reading, as_object(look, looks), dict(standing_flows(look))
    sessions = [f"{each['port']} at {each['last']}" + (" listens" if each["listens"] else "") for each in told["sessions"]]
    lines = [
        f"node {told['node']}, start {told['boot']}, topology version {told['topology_version']}: {told['state']}",
        of_turns(look),
        *of_lives(told),
        *of_versions(told),
        f"indexes {told['indexes']['left']} of {watch.total} left to reserve; this start began at {watch.index}",
        f"strays {watch.strays.total()}; requests " + (", ".join(f"{count} {word}" for word, count in told["requests"].items()) or "none"),
        "sessions " + (", ".join(sessions) or "none"),
        f"recording {reading.size} bytes, {watch.lines} lines" + (f", and {len(reading.rest)} bytes of a line that isn't whole" if reading.rest else ""),
        *(f"ATTENTION: {line}" for line in attentions(look, told, standing)),
    ]
    if watch.neighbours:
        lines += of_neighbours(look, told)
    if told["flows"]:
        lines += of_flows(told, standing)
    return "\n".join(lines) + "\n"
