"""The numbers of daemons as Prometheus reads them: each with its node, its help and its type, in the text format 0.0.4."""

from frames import REL
from tables import held_up_at, turns_left
from watching import ANSWERS, HELD_UP


def of_daemon(look):
    """Rows of one daemon: a name, a type, a help, and the samples, each labels and a value."""
    watch, configuration, seconds = look.watch, look.watch.configuration, lambda milliseconds: (milliseconds or 0) / 1000
    labels = {"boot": watch.boot, "topology_version": watch.rules.versions.version, "height": configuration.topology.height}
    left = turns_left(look)
    return [
        ("info", "gauge", "What the daemon is; the value is 1.", [(labels, 1)]),
        ("boot", "gauge", "Which life of the node this is: it rises with each start.", [({}, watch.boot)]),
        ("topology_version", "gauge", "Version of the topology that the daemon runs under.", [({}, watch.rules.versions.version)]),
        ("links_withdrawn", "gauge", "Links of the topology that are withdrawn.", [({}, len(watch.rules.versions.withdrawn()))]),
        ("nodes_not_met", "gauge", "Nodes of which no start was heard yet; 0 under format 1.", [({}, len(watch.not_met()))]),
        ("life_boot", "gauge", "The life that is held of a node, under format 2.", [({"of": node}, boot) for node, boot in sorted(watch.rules.lives.items())]),
        ("turns_total", "counter", "Turns that the daemon made.", [({}, watch.turns)]),
        ("start_timestamp_seconds", "gauge", "Clock of the first turn.", [({}, seconds(watch.first_tick))]),
        ("last_turn_timestamp_seconds", "gauge", "Clock of the last turn.", [({}, seconds(watch.now))]),
        ("ended", "gauge", "Whether the recording has its end line.", [({}, int(watch.ended is not None))]),
        ("running", "gauge", "Whether somebody holds the key file of the daemon's folder.", [({}, int(bool(look.holder)))] if look.holder is not False else []),
        ("turns_left", "gauge", "Turns that are left of those that the daemon was told to make.", [({}, left[0])] if left and look.holder else []),
        ("client_sessions", "gauge", "Ports of clients that have a session, of eight.", [({}, len(watch.clients.sessions))]),
        ("failed_calls", "gauge", "Receives and sends that failed, which only the end line tells.", [({}, watch.ended[1])] if watch.ended else []),
        ("recording_bytes", "gauge", "Bytes of the recording that were read.", [({}, look.reading.size)]),
        ("indexes_limit", "gauge", "One-time indexes that the seed has.", [({}, watch.total)]),
        ("indexes_reserved", "gauge", "One-time indexes that are reserved, and never given again.", [({}, watch.bound)]),
        ("stray_datagrams_total", "counter", "Datagrams from a port that is no neighbour's.", [({}, watch.strays.total())]),
        ("client_requests_total", "counter", "Requests of clients by the first word of the reply; untold where the digest fits none that was tried.",
         [({"reply": word}, count) for word, count in sorted(watch.requests.items())]),
        ("answers_checked_total", "counter", "Answers to datagrams that were computed and had the recorded digest.", [({}, watch.right)]),
        ("answers_different_total", "counter", "Answers to datagrams that were computed and had another digest: run spinesd verify.", [({}, watch.wrong)]),
    ]


def of_neighbours(watch):
    """Rows of the neighbours."""
    near = sorted(watch.neighbours.items())
    heard = [(node, neighbour) for node, neighbour in near if neighbour.last_fresh is not None]
    return [
        ("neighbour_frames_sent_total", "counter", "Frames that were made for a neighbour.", [({"neighbour": node}, n.polls) for node, n in near]),
        ("neighbour_datagrams_total", "counter", "Datagrams of a neighbour's port by their answer.",
         [({"neighbour": node, "answer": answer}, n.answers[answer]) for node, n in near for answer in ANSWERS]),
        ("neighbour_topology_version", "gauge", "Version that is kept of a neighbour, under format 2: while it is below the own one, its document is offered.",
         [({"neighbour": node}, watch.rules.versions.kept[node]) for node, _ in near if node in watch.rules.versions.kept]),
        ("neighbour_frames_lost_total", "counter", "Frames that a neighbour made and that never came, or came too late. A busy one sends not all.",
         [({"neighbour": node}, n.lost) for node, n in near]),
        ("neighbour_bad_signatures_total", "counter", "Messages with a wrong signature that a neighbour passed on, where the digest tells it.",
         [({"neighbour": node}, n.bad_signatures) for node, n in near]),
        ("neighbour_messages_held_up_total", "counter", "Messages of a neighbour that came too early for their flow, or are of another life of an end.",
         [({"neighbour": node, "answer": word}, n.held_up[word]) for node, n in near for word in HELD_UP]),
        ("neighbour_frames_untold_total", "counter", "Fresh frames of which no digest tells what became of their messages.",
         [({"neighbour": node}, n.untold) for node, n in near]),
        ("neighbour_last_fresh_timestamp_seconds", "gauge", "Clock of the turn in which a neighbour's last fresh frame came.",
         [({"neighbour": node}, n.last_fresh / 1000) for node, n in heard]),
    ]


def of_flows(look, looks):
    """Rows of the flows."""
    watch, me, clients = look.watch, look.watch.configuration.node, look.watch.clients
    flow = lambda source, destination: {"source": source, "destination": destination}
    reports = [({**flow(*ends), "neighbour": node}, report)
               for node, n in sorted(watch.neighbours.items()) for ends, report in sorted(n.reports.items())]
    return [
        ("flow_sent_total", "counter", "Reliable messages that this node accepted of its clients.",
         [(flow(me, to), n) for to, n in sorted(clients.sent[REL].items())]),
        ("flow_delivered_total", "counter", "Reliable messages that were delivered at this node.",
         [(flow(*ends), n) for ends, n in sorted(watch.delivered.items())]),
        ("flow_taken_total", "counter", "Reliable messages that a client took here.",
         [(flow(source, me), n) for source, n in sorted(clients.taken[REL].items())]),
        ("flow_acknowledged", "gauge", "Number up to which a flow is acknowledged, by the last acknowledgement that was new here.",
         [(flow(*ends), n) for ends, n in sorted(watch.acknowledged.items())]),
        ("flow_standing_seconds", "gauge", "For how long a flow didn't move although messages of it wait here; 0 where none waits.",
         [(flow(*ends), watch.standing(ends, look.now) / 1000) for ends in watch.flows()]),
        ("flow_ended_total", "counter", "How often a flow ended here, since another life of one of its ends began or an end was removed.",
         [(flow(*ends), n) for ends, n in sorted(watch.ended_flows.items())]),
        ("flow_held_up", "gauge", "1 where a neighbour, whose daemon is told here too, answers the flow's messages so.",
         [({**flow(*ends), "neighbour": node, "answer": word}, 1) for ends in watch.flows() for node, word in held_up_at(look, ends, looks).items()]),
        ("flow_reported_base", "gauge", "Number up to which a flow is acknowledged at a neighbour, as it reported last.",
         [(labels, report[0]) for labels, report in reports]),
        ("flow_reported_have", "gauge", "Number up to which a neighbour has a flow's messages, as it reported last.",
         [(labels, report[1]) for labels, report in reports]),
    ]


def text_of(looks):
    """All rows that have a sample, each with the node that it is of."""
    rows = {}
    for look in looks:
        node = {"node": look.watch.configuration.node}
        for name, kind, told, samples in of_daemon(look) + of_neighbours(look.watch) + of_flows(look, looks):
            if samples:
                rows.setdefault((name, kind, told), []).extend(({**node, **labels}, value) for labels, value in samples)
    text = ""
    for (name, kind, told), samples in rows.items():
        text += f"# HELP spinesd_{name} {told}\n# TYPE spinesd_{name} {kind}\n"
        for labels, value in samples:
            inner = ",".join(f'{label}="{word}"' for label, word in labels.items())
            text += f"spinesd_{name}{{{inner}}} {value}\n"
    return text
