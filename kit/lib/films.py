"""A film is what the page of `spinesd-view` shows: the overlay, and one step after another with all that can be seen of it.

A step has the fields of STEP. A frame that a step makes or brings is named by its direction and a number or digest, so that its way can be followed.
"""

import re

import frames

# the node that acts, its kind, the line that says what happens, the lines that say what came of it, the frame that is made or arrives,
# changes of flows, what is seen at a node, and a word for the time line
STEP = ("node", "kind", "line", "said", "frame", "flows", "seen", "mark")
REFUSED = {
    "full", "spent", "expired", "nopaths", "tickspent", "ticknotreserved", "low", "toolong", "short", "magic", "version", "notforme", "badtag",
    "stale", "topology", "section", "withdrawn", "exhausted", "down", "badend", "notreserved", "badrequest", "sessionsfull", "busy",
}
REFUSED_OBJECTS = {"bad", "badsig", "badend", "epoch", "offmask", "foreign", "low", "ahead", "gap", "full", "inboxfull", "expired", "strange"}
OBJECT = re.compile(r"\b(weight|prio|k?ack|k?rel|epoch|document):(\w+|\?)")
# what tells that a flow of a kind ended
ENDED = {"ended": frames.REL, "kended": frames.KREL}


def objects_of(reply):
    """The kinds of the objects that a frame carried, by the words of its answer."""
    return [kind for kind, _ in OBJECT.findall(reply)]


def is_refused(reply):
    """Whether an answer says that something wasn't taken. Repeats that are `old` or `seen` are none, and neither is a node's own start that comes back."""
    objects = [word for kind, word in OBJECT.findall(reply) if (kind, word) != ("epoch", "badend")]
    return reply.split(" ")[0] in REFUSED or any(word in REFUSED_OBJECTS for word in objects)


def of_signed(body, version):
    """What a signature of a format does to the tables: a kind, two nodes, and a number."""
    kind, told, _ = frames.body_of(body, version) or ("", {}, b"")
    if kind in (frames.REL, frames.KREL, "prio"):
        return [kind, told["src"], told["dst"], "sent", told["seq"]]
    return [frames.FLOW_OF[kind], told["src"], told["dst"], "acknowledged", told["seq"]] if kind in frames.FLOW_OF else None


def of_effects(node, said, version):
    """What the effects of a step do to the tables, what is seen of them at the node, and the greatest of them for the time line."""
    flows, seen = [], []
    for line in said:
        words = line.split(" ")
        if words[:2] == ["+", "signed"] and (change := of_signed(bytes.fromhex(words[2]), version)):
            flows.append(change)
            seen.append("acknowledged" if change[3] == "acknowledged" else "sent")
        elif words[:2] == ["+", "delivered"]:
            flows.append([words[2], int(words[3]), node, "delivered", int(words[4])])
            seen.append("delivered")
        elif words[:2] == ["+", "gone"] and words[4] in ("evicted", "expired", "withdrawn"):
            seen.append(words[4])
        elif words[0] == "+" and words[1] in ENDED:
            ends = int(words[2]), int(words[3])
            flows += [[ENDED[words[1]], *ends, "ended", 0]] if node in ends else []
            seen.append("ended")
        elif words[:2] == ["+", "version"]:
            seen.append("version")
    return flows, seen


def mark_of(said, seen):
    """The word of a step for the time line; an empty one where nothing is to be marked."""
    for word in ("delivered", "version", "ended", "evicted", "expired", "withdrawn"):
        if word in seen:
            return word
    if said and is_refused(re.sub(r"^\d+ ", "", said[0])):
        return "refused"
    return next((word for word in ("sent", "acknowledged") if word in seen), "")


def film(title, nodes, bad, edges, steps, last, left_out=0):
    """The film as data for the page."""
    return {"title": title, "nodes": nodes, "bad": bad, "edges": edges, "fields": STEP, "steps": steps, "last": last, "left_out": left_out}
