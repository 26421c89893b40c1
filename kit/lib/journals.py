"""A film of a schedule and its journal: each event with what the journal says of it."""

import re

import films

ENTRY = re.compile(r"(\d+) (.+)")
# how many nodes a schedule has at most, by its first line
MOST_NODES = {"schedule 1": 16, "schedule 2": 32}


class NoJournal(Exception):
    """The files aren't a schedule and its journal; the text says why."""


def schedule_of(text):
    """The format, the nodes, those that are compromised, the edges, and the events of a schedule."""
    lines = text.decode("ascii", "replace").split("\n")
    if lines[0] not in MOST_NODES or "begin" not in lines:
        raise NoJournal("the first file is no schedule: it begins with `schedule 1` or `schedule 2` and has a line `begin`")
    begin = lines.index("begin")
    header = [line.split(" ") for line in lines[:begin]]
    numbers = lambda name: [[int(word) for word in words[1:]] for words in header if words[0] == name and "".join(words[1:]).isdecimal()]
    nodes = numbers("nodes")
    if not nodes or nodes[0][0] > MOST_NODES[lines[0]]:
        raise NoJournal(f"the schedule has no line `nodes N` with {MOST_NODES[lines[0]]} nodes at most")
    end = lines.index("end", begin) if "end" in lines[begin:] else len(lines) - 1
    return int(lines[0][-1]), list(range(1, nodes[0][0] + 1)), [words[0] for words in numbers("bad")], numbers("edge"), lines[begin + 1:end]


def entries_of(text):
    """The entries of a journal, each a reply and its effects, and the last line."""
    lines = text.decode("ascii", "replace").split("\n")
    if lines[:1] != ["journal 1"] or lines[-1:] != [""]:
        raise NoJournal("the second file is no journal: it begins with `journal 1`, and its last line has a newline")
    entries, last = [], ""
    for line in lines[1:-1]:
        found = ENTRY.fullmatch(line)
        if found and int(found.group(1)) == len(entries) + 1:
            entries.append([line])
        elif line.startswith("+ ") and entries:
            entries[-1].append(line)
        else:
            last = line
    return entries, last


def is_down(entry):
    """Whether the node that was to act didn't run, or the frame that was to arrive wasn't made: then nothing arrived."""
    return entry[0].endswith(" down")


def first_words(events, entries):
    """What is answered to each frame when it first arrives, by direction and number."""
    words = {}
    for event, entry in zip(events, entries):
        name, *rest = event.split(" ")
        if name in ("pass", "flip") and not is_down(entry):
            words.setdefault((rest[0], rest[1], rest[2]), entry[0].split(" ", 1)[1])
    return words


def frame_of(event, entry, words):
    """The frame that an event makes or brings: how, from, to, its name, and what it carries."""
    name, *rest = event.split(" ")
    reply = entry[0].split(" ", 1)[1]
    if is_down(entry):
        return None
    if name == "poll" and reply.startswith("frame "):
        number = reply.split(" ")[1]
        answer = words.get((rest[0], rest[1], number))
        return ["lost" if answer is None else "made", int(rest[0]), int(rest[1]), number, films.objects_of(answer or "")]
    if name in ("pass", "flip"):
        return ["arrives", int(rest[0]), int(rest[1]), rest[2], films.objects_of(reply)]
    if name in ("inject", "craft"):
        return ["crafted", int(rest[0]), int(rest[1]), "", films.objects_of(reply)]
    return None


def acting(event):
    """The node that acts at an event: for an arrival its receiver."""
    name, *rest = event.split(" ")
    return int(rest[1] if name in ("pass", "flip", "inject", "craft") else rest[0])


def film_of(title, schedule, journal):
    """The film of a schedule with its journal."""
    version, nodes, bad, edges, events = schedule_of(schedule)
    entries, last = entries_of(journal)
    if len(entries) > len(events):
        raise NoJournal(f"the journal has {len(entries)} entries, and the schedule {len(events)} events: it is another one's")
    words, steps = first_words(events, entries), []
    for event, entry in zip(events, entries):
        node = acting(event)
        flows, seen = films.of_effects(node, entry[1:], version)
        steps.append([node, event.split(" ")[0], event, entry, frame_of(event, entry, words), flows, seen, films.mark_of(entry, seen)])
    if last.startswith("forged ") and len(events) > len(entries):
        event = events[len(entries)]
        frame = [*(frame_of(event, ["0 "], words) or ["arrives", 0, 0, "", []])]
        steps.append([acting(event), event.split(" ")[0], event, [last], frame, [], ["forged"], "forged"])
    return films.film(title, nodes, bad, edges, steps, last)
