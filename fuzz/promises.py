"""What each status promises of an output, and whether an output keeps it; nothing here is of the program, all is counted anew."""

import os
import re
import sys

sys.path.insert(0, os.path.join(os.path.dirname(os.path.abspath(__file__)), "..", "kit", "lib"))

from endings import endings, is_of_status, values_in  # noqa: E402

ROWS = endings()
# the statuses that a command may end with where its input can be read, its output be written, and memory suffices
STATUSES = {"replay": (0, 3, 4), "paths": (0, 3, 12), "topology": (0, 3), "verify": (0, 3, 10), "daemon": (0, 3, 7, 8, 13)}
ENTRY = re.compile(rb"([1-9]\d*) ([a-z]+)((?: [a-z0-9:-]+)*)")
EFFECT = re.compile(rb"\+ (signed [0-9a-f]+|stored \d+ \d+ \d+ \d+ \d+|gone \d+ \d+ (evicted|expired|acked|taken|withdrawn)|"
                    rb"delivered (rel|krel|prio) \d+ \d+ (-|[0-9a-f]+)|weight \d+ \d+ \d+ \d+|version \d+|k?ended \d+ \d+)")
DIGESTED = re.compile(rb"(?:tick|overlay|client|poll) .*([0-9a-f]{64})")


class Broken(Exception):
    """An output that its status doesn't allow; the text says what is wrong."""


def need(is_so, told):
    if not is_so:
        raise Broken(told)


def last_line(command, status, output):
    """The last line is one of the table of endings, for this command and this status."""
    need(output.endswith(b"\n"), "the output doesn't end with a newline")
    if re.match(rb"refused 0 (Unknown|Missing|Range) ", output) and command not in ("replay", "paths"):
        return
    line = output[:-1].split(b"\n")[-1].decode("ascii", "replace")
    fits = [row for row in ROWS if command in row.commands and is_of_status(row, status) and values_in(row, line) is not None]
    need(fits, f"no ending of {command} with status {status}: {line[:200]}")


class Journal:
    """The lines of a journal, counted."""

    def __init__(self, output):
        lines = output[:-1].split(b"\n")
        self.last, self.entries, self.sent, self.delivered, self.priority, self.frames = lines[-1], 0, 0, 0, 0, 0
        need(lines[0] == b"journal 1", "the first line isn't `journal 1`")
        before = b""
        for line in lines[1:-1]:
            if line.startswith(b"+ "):
                need(self.entries and EFFECT.fullmatch(line), f"no effect: {line[:200]!r}")
                self.sent += b" accepted " in before and line.startswith(b"+ signed 02")
                self.delivered += line.startswith(b"+ delivered rel ")
                self.priority += line.startswith(b"+ delivered prio ")
            else:
                found = ENTRY.fullmatch(line)
                need(found and int(found.group(1)) == self.entries + 1, f"no entry {self.entries + 1}: {line[:200]!r}")
                self.entries += 1
                self.frames += found.group(2) == b"frame"
            before = line

    def summary(self):
        told = (self.entries, self.sent, self.delivered, self.priority, self.frames)
        return b"summary events %d sent %d delivered %d priority %d frames %d" % told


def of_replay(given, status, output, words):
    lines = given.split(b"\n")
    begin = lines.index(b"begin") + 1 if b"begin" in lines else len(lines) + 1
    if status == 3 and output.count(b"\n") == 1:
        place = int(output.split()[1])
        need(place <= begin, "a bad header is told behind `begin`")
        return
    journal = Journal(output)
    if status == 0:
        need(journal.last == journal.summary(), f"the summary is {journal.last!r}, counted was {journal.summary()!r}")
        need(given.endswith(b"\nend\n") and journal.entries == len(lines) - begin - 2, "events and entries differ in number")
    elif status == 3:
        place = int(journal.last.split()[1])
        events = lines[begin:place - 1]
        need(b"end" not in events[:-1], "the line after `end` is the first bad one")
        need(journal.entries == len(events) - (events[-1:] == [b"end"]), "the events before the bad line and the entries differ in number")
    else:
        need(journal.entries == int(journal.last.split()[1]) - 1, "the events before the forged one and the entries differ in number")


def option(words, name):
    """The number of an option, which is given as one word or as two."""
    text = "=".join(words)
    return int(re.search(rf"{name}=(\d+)", text).group(1))


def of_paths(given, status, output, words):
    lines = output[:-1].split(b"\n")
    wanted, ends = option(words, "--paths"), [option(words, name) for name in ("--from", "--to")]
    if status == 12:
        need(len(lines) == 2 and int(lines[0].split()[1]) < wanted and lines[1].startswith(b"cut "), "no `fewer` and `cut`")
    if status != 0:
        return
    weights = {tuple(map(int, line.split()[1:3])): int(line.split()[3]) for line in given.split(b"\n") if line.startswith(b"edge ")}
    paths = [[int(node) for node in line.split()[1:]] for line in lines[:-1]]
    inner = [node for path in paths for node in path[1:-1]]
    steps = [(min(pair), max(pair)) for path in paths for pair in zip(path, path[1:])]
    need(len(paths) == wanted and paths == sorted(paths), "not so many paths, or not in order")
    need(all([path[0], path[-1]] == ends for path in paths), "a path leads elsewhere")
    need(len(set(inner)) == len(inner) and not set(inner) & set(ends) and len(set(steps)) == len(steps), "two paths share something")
    need(all(step in weights for step in steps), "a step is no edge")
    need(int(lines[-1].split()[1]) == sum(weights[step] for step in steps), "the cost isn't that of the edges")


def of_topology(given, status, output, words):
    if status == 0:
        need(re.fullmatch(rb"4d544d5701[0-9a-f]{300,}\n[0-9a-f]{120}\n", output), "no document and no key")
    else:
        need(output.startswith(b"refused 0 "), "no refusal")


def of_verify(given, status, output, words):
    lines = given.split(b"\n")
    first = next((place for place, line in enumerate(lines) if line.startswith(b"recording 1")), len(lines))
    digested = [DIGESTED.fullmatch(line) for line in lines]
    if status == 0:
        need(int(output.split()[1]) == sum(found is not None for found in digested[first:]), "the digests that were verified aren't so many")
    elif status == 10:
        _, place, recorded, computed = output.split()
        at = int(place) - 1
        need(first < at < len(lines) and digested[at] and digested[at].group(1) == recorded != computed, "the line that is told has no such digest")


def of_daemon(given, status, output, words):
    if status == 0:
        lines = output[:-1].split(b"\n")
        need(re.fullmatch(rb"recording 1 \d+ \d+ \d+", lines[0]) and re.fullmatch(rb"end turns 1 lost \d+", lines[-1]), "no recording of one turn")
        need(sum(line.startswith(b"tick ") for line in lines) == 1, "not one tick")
    else:
        need(output.count(b"\n") == 1 or status == 3, "more than one line")


def command_of(words):
    """The command of these words, which may stand behind its options."""
    return next(word for word in words if word in STATUSES)


def keeps(words, given, status, output):
    """Judges an output; `Broken` where it isn't what its status promises."""
    command = command_of(words)
    need(status in STATUSES[command], f"status {status}")
    last_line(command, status, output)
    {"replay": of_replay, "paths": of_paths, "topology": of_topology, "verify": of_verify, "daemon": of_daemon}[command](given, status, output, words)


def cut_keeps(output, cut_output):
    """The journal of a cut schedule is a beginning of the whole one's, and then the refusal."""
    body = cut_output[:cut_output[:-1].rfind(b"\n") + 1]
    need(cut_output[len(body):].startswith(b"refused ") and output.startswith(body), "a cut schedule's journal isn't a beginning of the whole one's")
