"""The lines of a recording, also of one that grows: a cut last line is left out, and a line that isn't right is told by its number."""

import collections
import glob
import os
import re

MARK = b"recording 1"
DIGEST = rb"([0-9a-f]{64})"
# whose digits are whole pairs is seen when they are read
HEX = rb"(-|[0-9a-f]+)"
FORMS = {
    "recording": re.compile(rb"recording 1 (\d+) (\d+) (\d+)"),
    "tick": re.compile(rb"tick (\d+) " + DIGEST),
    "overlay": re.compile(rb"overlay (\d+) " + HEX + b" " + DIGEST),
    "stray": re.compile(rb"stray (\d+)"),
    "client": re.compile(rb"client (\d+) " + HEX + b" " + DIGEST),
    "poll": re.compile(rb"poll (\d+) " + DIGEST),
    "reserve": re.compile(rb"reserve (\d+)"),
    "end": re.compile(rb"end turns (\d+) lost (\d+)"),
}
Line = collections.namedtuple("Line", "place name numbers data digest")


class BadLine(Exception):
    """A line that no recording has; the text says where."""


def line_of(place, text):
    """One line: its numbers, its bytes where it has some, and its digest where it has one."""
    name = text.split(b" ", 1)[0].decode("ascii", "replace")
    found = FORMS[name].fullmatch(text) if name in FORMS else None
    words = list(found.groups()) if found else []
    digest = words.pop() if found and name in ("tick", "overlay", "client", "poll") else None
    data = words.pop() if found and name in ("overlay", "client") else None
    if found is None or (data and data != b"-" and len(data) % 2):
        raise BadLine(f"line {place} isn't a line of a recording: {text[:60].decode('ascii', 'replace')}")
    return Line(place, name, [int(word) for word in words], None if data is None else bytes.fromhex(data.decode().strip("-")), digest)


def lines_of(text, first=1):
    """The whole lines of a recording, and how many bytes of a line that isn't whole yet stand after them."""
    whole = text.rfind(b"\n") + 1
    lines = [line_of(first + place, line) for place, line in enumerate(text[:whole].split(b"\n")[:-1])]
    if lines and lines[0].name != "recording":
        raise BadLine(f"line {first} isn't the first line of a recording")
    for line in lines[1:]:
        if line.name == "recording" or (line.name == "end" and line is not lines[-1]):
            raise BadLine(f"line {line.place} can't stand there")
    return lines, len(text) - whole


def breaks_off(text):
    """Whether this is a line of a recording, or the beginning of one, at which it breaks off."""
    name, space, _ = text.partition(b" ")
    names = [each.encode() for each in FORMS]
    return name in names if space else any(each.startswith(text) for each in names)


def begins(path):
    """Whether a file begins as a recording. One of a daemon that couldn't start has its last line alone, as `keeper`."""
    with open(path, "rb") as file:
        return file.read(len(MARK)) == MARK


def newest_in(folder, count=1):
    """The newest recordings of a node's folder, at most so many, the oldest first."""
    found = [path for path in glob.glob(os.path.join(glob.escape(folder), "*.recording")) if begins(path)]
    return sorted(found, key=os.path.getmtime)[-count:]


def split(text):
    """A configuration and the recording after it, as `spinesd verify` reads them; the recording is empty where none begins."""
    at = 0 if text.startswith(MARK) else text.find(b"\n" + MARK) + 1
    return (text[:at], text[at:]) if at or text.startswith(MARK) else (text, b"")
