"""Every way in which a command ends: the table of endings.md, and which row a last line or a status belongs to."""

import collections
import os
import re

TABLE = os.path.join(os.path.dirname(os.path.abspath(__file__)), "..", "endings.md")
COMMANDS = ("replay", "generate", "paths", "topology", "format", "daemon", "verify", "ask")
PLACE = re.compile(r"[A-Z][A-Z0-9]*(?:\.\.)?")
# what a word in capitals stands for; all others stand for a decimal
WORDS = {
    "HEX": r"-|(?:[0-9a-f]{2})+", "DIGEST": r"[0-9a-f]{64}", "RECORDED": r"[0-9a-f]{64}", "COMPUTED": r"[0-9a-f]{64}",
    "PATHS": "[1-8]", "KEY": r".*", "KEY120": r"[0-9a-f]{120}", "PARTS..": r"[0-9+ -]+", "LINE": r"[1-9]\d*",
}

Ending = collections.namedtuple("Ending", "commands status line means do")


def endings():
    """The rows of the table."""
    rows = []
    with open(TABLE, encoding="utf-8") as file:
        lines = file.read().splitlines()
    for line in lines:
        cells = [cell.strip() for cell in line.split(" | ")]
        if line.startswith("| ") and len(cells) == 5 and cells[1] != "Status":
            commands = COMMANDS if cells[0] == "| all" else tuple(cells[0].removeprefix("| ").split(", "))
            rows.append(Ending(commands, cells[1], None if cells[2] == "nothing" else cells[2].strip("`"), cells[3], cells[4].removesuffix(" |")))
    return rows


def values_in(ending, line):
    """What the words in capitals of an ending stand for in this line; None where the line isn't this ending."""
    if ending.line is None:
        return None
    names, pattern = [], ""
    for word in ending.line.split(" "):
        if PLACE.fullmatch(word):
            names.append(word)
            pattern += f" ({WORDS.get(word, '[0-9]+')})"
        else:
            pattern += " " + re.escape(word)
    found = re.fullmatch(pattern[1:], line)
    return dict(zip(names, found.groups())) if found else None


def is_of_status(ending, status):
    low, _, high = ending.status.partition(" to ")
    return int(low) <= status <= int(high or low)


def of_line(rows, line):
    """The rows that have this last line, each with what its words in capitals stand for."""
    return [(row, values) for row in rows for values in [values_in(row, line)] if values is not None]


def filled(text, values):
    """A sentence with the values in the places of their names."""
    return re.sub(r"\b[A-Z][A-Z0-9]*\b", lambda name: values.get(name.group(0), name.group(0)), text)
