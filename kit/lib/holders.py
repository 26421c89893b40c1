"""Whether a daemon runs in a node's folder: who holds its key file, and how many turns he was told to make. No lock is taken for it."""

import collections
import os

KEY_FILE = "spinesd.keys"
LOCKS = "/proc/locks"
# what a daemon is told where nothing else is known: the greatest number of turns
MOST_TURNS = 10_000_000

Holder = collections.namedtuple("Holder", "pid turns")


def holder_of(folder):
    """Who holds the key file of a folder, None where nobody does, and False where the system doesn't tell."""
    try:
        inode = os.stat(os.path.join(folder, KEY_FILE)).st_ino
        with open(LOCKS, encoding="ascii") as file:
            rows = [line.split() for line in file]
    except FileNotFoundError:
        return None if os.path.exists(LOCKS) else False
    except OSError:
        return False
    for row in rows:
        if row[1:2] == ["FLOCK"] and row[5].rsplit(":", 1)[-1] == str(inode):
            return Holder(int(row[4]), turns_of(row[4]))
    return None


def turns_of(pid):
    """The number after --turns in the words of a process."""
    try:
        with open(f"/proc/{pid}/cmdline", encoding="utf-8", errors="replace") as file:
            words = file.read().replace("=", "\0").split("\0")
    except OSError:
        return MOST_TURNS
    after = words[words.index("--turns") + 1:] if "--turns" in words else []
    return int(after[0]) if after and after[0].isdecimal() else MOST_TURNS
