"""Lets old recordings of a node's folder go, by age or size, and compresses the others where zstd is there: python3 pruning.py FOLDER DAYS [MEGABYTES]

The newest recording stays as it is, since a daemon may write it. Of the others those go that are older than DAYS days, and then the oldest until all
together have at most MEGABYTES. What is done is said, a line each.
"""

import glob
import os
import shutil
import subprocess
import sys
import time

from scripts import Refused, ends

DAY, MEGABYTE = 86_400, 1 << 20
# a file that was written so lately may be one that a daemon writes
QUIET_SECONDS = 60


def old_ones(folder):
    """The recordings that no daemon writes, the oldest first."""
    found = glob.glob(os.path.join(glob.escape(folder), "*.recording")) + glob.glob(os.path.join(glob.escape(folder), "*.recording.zst"))
    found.sort(key=os.path.getmtime)
    plain = [path for path in found if path.endswith(".recording")]
    return [path for path in found if path not in plain[-1:] and os.path.getmtime(path) < time.time() - QUIET_SECONDS]


def goes(path, why):
    print(f"{path} goes: {why}")
    os.remove(path)


def compressed(path):
    """The path of a recording after it was compressed, where it wasn't and can be."""
    if path.endswith(".zst") or not shutil.which("zstd") or subprocess.run(["zstd", "-q", "--rm", path], check=False).returncode:
        return path
    print(f"{path} is compressed")
    return path + ".zst"


def prune(folder, days, most):
    kept = []
    for path in old_ones(folder):
        if os.path.getmtime(path) < time.time() - days * DAY:
            goes(path, f"it is older than {days} days")
        else:
            kept.append(compressed(path))
    total = sum(os.path.getsize(path) for path in glob.glob(os.path.join(glob.escape(folder), "*.recording*")))
    for path in kept:
        if most is None or total <= most * MEGABYTE:
            break
        total -= os.path.getsize(path)
        goes(path, f"all recordings have more than {most} megabytes")


def main():
    words = sys.argv[1:]
    if not 2 <= len(words) <= 3 or not all(word.isdecimal() for word in words[1:]):
        sys.exit(2)
    try:
        prune(words[0], int(words[1]), int(words[2]) if len(words) == 3 else None)
    except OSError as fault:
        raise Refused(f"{fault.filename}: {fault.strerror}") from fault


if __name__ == "__main__":
    ends("spinesd-node", main)
