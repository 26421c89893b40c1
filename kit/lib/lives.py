"""The lives of a node: the recordings that stand beside each other in its folder, each verified, with its boot and its indexes: python3 lives.py FOLDER

The program is the environment's SPINESD. Of a recording that is longer than the program reads, the beginning is verified, which is a recording too.
"""

import collections
import glob
import os
import re
import subprocess
import sys

from scripts import Refused, ends, program_of, read

# how many bytes `spinesd verify` reads, with the configuration
MOST_BYTES = 1 << 26
FIRST = re.compile(rb"recording 1 (\d+) (\d+) (\d+)")
RESERVE = re.compile(rb"^reserve (\d+)$", re.MULTILINE)

# a recording's file, the life that it is of, the indexes that it may sign with, from the first to the bound, and its whole lines as far as they are read;
# one that has no first line is of no life
Life = collections.namedtuple("Life", "path boot first bound text is_whole")


def beginning(path, most):
    """The first bytes of a recording, which may be compressed, and whether these are all."""
    if not path.endswith(".zst"):
        text = read(path, most + 1)
    else:
        with subprocess.Popen(["zstd", "-dcq", path], stdout=subprocess.PIPE, stderr=subprocess.DEVNULL) as child:
            text = child.stdout.read(most + 1)
            child.stdout.close()
    return text[:most], len(text) <= most


def life_of(path, most):
    """The life that a file is of."""
    text, is_whole = beginning(path, most)
    text = text[:text.rfind(b"\n") + 1]
    found = FIRST.match(text)
    if not found:
        return Life(path, 0, 0, 0, text, is_whole)
    boot, first, bound = map(int, found.groups())
    return Life(path, boot, first, max([bound, *map(int, RESERVE.findall(text))]), text, is_whole)


def paths_in(folder):
    """The files of a node's recordings."""
    return [path for end in ("recording", "recording.zst") for path in glob.glob(os.path.join(glob.escape(folder), f"*.{end}"))]


def lives_in(folder, most=MOST_BYTES):
    """The lives of a node's folder, ascending, and before them what is of none."""
    return sorted((life_of(path, most) for path in paths_in(folder)), key=lambda life: (life.boot, life.path))


def told_twice(lives):
    """A sentence for each pair of lives, one after the other, that have a boot or an index in common."""
    true = [life for life in lives if life.boot]
    for before, after in zip(true, true[1:]):
        if before.boot == after.boot or after.first < before.bound:
            yield (f"{os.path.basename(after.path)} begins with boot {after.boot} and index {after.first}, and {os.path.basename(before.path)} had boot "
                   f"{before.boot} and the indexes below {before.bound}: an older key file was put back (docs/GUIDE.md)")


def configurations_in(folder):
    """The configurations of a node's folder: that of its next start, and those before it, the last first."""
    path = os.path.join(folder, "spinesd.conf")
    before = [each for each in glob.glob(glob.escape(path) + ".*") if each[len(path) + 1:].isdecimal()]
    return [read(each) for each in [path, *sorted(before, key=lambda each: -int(each[len(path) + 1:]))]]


def verified(program, configurations, life):
    """The status and the last line of `spinesd verify` for one life, under the configuration that it began with: where none fits, under the first."""
    said = []
    for configuration in configurations:
        ended = subprocess.run([program, "verify"], input=configuration + life.text, stdout=subprocess.PIPE, check=False)
        said.append((ended.returncode, ended.stdout.decode("ascii", "replace").strip()))
        if ended.returncode == 0:
            return said[-1]
    return said[0]


def verify(folder):
    """Verifies all lives, and tells each; gives the first status that isn't good."""
    program, configurations = program_of(None), configurations_in(folder)
    lives, good, worst = lives_in(folder, MOST_BYTES - max(map(len, configurations))), 0, 0
    for life in lives:
        name = os.path.basename(life.path)
        if not life.boot:
            said = "a start that failed, with the last line `" + life.text.decode("ascii", "replace").strip()[:60] + "`" if life.text else "a start that was cut"
            print(f"no life, {name}: {said}", flush=True)
            continue
        status, said = verified(program, configurations, life)
        good, worst = good + (status == 0), worst or status
        print(f"life {life.boot}, {name}: {said}" + ("" if life.is_whole else f", of its first {len(life.text):,} bytes"), flush=True)
    twice = list(told_twice(lives))
    for line in twice:
        print(line)
    print(f"{good} of {sum(life.boot > 0 for life in lives)} lives verified")
    return worst or int(bool(twice))


def main():
    if len(sys.argv) != 2:
        sys.exit(2)
    status = verify(sys.argv[1])
    if status == 10:
        raise Refused("a recorded answer isn't the node's, or the recording is of another release or another configuration: `spinesd-explain 10`", 10)
    sys.exit(status)


if __name__ == "__main__":
    ends("spinesd-node", main)
