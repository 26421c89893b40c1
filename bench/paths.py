"""What a reliable message costs over 1, 2, 4 and 8 paths, and flooded: python3 bench/paths.py PATH/TO/spinesd

Sixteen nodes stand in a ring, each joined with the four before it and the four behind it. Node 1 sends messages of 64 bytes to node 9, eight links on either
way. In a round each node makes a frame for each neighbour, all of them arrive, the destination takes, and all clocks go on. Some nodes are cut: no frame comes
to them or from them. Counted from the journal, up to the round in which the last message arrives: how often a message or an acknowledgement went over a link,
how many signatures were checked for them, and the bytes of frames above those of empty ones. Nothing is judged.
"""

import collections
import os
import subprocess
import sys
import tempfile

NODES, REACH, SOURCE, TARGET, MESSAGES, ROUNDS = 16, 4, 1, 9, 8, 24
EMPTY = 79
CHECKED = ("new", "badsig")
CUTS = {"no node cut": (), "node 5 cut": (5,), "nodes 5 and 13 cut": (5, 13)}
LINKS = sorted({tuple(sorted((node, (node + step - 1) % NODES + 1))) for node in range(1, NODES + 1) for step in range(1, REACH + 1)})
HEADER = f"schedule 2\nseed {'00' * 32}\nheight 10\nbounds 16 4\nnodes {NODES}\n" + "".join(f"edge {a} {b} 10\n" for a, b in LINKS) + "begin\n"

Cost = collections.namedtuple("Cost", "arrived rounds carried acknowledgements checks bytes")


def events(paths, cut):
    """The lines of a run, and for each the round that it is of. No number of paths is a flood."""
    send, take = (f"krel {SOURCE} {TARGET} {paths}", "ktake") if paths else (f"rel {SOURCE} {TARGET}", "take")
    lines = [(0, f"{send} {number:02x}{'5a' * 63}") for number in range(MESSAGES)]
    ways = [way for a, b in LINKS for way in ((a, b), (b, a)) if a not in cut and b not in cut]
    for each in range(1, ROUNDS + 1):
        lines += [(each, f"poll {u} {v}") for u, v in ways] + [(each, f"pass {u} {v} {each}") for u, v in ways]
        lines += [(each, f"{take} {TARGET} {SOURCE}")] * MESSAGES + [(each, f"tick {node} {1_000 * each}") for node in range(1, NODES + 1) if node not in cut]
    return lines


def entries(program, lines):
    """The entries of the journal of these lines: a reply with its effects for each."""
    with tempfile.TemporaryFile() as given:
        given.write((HEADER + "".join(line + "\n" for _, line in lines) + "end\n").encode())
        given.seek(0)
        journal = subprocess.run([program, "replay"], stdin=given, capture_output=True, check=True).stdout.decode().split("\n")
    found = []
    for line in journal[1:]:
        if line.startswith("+ "):
            found[-1][1].append(line)
        elif line[:1].isdigit():
            found.append((line.split(" ")[1:], []))
    return found


def cost(program, paths, cut):
    """What the messages of a run cost until the last of them arrives."""
    lines = events(paths, cut)
    told = list(zip(lines, entries(program, lines)))
    arrivals = [number for (number, _), (_, effects) in told for effect in effects if effect.startswith(("+ delivered rel", "+ delivered krel"))]
    last = arrivals[-1] if len(arrivals) == MESSAGES else ROUNDS
    carried, checks, more = collections.Counter(), 0, 0
    for (number, _), (reply, _) in told:
        if number <= last and reply[0] == "frame":
            more += int(reply[2]) - EMPTY
        for kind, word in (item.split(":") for item in reply[1:] if number <= last and reply[0] == "fresh"):
            carried[kind.removeprefix("k")] += 1
            checks += word in CHECKED
    return Cost(len(arrivals), last, carried["rel"], carried["ack"], checks, more)


def main():
    if len(sys.argv) != 2:
        sys.exit("usage: python3 bench/paths.py PATH/TO/spinesd")
    program = os.path.abspath(sys.argv[1])
    for name, cut in CUTS.items():
        for paths in (1, 2, 4, 8, 0):
            each = cost(program, paths, cut)
            way = f"{paths} paths" if paths else "flooded"
            print(f"{name}, {way}: {each.arrived} of {MESSAGES} arrived in {each.rounds} rounds; messages over links {each.carried}, "
                  f"acknowledgements {each.acknowledgements}, checks {each.checks}, bytes {each.bytes}", flush=True)


if __name__ == "__main__":
    main()
