"""Random walks over whole nodes at their limits, with memory at hand: python3 .ci/walks.py PATH/TO/PROGRAM

Each walk is a schedule of as many nodes as its format has, three of them compromised, with the largest bounds: messages of 0, 1 and 1,024 bytes,
up to eight paths, weights, clocks, crafted messages, and some thousands of frames, of which some have all four sections. The 16 nodes of format 1 are
joined each with every other; each of the 32 of format 2 with the eight before it and the eight behind it in a ring, which are all 256 edges, and there
messages with crafted masks arrive too. In one more walk of format 2 nodes stop and start again, each as often as its key allows. What is asked is less than a journal: that the program ends with 0 and not with want of memory, that each event
has its one answer in its turn, that each poll made a frame, and that what was sent and delivered is what the summary says. The walks are the same on
each machine.
"""

import collections
import os
import random
import subprocess
import sys
import time

SECTIONS = 4 * 4_756
PAYLOADS = ("-", "00", "ab" * 1_024)


class Walk:
    """Events that may follow one another, drawn from a few busy flows so that frames fill up; in format 1."""

    FORMAT, NODES, REACH, BAD, WALKS, EVENTS = 1, 16, 8, (5, 11, 16), 3, 7_000
    NAME, EPOCHS = "format 1", ()

    def __init__(self, walk):
        self.walk, self.random = walk, random.Random(walk)
        self.choose = self.random.choice
        self.polled = collections.Counter()
        self.joined = {node: [other for other in self.others(node) if self.steps(node, other) <= self.REACH] for node in range(1, self.NODES + 1)}
        self.correct = [node for node in range(1, self.NODES + 1) if node not in self.BAD]
        self.hubs = [self.choose(self.correct) for _ in range(3)]

    def others(self, node):
        return [other for other in range(1, self.NODES + 1) if other != node]

    def steps(self, low, high):
        """How far two nodes are from each other in the ring."""
        return min((high - low) % self.NODES, (low - high) % self.NODES)

    def header(self):
        yield from (f"schedule {self.FORMAT}", f"seed {self.walk:064x}", "height 5", "bounds 64 256", f"nodes {self.NODES}")
        edges = [(low, high) for low, joined in self.joined.items() for high in joined if low < high]
        yield from (f"edge {low} {high} {1 + (7 * low + 3 * high + self.walk) % 20}" for low, high in edges)
        yield from (f"bad {node}" for node in self.BAD)
        yield from self.EPOCHS
        yield "begin"

    def hub(self):
        return self.choose(self.hubs) if self.random.random() < 0.7 else self.choose(self.correct)

    def frame(self):
        u, v = self.hub(), self.hub()
        if v not in self.joined[u]:
            v = self.choose(self.joined[u])
        self.polled[u, v] += 1
        yield f"poll {u} {v}"
        if v not in self.BAD:
            yield f"pass {u} {v} {self.polled[u, v]}"

    def send(self):
        s = self.hub()
        d = self.choose(self.others(s))
        if self.random.random() < 0.5:
            yield f"rel {s} {d} {self.choose(PAYLOADS)}"
        else:
            yield f"prio {s} {d} {self.random.randint(1, 10)} {self.random.randint(0, 2 ** 63)} {self.random.randint(0, 8)} {self.choose(PAYLOADS)}"

    def local(self, turn):
        u = self.hub()
        yield self.choose((
            f"tick {u} {turn}", f"take {u} {self.choose(self.others(u))}", f"takep {u}",
            f"weight {u} {self.choose(self.joined[u])} {self.random.randint(30, 1_000_000)}",
        ))

    def crafted(self):
        c, v = self.choose(self.BAD), self.choose(self.correct)
        yield f"craft {c} {v} {c} rel {c} {v} {self.random.randint(1, 3)} {self.choose(PAYLOADS)}"

    def events(self):
        count = 0
        while count < self.EVENTS:
            draw = self.random.random()
            more = self.frame() if draw < 0.62 else self.send() if draw < 0.8 else self.local(count) if draw < 0.97 else self.crafted()
            for event in more:
                count += 1
                yield event


class SecondWalk(Walk):
    """The same in format 2, where hubs are neighbours, and crafted messages have masks of 64 digits."""

    FORMAT, NODES, REACH, BAD, WALKS, EVENTS = 2, 32, 8, (9, 20, 32), 3, 5_000
    NAME = "format 2"

    def __init__(self, walk):
        super().__init__(walk)
        self.hubs[1:] = self.random.sample([node for node in self.joined[self.hubs[0]] if node not in self.BAD], 2)

    def crafted(self):
        c = self.choose(self.BAD)
        v = self.choose([node for node in self.joined[c] if node not in self.BAD])
        d = self.choose(self.others(c))
        number, mask, payload = self.random.randint(1, 30), self.random.getrandbits(256), self.choose(PAYLOADS)
        yield self.choose((
            f"craft {c} {v} {c} rel {c} {d} {self.random.randint(1, 3)} {payload}",
            f"craft {c} {v} {c} prio {c} {d} {number} {self.random.randint(1, 10)} {self.random.randint(0, 2 ** 63)} {mask:064x} {payload}",
        ))


class LivesWalk(SecondWalk):
    """The same with nodes that stop and start again. A node of height 5 starts 32 times: each start takes 32 of its 1,024 indexes."""

    WALKS, NAME, EPOCHS, STARTS = 1, "format 2 with restarts", ("epochs",), 32

    def __init__(self, walk):
        super().__init__(walk)
        self.left = {node: self.STARTS - 1 for node in self.correct}

    def events(self):
        yield from (f"start {node}" for node in self.correct)
        for event in super().events():
            if self.random.random() < 0.02:
                node = self.hub()
                if self.left[node]:
                    self.left[node] -= 1
                    yield from (f"stop {node}", f"start {node}")
            yield event


def wrong_in(events, output):
    """What is wrong with a journal, if anything."""
    lines = output.decode().split("\n")[1:-1]
    answers = [line for line in lines[:-1] if not line.startswith("+ ")]
    polls = [answer for answer in answers if answer.split(" ")[1] == "frame"]
    if [answer.split(" ")[0] for answer in answers] != [str(number) for number in range(1, len(events) + 1)]:
        return "not each event has its one answer in its turn"
    if len(polls) != sum(event.startswith("poll") for event in events):
        return "a poll made no frame"
    if not any(int(answer.split(" ")[3]) > SECTIONS for answer in polls):
        return "no frame has all four sections"
    sent = sum(event.startswith("rel") and answer.split(" ")[1] == "accepted" for event, answer in zip(events, answers))
    counts = (len(events), sent, sum(line.startswith("+ delivered rel") for line in lines), sum(line.startswith("+ delivered prio") for line in lines), len(polls))
    wanted = "summary events %d sent %d delivered %d priority %d frames %d" % counts
    return None if lines[-1] == wanted else f"{lines[-1]}, wanted {wanted}"


def tried(program, walk):
    """How many frames a walk made, and what is wrong with it, if anything."""
    events = list(walk.events())
    text = "\n".join([*walk.header(), *events, "end", ""]).encode()
    ended = subprocess.run([program, "replay"], input=text, stdout=subprocess.PIPE, check=False)
    fault = wrong_in(events, ended.stdout) if ended.returncode == 0 else f"status {ended.returncode}"
    return ended.stdout.count(b" frame "), fault


def main():
    if len(sys.argv) != 2:
        sys.exit("usage: python3 .ci/walks.py PATH/TO/PROGRAM")
    wrong = 0
    for kind in (Walk, SecondWalk, LivesWalk):
        begin, frames = time.monotonic(), 0
        for number in range(1, kind.WALKS + 1):
            made, fault = tried(os.path.abspath(sys.argv[1]), kind(number))
            frames, wrong = frames + made, wrong + (fault is not None)
            if fault:
                print(f"walk {number} of {kind.NAME}: {fault}")
        print(f"{kind.WALKS} walks of {kind.NAME} with {kind.EVENTS} events, {frames} frames, {time.monotonic() - begin:.0f} s")
    print(f"{wrong} walks went wrong")
    sys.exit(1 if wrong else 0)


if __name__ == "__main__":
    main()
