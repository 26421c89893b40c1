"""A month without an operator, in minutes: python3 bench/month.py PATH/TO/spinesd [--short] [--rounds N] [--kills N] [--seed N] [--keep]

Ten daemons in a ring with chords, under format 2, as spinesd-keys makes and spinesd-node runs them. A client at each node sends numbered reliable and priority
messages to all others, and takes what comes. Daemons are killed at random moments; some make few turns and end by themselves; the disks of some are full;
strays flood ports, and clocks jump. Each daemon is started again after each end. Two are spared all this. Then an administrator restarts some of the others,
one after another. Four such rounds, each of new keys, have 200 kills; --short is one of 20 kills, which takes a minute on a machine of four free cores.

It judges, by the recordings of all lives: in each pair of lives what arrived is a front of what was accepted, each once and in order; between nodes that
stayed up, and between the last lives, all of it arrived; no key signed twice; every recording verifies; and each flow moves again after the last restart. How
long that takes is told as a table, with what the time cost in starts, indexes and disk. Its status is 1 where something is wrong.

Ports are free ones of 127.0.0.1, and all files lie in a temporary folder that is removed; --keep leaves it. It needs a C compiler, `cc`, for clocks that jump.
"""

import argparse
import collections
import os
import random
import shutil
import signal
import statistics
import subprocess
import sys
import tempfile
import time

import month_clients
import month_daemons
import month_judge

NODES, HEIGHT = 10, 5
GRAPH = NODES, sorted([(node, node + 1, 10) for node in range(1, NODES)] + [(1, NODES, 10), (1, 6, 15), (3, 8, 15)])
# they have links of the ring alone, so all their messages go over daemons that are killed
SPARED = (2, 7)
# so many kills come when nothing else goes wrong any more, so that the last one ends all trouble
LAST = 2
# rounds, kills of each, seconds between two, seconds between two messages of a flow meanwhile, and how many restarts the administrator makes
Plan = collections.namedtuple("Plan", "rounds kills between gap restarts")
WHOLE, SHORT = Plan(4, 50, 0.4, 2.5, 2), Plan(1, 20, 0.4, 5.0, 1)
# how long flows may take to move, and the last messages to arrive; seconds between two restarts of the administrator
MOVING, DRAINING, CALM = 120.0, 120.0, 2.0
# after so many seconds a priority message expires; how long a client rests after each node where nothing is timed; and how long it does, and a flow after a
# message, while flows are timed
EXPIRY, SLOW, QUICK, AGAIN = 3, 0.25, 0.08, 1.0


class Rehearsal:
    """An overlay, its clients, and what is measured."""

    def __init__(self, program, folder, plan, begun):
        self.plan, self.moves, self.begun, self.since = plan, [], begun, begun
        self.overlay = month_daemons.Overlay(folder, program, GRAPH, HEIGHT, SPARED)
        nodes = list(self.overlay.keepers)
        self.others = [node for node in nodes if node not in SPARED]
        self.talkers = {node: month_clients.Talker(node, self.overlay.client_port(node), [each for each in nodes if each != node], EXPIRY) for node in nodes}
        self.trouble = month_daemons.Trouble(self.overlay)

    def say(self, text):
        print(f"{time.monotonic() - self.begun:6.0f} s: {text}", flush=True)

    def begin(self):
        self.overlay.start()
        for node in self.overlay.keepers:
            subprocess.run([month_daemons.NODE, "wait", self.overlay.place(node), "120"], env={**os.environ, "SPINESD": self.overlay.program}, check=True)
        for talker in self.talkers.values():
            talker.pause, talker.gap = SLOW, self.plan.gap
            talker.start()

    def kill(self):
        """So many kills at random moments, while all else goes wrong too, but for the last ones."""
        self.trouble.start()
        killed = 0
        while killed < self.plan.kills:
            time.sleep(random.expovariate(1 / self.plan.between))
            if killed == self.plan.kills - LAST:
                self.trouble.is_over = True
                self.trouble.join()
                self.overlay.calm()
            killed += self.overlay.keepers[random.choice(self.others)].end(signal.SIGKILL)
        self.say(f"{killed} kills")

    def rest(self):
        """No flow sends, and no priority message is sent."""
        for talker in self.talkers.values():
            talker.resting = {None, *talker.others}

    def settles(self, name, since, restarted=None):
        """Waits until each flow has moved since then, and notes how long each took: those of a node that was restarted, and those of others. A flow that
        has moved rests."""
        self.since = since
        for talker in self.talkers.values():
            talker.resting, talker.next_at, talker.pause, talker.gap = set(), {}, QUICK, AGAIN
        while None in (found := month_clients.moved(self.talkers, since)).values() and time.monotonic() < since + MOVING:
            for source, destination in found:
                if found[source, destination] is not None:
                    self.talkers[source].resting.add(destination)
            time.sleep(0.05)
        self.rest()
        own = {flow: value for flow, value in found.items() if restarted in flow}
        for what, values in ((name, {flow: value for flow, value in found.items() if flow not in own}), (f"{name}, from it and to it", own)):
            if values:
                self.moves.append((what, values))

    def restart(self):
        """The administrator's restarts, one daemon at a time."""
        for node in random.sample(self.others, self.plan.restarts):
            since = time.monotonic()
            self.overlay.keepers[node].end(signal.SIGTERM)
            self.settles("a restart of one daemon", since, node)
            self.say(f"node {node} was restarted, and all flows are looked at")
            time.sleep(max(0.0, since + CALM - time.monotonic()))

    def drain(self):
        """No more is sent, and what was accepted is waited for."""
        self.rest()
        time.sleep(CALM)
        until = time.monotonic() + DRAINING
        while month_clients.waits(self.talkers, self.since) and time.monotonic() < until:
            time.sleep(0.1)
        self.say("what was accepted has arrived" if time.monotonic() < until else "some messages don't arrive")

    def run(self):
        try:
            self.begin()
            self.say("all daemons answer")
            self.kill()
            self.settles("after the last kill", time.monotonic())
            self.say("all flows are looked at")
            self.restart()
            self.drain()
        finally:
            for talker in self.talkers.values():
                talker.is_over = True
            for talker in self.talkers.values():
                talker.stop()
            self.overlay.stop()

    def judged(self):
        """All judgements of this round, and what the recordings tell."""
        places = [self.overlay.place(node) for node in self.overlay.keepers]
        rows = month_judge.all_told(self.overlay.program, places)
        judge = month_judge.Judge(rows)
        judge.per_pair()
        found = collections.Counter(spared=judge.stayed(SPARED), last=judge.stayed(tuple(self.overlay.keepers)), again=judge.urgent(), keys=judge.signed_once())
        judge.verified()
        for status in {status for keeper in self.overlay.keepers.values() for status in keeper.ends}:
            judge.holds(status in month_daemons.ENDS, f"a daemon ended with status {status}")
        for name, values in self.moves:
            judge.holds(None not in values.values(), f"{name}: these flows don't move: {sorted(flow for flow in values if values[flow] is None)}")
        found.update(looks=judge.looks, wrong=judge.wrong, rel=sum(map(len, judge.delivered["rel"].values())), pairs=len(judge.delivered["rel"]),
                     prio=sum(map(len, judge.delivered["prio"].values())), lives=len(rows), size=sum(told.size for told in rows),
                     turns=sum(told.turns for told in rows), ended=sum(told.ended for told in rows), held_up=sum(told.held_up for told in rows),
                     strays=self.trouble.strays, jumps=self.trouble.jumps)
        self.say(f"{judge.looks - judge.wrong} looks at {len(rows)} recordings as wanted, {judge.wrong} not")
        return found


def tables(moves, found, ends, seconds):
    """How long flows took to move again, and what the time cost."""
    print("\n| Flows move again | Flows | Median | Worst |\n|---|---|---|---|")
    for name in dict.fromkeys(name for name, _ in moves):
        values = [value for each, rows in moves if each == name for value in rows.values() if value is not None]
        print(f"| {name} | {len(values)} | {statistics.median(values):.1f} s | {max(values):.1f} s |" if values else f"| {name} | 0 | | |")
    told = ", ".join(f"{count} {month_daemons.ENDS.get(status, f'with status {status}')}" for status, count in ends.most_common())
    rows = [
        ("reliable messages arrived", f"{found['rel']}, in {found['pairs']} pairs of lives"),
        ("of these between the two that stayed up, and between the last lives", f"{found['spared']}, {found['last']}: all that were accepted"),
        ("priority messages arrived", f"{found['prio']}; {found['again']} of them again in a later life of their destination"),
        ("ends of daemons", told),
        ("lives with a recording", f"{found['lives']}, with at least {32 * found['lives']} indexes"),
        ("one-time keys seen", f"{found['keys']}, none twice"),
        ("flows that ended, messages of other lives", f"{found['ended']}, {found['held_up']}"),
        ("strays, jumps of clocks", f"{found['strays']}, {found['jumps']}"),
        ("recordings", f"{found['size'] / 1e6:.0f} MB, {found['turns']} turns, {found['size'] / max(1, found['turns']) / 1000:.1f} KB a turn"),
        ("time", f"{seconds / 60:.1f} minutes"),
    ]
    print("\n| What happened | |\n|---|---|")
    for name, value in rows:
        print(f"| {name} | {value} |")
    print(f"\n{found['looks'] - found['wrong']} looks at the rehearsal as wanted, {found['wrong']} not", flush=True)


def words():
    parser = argparse.ArgumentParser(prog="month.py", description=__doc__.partition("\n\n")[0])
    parser.add_argument("program")
    parser.add_argument("--short", action="store_true", help="20 kills")
    parser.add_argument("--rounds", type=int, help="so many rounds, 4 if not said")
    parser.add_argument("--kills", type=int, help="so many kills in each round, 50 if not said")
    parser.add_argument("--seed", type=int, default=time.time_ns() % 1_000_000, help="of the random moments; what meets at one isn't repeated")
    parser.add_argument("--keep", action="store_true", help="leave the folder")
    said = parser.parse_args()
    plan = SHORT if said.short else WHOLE
    return said, plan._replace(rounds=said.rounds or plan.rounds, kills=said.kills or plan.kills)


def main():
    said, plan = words()
    random.seed(said.seed)
    print(f"seed {said.seed}", flush=True)
    moves, found, ends, begun = [], collections.Counter(), collections.Counter(), time.monotonic()
    for _ in range(plan.rounds):
        folder = tempfile.mkdtemp(prefix="month.")
        try:
            rehearsal = Rehearsal(said.program, folder, plan, begun)
            rehearsal.run()
            found += rehearsal.judged()
            moves += rehearsal.moves
            ends.update(status for keeper in rehearsal.overlay.keepers.values() for status in keeper.ends)
        finally:
            if said.keep:
                print(f"kept: {folder}")
            else:
                shutil.rmtree(folder)
    tables(moves, found, ends, time.monotonic() - begun)
    sys.exit(1 if found["wrong"] else 0)


if __name__ == "__main__":
    main()
