"""The daemons of a rehearsal, each kept running as the unit keeps it, and what is done to them: kills, few turns, full disks, strays and clocks that jump.

Used by month.py.
"""

import os
import random
import resource
import signal
import socket
import struct
import subprocess
import threading
import time

ROOT = os.path.dirname(os.path.dirname(os.path.abspath(__file__)))
NODE = os.path.join(ROOT, "kit", "spinesd-node")
KEYS = os.path.join(ROOT, "kit", "spinesd-keys")
# how many messages of a flow may wait: few, so that all that was accepted arrives soon
BUFFER = 4
# the pause before a daemon is started again, in seconds, and the turns of one that isn't to end by itself
PAUSE, MANY_TURNS = 0.2, 10_000_000
# of so many starts one gets few turns, and one a disk that fills; how many do of one node at most; how many turns, and how many bytes
FEW, FULL, MOST_FEW, MOST_FULL = 3, 5, 3, 2
TURNS, BYTES = (100, 2_000), (200_000, 2_000_000)
# how far a clock jumps, in milliseconds, and how many strays a flood sends at a time
JUMPS, STRAYS = (-86_400_000, -5_000, 5_000, 3_600_000), 400
ENDS = {-signal.SIGKILL: "killed", -signal.SIGTERM: "ended by the administrator", 0: "made all their turns", 6: "on a full disk"}


def free_first(nodes):
    """A port after which the ports of all nodes are free, for their neighbours and for their clients."""
    while True:
        first, held = random.randrange(15_000, 60_000), []
        try:
            for port in [first + more + node for more in (0, 100) for node in range(1, nodes + 1)]:
                held.append(socket.socket(socket.AF_INET, socket.SOCK_DGRAM))
                held[-1].bind(("127.0.0.1", port))
            return first
        except OSError:
            continue
        finally:
            for each in held:
                each.close()


def full_disk(size):
    """A process that does this may write files of so many bytes at most."""
    signal.signal(signal.SIGXFSZ, signal.SIG_IGN)
    resource.setrlimit(resource.RLIMIT_FSIZE, (size, size))


class Keeper(threading.Thread):
    """Keeps a node's daemon running until it is told to stop: after each end it starts it again."""

    def __init__(self, overlay, node, is_spared):
        super().__init__(daemon=True)
        self.overlay, self.node, self.is_spared = overlay, node, is_spared
        self.place, self.shift = overlay.place(node), overlay.path(f"{node}.shift")
        self.child, self.is_over, self.is_calm, self.ends, self.begun, self.few, self.full = None, False, False, [], 0.0, MOST_FEW, MOST_FULL
        self.jump(0)

    def jump(self, milliseconds):
        """Sets the daemon's clock so far off. The file stays the same one, since the daemon looks into it."""
        with open(os.open(self.shift, os.O_WRONLY | os.O_CREAT, 0o600), "wb") as file:
            file.write(struct.pack("=q", milliseconds))

    def plan(self):
        """The turns of the next life, and the bytes that its disk has; a spared node, and all once it is calm, have enough of both."""
        if self.is_spared or self.is_calm:
            return MANY_TURNS, None
        if self.few and random.randrange(FEW) == 0:
            self.few -= 1
            return random.randrange(*TURNS), None
        if self.full and random.randrange(FULL) == 0:
            self.full -= 1
            return MANY_TURNS, random.randrange(*BYTES)
        return MANY_TURNS, None

    def run(self):
        env = {**os.environ, "SPINESD": self.overlay.program, "LD_PRELOAD": self.overlay.library, "CLOCK_SHIFT": self.shift}
        while not self.is_over:
            turns, size = self.plan()
            limit = (lambda: full_disk(size)) if size else None
            self.begun = time.monotonic()
            self.child = subprocess.Popen([NODE, "run", self.place, str(turns)], env=env, preexec_fn=limit, stderr=subprocess.DEVNULL, start_new_session=True)
            status = self.child.wait()
            if not self.is_over:
                self.ends.append(status)
                time.sleep(PAUSE)

    def end(self, by):
        """Ends the daemon's life, whatever it does; whether it had one."""
        lives = self.child is not None and self.child.poll() is None
        if lives:
            self.child.send_signal(by)
        return lives

    def stop(self):
        self.is_over = True
        while self.is_alive():
            self.end(signal.SIGTERM)
            self.join(0.1)


class Overlay:
    """The folders of an overlay that spinesd-keys makes, and its daemons."""

    def __init__(self, folder, program, graph, height, spared):
        self.folder, self.program, self.nodes = folder, os.path.abspath(program), graph[0]
        self.first, self.library = free_first(self.nodes), self.path("clock.so")
        source = os.path.join(ROOT, "bench", "clock.c")
        subprocess.run(["cc", "-O2", "-Wall", "-Wextra", "-Werror", "-shared", "-fPIC", "-o", self.library, source], check=True)
        text = "".join(f"edge {low} {high} {weight}\n" for low, high, weight in graph[1])
        words = [KEYS, "make", "-", self.path("overlay"), "--height", str(height), "--buffer", str(BUFFER), "--port", str(self.first), "--program", self.program]
        subprocess.run(words, input=f"graph 2\nnodes {self.nodes}\n{text}end\n".encode(), stdout=subprocess.DEVNULL, check=True)
        self.keepers = {node: Keeper(self, node, node in spared) for node in range(1, self.nodes + 1)}

    def path(self, name):
        return os.path.join(self.folder, name)

    def place(self, node):
        return self.path(f"overlay/{node}")

    def client_port(self, node):
        return self.first + 100 + node

    def start(self):
        for keeper in self.keepers.values():
            keeper.start()

    def stop(self):
        for keeper in self.keepers.values():
            keeper.is_over = True
        for keeper in self.keepers.values():
            keeper.stop()

    def calm(self):
        """From now on lives have all their turns, and their disks have room."""
        for keeper in self.keepers.values():
            keeper.is_calm = True


class Trouble(threading.Thread):
    """Strays at all ports, and clocks that jump, until it is told to stop."""

    def __init__(self, overlay):
        super().__init__(daemon=True)
        self.overlay, self.is_over, self.strays, self.jumps = overlay, False, 0, 0

    def run(self):
        nodes = [keeper for keeper in self.overlay.keepers.values() if not keeper.is_spared]
        with socket.socket(socket.AF_INET, socket.SOCK_DGRAM) as stray:
            while not self.is_over:
                node = random.choice(list(self.overlay.keepers))
                self.flood(stray, random.choice([self.overlay.first + node, self.overlay.client_port(node)]))
                keeper = random.choice(nodes)
                keeper.jump(random.choice(JUMPS))
                self.jumps += 1
                time.sleep(0.3)
                keeper.jump(0)

    def flood(self, stray, port):
        """Many datagrams at once: no daemon hears all of them."""
        for _ in range(STRAYS):
            try:
                stray.sendto(os.urandom(random.choice((20, 200, 1_400))), ("127.0.0.1", port))
                self.strays += 1
            except OSError:
                pass
