"""Runs a daemon of two turns once for each of its allocations, which then fails: python3 bench/fail_daemon.py PATH/TO/spinesd

A run must end with status 0 and its whole recording, or with 9, or as where the file, the ports or a datagram failed: 8, 7, or 0 with a datagram that
was lost. What it wrote is a beginning of a recording that `verify` accepts. The key file is sound after each: the next start goes well, and takes no
index of this one. A second round lets each later allocation fail too. It needs a C compiler, `cc`.
"""

import os
import subprocess
import sys
import tempfile

from fail_calls import ROOT, library_in

sys.path.insert(0, os.path.join(ROOT, "examples", "overlay"))

from overlay import Overlay, line_of  # noqa: E402

KEY_FILE = "spinesd.keys"
TURNS = "2"
# what may stand after a beginning of a recording, by the status
LAST_LINES = {0: b"", 7: b"wire\n", 8: b"keeper\n", 9: b""}


class Daemon:
    """A node whose daemon runs with some of its allocations failing, each time from the same key file."""

    def __init__(self, program, folder):
        self.program, self.library = program, library_in(folder)
        overlay = Overlay(os.path.join(folder, "overlay"), program)
        overlay.make(line_of(2), 5)
        self.home, self.config = overlay.home(1), overlay.read("1.toml")
        with open(os.path.join(self.home, KEY_FILE), "rb") as file:
            self.keys = file.read()

    def run(self, words, given, **variables):
        return subprocess.run([self.program, *words], input=given, capture_output=True, cwd=self.home, env=variables, check=False)

    def failing(self, **variables):
        """One run from the first key file."""
        with open(os.path.join(self.home, KEY_FILE), "wb") as file:
            file.write(self.keys)
        ended = self.run(["daemon", "--turns", TURNS], self.config, LD_PRELOAD=self.library, **variables)
        return ended.returncode, ended.stdout, ended.stderr

    def fault(self, status, output):
        """What isn't as promised, or nothing."""
        last = LAST_LINES.get(status)
        if last is None or not output.endswith(last):
            return "no daemon ends so"
        recording = output[:len(output) - len(last)]
        lines = recording.split(b"\n")
        if status == 0 and not lines[-2].startswith(b"end turns 2"):
            return "it isn't a whole recording"
        if len(lines) > 1 and self.run(["verify"], self.config + recording[:recording.rindex(b"\n") + 1]).returncode != 0:
            return "its recording isn't verified"
        after = self.run(["daemon", "--turns", "1"], self.config)
        reserved = int(lines[0].split(b" ")[4]) if len(lines) > 1 else 0
        if after.returncode != 0 or int(after.stdout.split(b" ")[3]) < reserved:
            return f"the next start has status {after.returncode} and begins {after.stdout[:40]!r}, after {reserved} reserved indexes"
        return None

    def all(self):
        status, output, said = self.failing()
        if status != 0 or self.fault(status, output):
            sys.exit(f"daemon with no failure: status {status}, output {output[:200]!r}")
        allocations = int(said.split()[-3])
        if allocations == 0:
            sys.exit("daemon: no allocation was counted, so nothing would be tried")
        for rest in ({}, {"FAIL_REST": "1"}):
            ends = {}
            for number in range(1, allocations + 1):
                status, output, _ = self.failing(FAIL_ALLOC=str(number), **rest)
                fault = self.fault(status, output)
                if fault:
                    sys.exit(f"daemon, allocation {number}: {fault}; status {status}, output {output[:200]!r}")
                ends[status] = ends.get(status, 0) + 1
            which = "it and all later ones fail" if rest else "it alone fails"
            told = ", ".join(f"{count} times status {status}" for status, count in sorted(ends.items()))
            print(f"daemon: {allocations} allocations, {which}: {told}")


def main():
    if len(sys.argv) != 2:
        sys.exit("usage: python3 bench/fail_daemon.py PATH/TO/spinesd")
    with tempfile.TemporaryDirectory() as folder:
        Daemon(os.path.abspath(sys.argv[1]), folder).all()


if __name__ == "__main__":
    main()
