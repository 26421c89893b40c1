"""Runs each command once for each of its allocations, reads and writes, which then fails: python3 bench/fail_calls.py PATH/TO/spinesd [--all]

Where an allocation fails a run must end with status 0 and its output, or with status 9 and nothing written; a second round lets each later allocation fail too.
Where one read of the input fails, and the next would go well, it must end with status 5 and nothing written; where one write fails, with status 6 and a
beginning of the output. A replay writes while it reads, so on 9 and 5 too it may have written a beginning. A command of which no allocation, read or write is
counted is a fault of its own: then nothing was tried. `generate` reads nothing, so there no read may be counted. Each allocation fails in a copy of the run
that is made at it (`fail_calls.c`), so that no run begins anew for it. Of more than MOST allocations so many are tried, evenly apart; with --all each is. It
needs a C compiler, `cc`.
"""

import functools
import os
import subprocess
import sys
import tempfile

ROOT = os.path.dirname(os.path.dirname(os.path.abspath(__file__)))
# up to so many allocations of a command are tried in a round
MOST = 2_500
# how many events of the generated schedule are replayed
CUT = 300
# the words of a command, the file of its input, if it reads any, and that of its output or of the output's beginning, or the output itself
RUNS = [
    (["replay"], "crates/spinesd/stdin", "crates/spinesd/stdout"),
    (["replay"], "conformance/schedules/acknowledgement.schedule", "conformance/schedules/acknowledgement.out"),
    (["replay"], "conformance/schedules/expiry.schedule", "conformance/schedules/expiry.out"),
    (["replay"], "conformance/restarts/frames_of_an_earlier_life.schedule", "conformance/restarts/frames_of_an_earlier_life.out"),
    (["replay"], "conformance/restarts/reserve_at_the_border.schedule", "conformance/restarts/reserve_at_the_border.out"),
    (["replay"], "conformance/schedules/generated_7.schedule", "conformance/schedules/generated_7.out"),
    (["generate", "--seed", "7"], None, "conformance/generated/seed_7.summary"),
    (["paths", "--from", "1", "--to", "4", "--paths", "2"], "examples/trap.graph", b"path 1 2 4\npath 1 3 4\ncost 10\n"),
    (["topology"], "examples/two_nodes.toml", "examples/two_nodes.topology"),
    (["verify"], "conformance/recordings/whole_1.recording", "conformance/recordings/whole_1.out"),
]


def stored(path):
    with open(os.path.join(ROOT, path), "rb") as file:
        return file.read()


def first_events(schedule, journal):
    """The schedule with its first events alone, and the lines of them in its journal."""
    header, events = schedule.split(b"begin\n")
    numbered = [line for line in journal.split(b"\n") if line[:1].isdigit()]
    shown = journal[:journal.index(b"\n" + numbered[CUT] + b"\n") + 1]
    return header + b"begin\n" + b"".join(events.splitlines(True)[:CUT]) + b"end\n", shown


@functools.cache
def hashed(output):
    """The FNV-1a of an output."""
    value = 0xCBF29CE484222325
    for byte in output:
        value = (value ^ byte) * 0x100000001B3 % 2**64
    return value


class Failing:
    """A command that runs with one of its calls failing."""

    def __init__(self, program, library, words, path, wanted, every):
        self.program, self.library, self.words, self.wanted, self.every = program, library, words, wanted, every
        self.text = path and stored(path)
        self.name = words[0] + (f" of {os.path.basename(path)}" if path else "")
        # an output of which only the beginning is stored
        self.begins = path is None or "generated" in path
        if path and self.begins:
            self.text, self.wanted = first_events(self.text, wanted)
            self.name += f", its first {CUT} events"

    def run(self, **variables):
        """The status, the output, and how many allocations, reads and writes there were."""
        ended = subprocess.run([self.program, *self.words], input=self.text or b"", capture_output=True, env={"LD_PRELOAD": self.library, **variables}, check=False)
        return ended.returncode, ended.stdout, [int(count) for count in ended.stderr.split()]

    def copied(self, count, **variables):
        """Lets allocations fail, each in a copy of the run, and gives how often each status came."""
        apart = 1 if self.every else -(-count // MOST)
        with tempfile.TemporaryDirectory() as folder:
            record, text = os.path.join(folder, "record"), os.path.join(folder, "input")
            with open(text, "wb") as file:
                file.write(self.text or b"")
            with open(text, "rb") as file:
                ended = subprocess.run([self.program, *self.words], stdin=file, capture_output=True,
                                       env={"LD_PRELOAD": self.library, "FAIL_EACH": record, "FAIL_APART": str(apart), **variables}, check=False)
            if (ended.returncode, ended.stdout) != (0, self.wanted):
                sys.exit(f"{self.name}, copied at each allocation: status {ended.returncode}, output {ended.stdout[:200]!r}")
            with open(record, encoding="ascii") as file:
                rows = [[int(word) for word in line.split()] for line in file]
        if [row[0] for row in rows] != list(range(apart, count + 1, apart)):
            sys.exit(f"{self.name}: {len(rows)} copies of {count} allocations")
        ends = {0: 0, 9: 0}
        for number, status, before, length, value in rows:
            output = self.wanted[:before + length]
            is_right = output == self.wanted if status == 0 else status == 9 and self.is_broken_off(output)
            if not is_right or len(output) != before + length or hashed(output[before:]) != value:
                sys.exit(f"{self.name}, allocation {number}: status {status}, {length} bytes after {before}")
            ends[status] += 1
        return ends

    def is_broken_off(self, output):
        """Whether a run that a failed read or want of memory ended may have written this."""
        return output == b"" or (self.words == ["replay"] and self.wanted.startswith(output) and output != self.wanted)

    def each(self, name, count, is_right):
        """Lets each of these calls fail in turn."""
        for number in range(1, count + 1):
            status, output, _ = self.run(**{name: str(number)})
            if not is_right(status, output):
                sys.exit(f"{self.name}, {name} {number}: status {status}, output {output[:200]!r}")

    def all(self):
        status, output, counts = self.run()
        if self.begins and output.startswith(self.wanted):
            self.wanted = output
        if (status, output) != (0, self.wanted):
            sys.exit(f"{self.name} with no failure: status {status}, output {output[:200]!r}")
        allocations, reads, writes = counts
        if 0 in (allocations, writes) or (reads == 0) != (self.text is None):
            sys.exit(f"{self.name}: {counts} allocations, reads and writes were counted, so nothing would be tried, or what reads nothing read")
        for rest in ({}, {"FAIL_REST": "1"}):
            ends = self.copied(allocations, **rest)
            which = "it and all later ones fail" if rest else "it alone fails"
            print(f"{self.name}: {sum(ends.values())} of {allocations} allocations, {which}: {ends[0]} whole outputs, {ends[9]} times status 9")
        self.each("FAIL_READ", reads, lambda status, output: status == 5 and self.is_broken_off(output))
        self.each("FAIL_WRITE", writes, lambda status, output: status == 6 and self.wanted.startswith(output) and output != self.wanted)
        print(f"{self.name}: {reads} reads and {writes} writes, of which one fails: status 5 and 6")


def library_in(folder):
    """The library that lets calls fail, compiled into this folder."""
    library = os.path.join(folder, "fail_calls.so")
    subprocess.run(["cc", "-O1", "-shared", "-fPIC", "-o", library, os.path.join(ROOT, "bench", "fail_calls.c"), "-ldl"], check=True)
    return library


def main():
    if len(sys.argv) not in (2, 3) or sys.argv[2:] not in ([], ["--all"]):
        sys.exit("usage: python3 bench/fail_calls.py PATH/TO/spinesd [--all]")
    with tempfile.TemporaryDirectory() as folder:
        library = library_in(folder)
        for words, path, wanted in RUNS:
            output = wanted if isinstance(wanted, bytes) else stored(wanted)
            Failing(os.path.abspath(sys.argv[1]), library, words, path, output, sys.argv[2:] == ["--all"]).all()


if __name__ == "__main__":
    main()
