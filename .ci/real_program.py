"""Runs the built program over real files, pipes and devices: python3 .ci/real_program.py PATH/TO/spinesd

Each row is a run with the status and the output that docs/FORMATS.md has for it. A row that differs is told, and the status is then 1.
"""

import os
import re
import subprocess
import sys
import tempfile

HEADER = ["schedule 1", "seed " + 64 * "0", "height 5", "bounds 2 4", "nodes 3", "edge 1 2 10", "edge 2 3 10", "begin"]
ROOT = os.path.dirname(os.path.dirname(os.path.abspath(__file__)))
CRATE = os.path.join(ROOT, "crates", "spinesd")
EXAMPLES = os.path.join(ROOT, "examples")


def text(*lines):
    """A schedule of three nodes in a line with these lines after its header."""
    return "".join(line + "\n" for line in [*HEADER, *lines]).encode()


def stored(name):
    with open(os.path.join(CRATE, name), "rb") as file:
        return file.read()


def example(name):
    with open(os.path.join(EXAMPLES, name), "rb") as file:
        return file.read()


def conformance(name):
    with open(os.path.join(ROOT, "conformance", name), "rb") as file:
        return file.read()


NO_EVENTS = b"journal 1\nsummary events 0 sent 0 delivered 0 priority 0 frames 0\n"
TWO_EVENTS = b"journal 1\n1 accepted 1\n+ signed 020103000000000000000100026869\n2 empty\nsummary events 2 sent 1 delivered 0 priority 0 frames 0\n"
# more text than a pipe holds, so that the program has to wait for its reader
LONG = text(*["take 3 1"] * 10_000, "end")
LONG_JOURNAL = "".join(["journal 1\n", *(f"{n} empty\n" for n in range(1, 10_001)),
                        "summary events 10000 sent 0 delivered 0 priority 0 frames 0\n"]).encode()


class Runs:
    """The program, and the rows that differed."""

    def __init__(self, program, folder):
        self.program, self.folder, self.wrong, self.count = os.path.abspath(program), folder, 0, 0

    def generated(self, name, line, summary):
        """A schedule of a number, as a shell's line: its summary and a digest."""
        ended = subprocess.run(["sh", "-c", line, self.program], stdout=subprocess.PIPE, check=False)
        told = re.fullmatch(re.escape(summary) + rb"digest [0-9a-f]{64}\n", ended.stdout)
        self.judge(name, ended, 0, ended.stdout if told else summary + b"digest ..\n")

    def judge(self, name, ended, status, output):
        self.count += 1
        if (ended.returncode, ended.stdout or b"") != (status, output):
            self.wrong += 1
            print(f"{name}: status {ended.returncode}, wanted {status}; wrote {(ended.stdout or b'')[:200]!r}")

    def piped(self, name, words, given, status, output):
        """Both ends are pipes."""
        self.judge(name, subprocess.run([self.program, *words], input=given, stdout=subprocess.PIPE, check=False), status, output)

    def filed(self, name, given, status, output):
        """Both ends are files."""
        source, sink = os.path.join(self.folder, "in"), os.path.join(self.folder, "out")
        with open(source, "wb") as file:
            file.write(given)
        with open(source, "rb") as stdin, open(sink, "wb") as stdout:
            ended = subprocess.run([self.program, "replay"], stdin=stdin, stdout=stdout, check=False)
        with open(sink, "rb") as file:
            ended.stdout = file.read()
        self.judge(name, ended, status, output)

    def shell(self, name, line, status, output):
        """As a shell's line, in which "$0" is the program."""
        ended = subprocess.run(["sh", "-c", line, self.program], stdin=subprocess.DEVNULL, stdout=subprocess.PIPE, check=False)
        self.judge(name, ended, status, output)

    def closed_pipe(self, name, given):
        """Nobody reads what is written."""
        ours, theirs = os.pipe()
        os.close(ours)
        with os.fdopen(theirs, "wb") as stdout:
            ended = subprocess.run([self.program, "replay"], input=given, stdout=stdout, restore_signals=False, check=False)
        self.judge(name, ended, 6, b"")


def main():
    if len(sys.argv) != 2:
        sys.exit("usage: python3 .ci/real_program.py PATH/TO/spinesd")
    with tempfile.TemporaryDirectory() as folder:
        runs = Runs(sys.argv[1], folder)
        runs.piped("the stored run over pipes", ["replay"], stored("stdin"), 0, stored("stdout"))
        runs.filed("the stored run over files", stored("stdin"), 0, stored("stdout"))
        runs.piped("no events", ["replay"], text("end"), 0, NO_EVENTS)
        runs.filed("two events", text("rel 1 3 6869", "take 3 1", "end"), 0, TWO_EVENTS)
        runs.piped("a journal that fills the pipe", ["replay"], LONG, 0, LONG_JOURNAL)
        for words in ([], ["replay", "now"], ["Replay"], ["replay "], [""], ["now", "replay"], [b"\xff"]):
            runs.piped(f"the words {words}", words, text("end"), 2, b"usage\n")
        runs.piped("no end", ["replay"], text("take 3 1"), 3, b"journal 1\n1 empty\nrefused 10 NoEnd\n")
        runs.filed("a line after the end", text("end", "end"), 3, b"journal 1\nrefused 10 AfterEnd\n")
        runs.piped("no text", ["replay"], b"", 3, b"refused 1 Header\n")
        runs.piped("two paths", ["paths", "--from", "1", "--to", "4", "--paths", "2"], example("trap.graph"), 0, b"path 1 2 4\npath 1 3 4\ncost 10\n")
        runs.piped("three paths", ["paths", "--from", "1", "--to", "4", "--paths", "3"], example("trap.graph"), 12, b"fewer 2\ncut 1\n")
        runs.piped("a signed topology", ["topology"], example("two_nodes.toml"), 0, example("two_nodes.topology"))
        runs.piped("a graph for a draft", ["topology"], example("trap.graph"), 3, b"refused 0 Toml\n")
        runs.generated("a number", '"$0" generate --seed 7', conformance("generated/seed_7.summary"))
        runs.generated("a number and no standard input", '"$0" generate --seed 7 <&-', conformance("generated/seed_7.summary"))
        runs.shell("a number and a full device", '"$0" generate --seed 7 > /dev/full', 6, b"")
        runs.piped("a number below the first", ["generate", "--seed", "0"], b"", 2, b"usage\n")
        runs.shell("a folder as input", '"$0" replay < /', 5, b"")
        runs.shell("a closed standard input", '"$0" replay <&-', 5, b"")
        runs.shell("a full device", f'"$0" replay < "{os.path.join(CRATE, "stdin")}" > /dev/full', 6, b"")
        runs.shell("usage to a full device", '"$0" > /dev/full', 6, b"")
        runs.closed_pipe("a closed pipe", stored("stdin"))
    print(f"{runs.count - runs.wrong} runs of the program as wanted, {runs.wrong} not")
    sys.exit(1 if runs.wrong else 0)


if __name__ == "__main__":
    main()
