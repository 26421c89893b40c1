"""Runs the auditor's program over the cases of audits/ and over all runs of conformance/: python3 .ci/audits.py PATH/TO/spinesd_audit

A case is NAME.words in audits/, the words, one a line, and beside it NAME.status, the status in decimal, and NAME.out, the standard output. The files that the
words name stand there too, each a schedule or a journal; a case runs in that folder. Each case runs twice, once more with its files as pipes that give them in
pieces, and once more where nothing can be written, which is status 6. Words that are none, and a command that names one file, open no other.

Each schedule of conformance/ whose journal beside it ends with a summary is a run of this program's format: it is kept, and with epochs it isn't judged. A run
whose first delivery is changed breaks a promise at the event of that delivery, where both of its ends are correct. Schedules that are too long are made here.
A difference is told, and the status is then 1; so it is where a file of audits/ is of no case.
"""

import os
import pathlib
import re
import resource
import subprocess
import sys
import tempfile
import threading

ROOT = pathlib.Path(__file__).resolve().parents[1]
AUDITS, CONFORMANCE = ROOT / "audits", ROOT / "conformance"
FIRST, STORY = AUDITS / "first.schedule", AUDITS / "the_message_arrives.journal"
MOST_SCHEDULE = 67_108_864
# less memory than a schedule of so many bytes takes
LITTLE = 60_000_000
# how many bytes a pipe gives at a time
PIECE = 7
DELIVERY = re.compile(rb"^\+ delivered rel (\d+) \d+ ([0-9a-f]+|-)$")


class Judge:
    """The program, and how many answers differed."""

    def __init__(self, program):
        self.program, self.runs, self.wrong = os.path.abspath(program), 0, 0

    def once(self, name, words, wanted, **ends):
        """Whether a run of these words ends with this status and this output."""
        self.runs += 1
        ended = subprocess.run([self.program, *words], **{"stdout": subprocess.PIPE, "cwd": AUDITS, "check": False, "timeout": 600, **ends})
        found = ended.returncode, ended.stdout or b""
        if found != wanted:
            self.wrong += 1
            print(f"{name}: status {found[0]} and {found[1][:200]!r}, wanted {wanted[0]} and {wanted[1][:200]!r}")


def feed(path, text):
    """Gives a text to the reader of a pipe in pieces."""
    try:
        with open(path, "wb", buffering=0) as pipe:
            for at in range(0, len(text), PIECE):
                pipe.write(text[at:at + PIECE])
    except BrokenPipeError:
        pass


def in_pieces(judge, name, words, wanted):
    """Runs a case whose files are pipes."""
    with tempfile.TemporaryDirectory() as folder:
        threads = []
        for at, word in enumerate(words):
            if at and (AUDITS / word).is_file():
                pipe = os.path.join(folder, str(at))
                os.mkfifo(pipe)
                threads.append(threading.Thread(target=feed, args=(pipe, (AUDITS / word).read_bytes()), daemon=True))
                words = [*words[:at], pipe, *words[at + 1:]]
        for thread in threads:
            thread.start()
        judge.once(f"{name} in pieces", words, wanted)
        for thread in threads:
            thread.join(60)


def cases(judge):
    """Runs all cases, and gives the number of them."""
    unused = {path.name for path in AUDITS.iterdir()}
    names = sorted(path.stem for path in AUDITS.glob("*.words"))
    for name in names:
        words = (AUDITS / f"{name}.words").read_text(encoding="utf-8").split("\n")[:-1]
        wanted = int((AUDITS / f"{name}.status").read_text(encoding="ascii")), (AUDITS / f"{name}.out").read_bytes()
        unused -= {f"{name}.words", f"{name}.status", f"{name}.out", *words}
        for _ in range(2):
            judge.once(name, words, wanted)
        if wanted[0] != 2:
            in_pieces(judge, name, words, wanted)
        with open("/dev/full", "wb") as full:
            judge.once(f"{name} where nothing can be written", words, (6, b""), stdout=full)
    for name in sorted(unused):
        judge.wrong += 1
        print(f"audits/{name}: of no case")
    return len(names)


def changed(schedule, journal):
    """A journal whose first delivery between correct nodes has another payload, and the event of that; None where there is none."""
    lines, event = journal.split(b"\n"), 0
    bad = {line.split()[1] for line in schedule.split(b"begin\n")[0].split(b"\n") if line.startswith(b"bad ")}
    acting = [acting_at(line) for line in schedule.split(b"begin\n")[1].split(b"\n")]
    for at, line in enumerate(lines):
        if line[:1].isdigit():
            event = int(line.split()[0])
        found = DELIVERY.match(line)
        if found and found.group(1) not in bad and acting[event - 1] not in bad:
            payload = found.group(2)
            other = b"00" if payload == b"-" else b"%02x" % (int(payload[:2], 16) ^ 1) + payload[2:]
            return b"\n".join(lines[:at] + [line[:len(line) - len(payload)] + other] + lines[at + 1:]), event
    return None


def acting_at(line):
    """The node that acts at an event's line: that which a frame reaches, and of all others the first that is named."""
    words = line.split()
    return words[2] if words[:1] and words[0] in (b"pass", b"flip", b"inject", b"craft") else words[1] if len(words) > 1 else b""


def runs(judge):
    """Judges all runs of conformance/, and gives their number and that of those with epochs and of changed ones."""
    whole = epochs = broken = 0
    with tempfile.TemporaryDirectory() as folder:
        other = os.path.join(folder, "journal")
        for path in sorted(CONFORMANCE.glob("*/*.schedule")):
            journal = path.with_suffix(".out")
            if not journal.exists() or not journal.read_bytes().rstrip(b"\n").split(b"\n")[-1].startswith(b"summary "):
                continue
            schedule, name = path.read_bytes(), str(path.relative_to(ROOT))
            has_epochs = b"\nepochs\n" in schedule
            judge.once(name, ["run", path, journal], (3, b"unread epochs\n") if has_epochs else (0, b"kept\n"))
            whole, epochs = whole + 1, epochs + has_epochs
            change = None if has_epochs else changed(schedule, journal.read_bytes())
            if change:
                pathlib.Path(other).write_bytes(change[0])
                judge.once(f"{name} with another payload", ["run", path, other], (14, b"broken %d\n" % change[1]))
                broken += 1
    return whole, epochs, broken


def long_schedules(judge):
    """Schedules of more than may be read: of a bad line, which is told, of good ones alone, and with too little memory."""
    with tempfile.TemporaryDirectory() as folder:
        path = os.path.join(folder, "long")
        with open(path, "wb") as file:
            file.truncate(MOST_SCHEDULE + 1)
        judge.once("a schedule of one long line", ["run", path, STORY], (3, b"schedule refused 1 LineLong\n"))
        with open(path, "wb") as file:
            file.write(FIRST.read_bytes().split(b"begin\n")[0] + b"begin\n" + (b"inject 1 2 " + 65_507 * b"00" + b"\n") * 513)
        judge.once("a schedule of good lines that is too long", ["run", path, STORY], (3, b"schedule refused 0 TooBig\n"))
        little = lambda: resource.setrlimit(resource.RLIMIT_AS, (LITTLE, LITTLE))
        judge.once("a schedule for which there is no memory", ["run", path, STORY], (9, b""), preexec_fn=little)


def main(program):
    judge = Judge(program)
    count = cases(judge)
    whole, epochs, broken = runs(judge)
    long_schedules(judge)
    print(f"{count} cases, {whole} runs, {epochs} of them with epochs, {broken} changed ones; {judge.runs} runs of the program, {judge.wrong} differ")
    return 1 if judge.wrong else 0


if __name__ == "__main__":
    sys.exit(main(sys.argv[1]))
