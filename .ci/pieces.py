"""Feeds schedules through pipes in pieces, and compares byte by byte: python3 .ci/pieces.py PATH/TO/spinesd

A read of the pipe gives one piece: 1 byte, 7, 4,096, or the bytes up to the next newline, as a sender who writes line by line. Each schedule
of conformance/ of at most MOST bytes goes through each, and those that are longer, as the long ones that are made here, in pieces of
4,096 alone. The status and the output must be those of its case. Then the sender waits: `journal 1` must be there before the first event comes,
and each entry before the next line. Each difference is told, and the status is then 1.

It uses packets of a pipe (O_DIRECT), which Linux alone has: a write that is a packet is one read.
"""

import concurrent.futures
import os
import select
import subprocess
import sys
import threading
import time

import conformance

MOST = 16_384
# the seconds that an entry may take to come
PATIENCE = 10


def pieces_of(text, size):
    """The text cut into pieces of this size, or behind each newline where there is none. A packet has at most 4,096 bytes."""
    if size is not None:
        return [text[at:at + size] for at in range(0, len(text), size)]
    lines = text.split(b"\n")
    return [piece for line in [*(line + b"\n" for line in lines[:-1]), lines[-1]] for piece in pieces_of(line, 4_096)]


def feed(end, pieces):
    """Writes the pieces, a packet each, to a reader who may go away."""
    try:
        for piece in pieces:
            os.write(end, piece)
    except BrokenPipeError:
        pass
    os.close(end)


def replayed(program, pieces):
    """The status and the output of a replay of these pieces."""
    ours, theirs = os.pipe2(os.O_DIRECT | os.O_CLOEXEC)
    child = subprocess.Popen([program, "replay"], stdin=ours, stdout=subprocess.PIPE)
    os.close(ours)
    sender = threading.Thread(target=feed, args=(theirs, pieces))
    sender.start()
    output = child.stdout.read()
    sender.join()
    return child.wait(), output


class Pieces:
    """The program, how many replays came as wanted, and how many did not."""

    def __init__(self, program):
        self.program, self.count, self.wrong = os.path.abspath(program), 0, 0

    def judge(self, name, is_wanted, what):
        self.count += 1
        if not is_wanted:
            self.wrong += 1
            print(f"{name}: {what}")

    def schedule(self, name, text, status, is_right, sizes):
        """The replays of a schedule, each its name, whether it was as wanted, and what it was."""
        rows = []
        for size in sizes:
            ended, output = replayed(self.program, pieces_of(text, size))
            rows.append((f"{name} in pieces of {size or 'a line'}", ended == status and is_right(output), f"status {ended}, wanted {status}; wrote {output[:200]!r}"))
        return rows

    def judge_all(self, cases, at_once):
        """Judges schedules, so many at once."""
        with concurrent.futures.ThreadPoolExecutor(at_once) as pool:
            for rows in pool.map(lambda case: self.schedule(*case), cases):
                for row in rows:
                    self.judge(*row)

    @staticmethod
    def files():
        """The cases of conformance/."""
        for folder, _, names in sorted(os.walk(conformance.FOLDER)):
            for name in sorted(names):
                if not name.endswith(".schedule"):
                    continue
                path = os.path.join(folder, name.removesuffix(".schedule"))
                if conformance.words_of(path, "schedule") != [b"replay"]:
                    continue
                text = conformance.stored(path + ".schedule")
                sizes = (1, 7, 4_096, None) if len(text) <= MOST else (4_096,)
                yield os.path.relpath(path, conformance.ROOT), text, int(conformance.stored(path + ".status")), conformance.right_of(path), sizes

    @staticmethod
    def recipes():
        """The long ones."""
        for name, words, parts, status, output in conformance.RECIPES:
            if words == [b"replay"]:
                yield name, b"".join(part * count for part, count in parts), status, lambda wrote, output=output: wrote == output, (4_096,)

    def line_by_line(self):
        """A sender who waits for the answer to each line."""
        ours, theirs = os.pipe2(os.O_CLOEXEC)
        child = subprocess.Popen([self.program, "replay"], stdin=ours, stdout=subprocess.PIPE)
        os.close(ours)
        for line, answer in [(conformance.HEADER, b"journal 1\n"), (b"take 3 1\n", b"1 empty\n"), (b"take 3 1\n", b"2 empty\n"), (b"take 1 9\n", b"refused 11 Range\n")]:
            os.write(theirs, line)
            self.judge(f"the answer to {line[-10:]!r}", self.comes(child.stdout, answer), "it didn't come before the next line")
        os.close(theirs)
        self.judge("the end of a sender who waits", child.wait() == 3, f"status {child.returncode}")

    @staticmethod
    def comes(pipe, wanted):
        """Whether just these bytes come in time."""
        end, got = time.monotonic() + PATIENCE, b""
        while len(got) < len(wanted):
            if not select.select([pipe], [], [], max(0, end - time.monotonic()))[0]:
                return False
            piece = os.read(pipe.fileno(), len(wanted) - len(got))
            if not piece:
                return False
            got += piece
        return got == wanted


def main():
    if len(sys.argv) != 2:
        sys.exit("usage: python3 .ci/pieces.py PATH/TO/spinesd")
    pieces = Pieces(sys.argv[1])
    pieces.line_by_line()
    pieces.judge_all(pieces.files(), os.cpu_count())
    for case in pieces.recipes():
        pieces.judge_all([case], 1)
    print(f"{pieces.count - pieces.wrong} replays in pieces as wanted, {pieces.wrong} not")
    sys.exit(1 if pieces.wrong else 0)


if __name__ == "__main__":
    main()
