"""Throws changed inputs at the program, and says what isn't as docs/FORMATS.md promises: python3 fuzz/fuzz.py PROGRAM [--runs N] [--seed S]

Each input is a file of conformance/ with one to four changes (mutations.py). The program runs over it under a limit of memory and time. No signal,
no status outside the table, no word on standard error, and no output other than its status promises (promises.py) is accepted. A part of the inputs
runs twice, and must answer the same; of schedules that are accepted a beginning runs too, and must give a beginning of the same journal. The same
seed gives the same inputs. An input that isn't answered so is kept in the folder of --found, and the status is then 1.
"""

import argparse
import collections
import concurrent.futures
import glob
import os
import random
import resource
import signal
import subprocess
import sys
import tempfile

from mutations import changed
from promises import Broken, command_of, cut_keeps, keeps

ROOT = os.path.dirname(os.path.dirname(os.path.abspath(__file__)))
PLAIN = {"schedule": ["replay"], "toml": ["topology"], "recording": ["verify"], "graph": None}
# how often a kind is taken, how much more often a good input is than one that is refused as it stands, and the largest file that is
SHARES = {"schedule": 48, "graph": 16, "toml": 12, "recording": 20, "daemon": 4}
GOOD, LARGEST = 12, 120_000
MEMORY, SECONDS = 512 << 20, 20
AGAIN, CUTS = 0.2, 2
# a key file that is just formatted: docs/FORMATS.md, "The key file"
KEY_FILE = bytes([0xA5]) + (1).to_bytes(8, "big") + bytes(16)

Case = collections.namedtuple("Case", "name words text share")
Answer = collections.namedtuple("Answer", "status output said")


def read(path):
    with open(path, "rb") as file:
        return file.read()


def cases():
    """The inputs of conformance/ by their kind, with the words of each."""
    found = {kind: [] for kind in SHARES}
    for kind, plain in PLAIN.items():
        for path in sorted(glob.glob(os.path.join(ROOT, "conformance", "*", "*." + kind))):
            front = path.removesuffix("." + kind)
            try:
                words = read(front + ".words").decode("ascii").split("\n")[:-1] if os.path.exists(front + ".words") else plain
            except UnicodeDecodeError:
                continue
            status = int(read(front + ".status"))
            if status != 2 and words and os.path.getsize(path) <= LARGEST:
                found[kind].append(Case(os.path.relpath(path, ROOT), words, read(path), GOOD if status == 0 else 1))
    for case in found["recording"]:
        configuration = case.text[:case.text.find(b"\nrecording 1") + 1]
        found["daemon"].append(Case(case.name, ["daemon", "--turns", "1"], configuration, case.share))
    return found


def limited():
    resource.setrlimit(resource.RLIMIT_AS, (MEMORY, MEMORY))
    resource.setrlimit(resource.RLIMIT_CPU, (SECONDS, SECONDS))
    resource.setrlimit(resource.RLIMIT_CORE, (0, 0))


def run(program, words, given):
    """One run, in a folder of its own where it may keep a key file."""
    with tempfile.TemporaryDirectory() as folder:
        if command_of(words) == "daemon":
            with open(os.path.join(folder, "spinesd.keys"), "wb") as file:
                file.write(KEY_FILE)
        try:
            ended = subprocess.run([program, *words], input=given, stdout=subprocess.PIPE, stderr=subprocess.PIPE, cwd=folder, check=False,
                                   preexec_fn=limited, timeout=6 * SECONDS)
        except subprocess.TimeoutExpired:
            raise Broken(f"no end within {6 * SECONDS} seconds") from None
    return Answer(ended.returncode, ended.stdout, ended.stderr)


def judge(program, dice, words, given):
    """The status of an input, and how often the program ran for it; `Broken` where an answer isn't as promised."""
    command = command_of(words)
    answer = run(program, words, given)
    if answer.said:
        raise Broken(f"words on standard error: {answer.said[:200]!r}")
    keeps(words, given, answer.status, answer.output)
    runs = 1
    if command != "daemon" and dice.random() < AGAIN:
        runs += 1
        if run(program, words, given) != answer:
            raise Broken("a second run answers otherwise")
    if command == "replay" and answer.status == 0:
        newlines = [place for place in range(given.index(b"\nbegin\n") + 6, len(given) - 5) if given[place] == 10]
        for place in dice.sample(newlines, min(CUTS, len(newlines))):
            runs += 1
            cut = run(program, words, given[:place + 1])
            keeps(words, given[:place + 1], cut.status, cut.output)
            if cut.status != 3:
                raise Broken(f"a cut schedule ends with status {cut.status}")
            cut_keeps(answer.output, cut.output)
    return answer.status, runs


def try_one(program, found, seed, number, keep):
    """One input: its command and status, how often the program ran, and what was wrong with it or None."""
    dice = random.Random(f"{seed} {number}")
    kind = dice.choices(list(SHARES), list(SHARES.values()))[0]
    case, other = dice.choices(found[kind], [case.share for case in found[kind]], k=2)
    given = changed(dice, case.text, other.text)
    try:
        status, runs = judge(program, dice, case.words, given)
        return f"{command_of(case.words)} {status}", runs, None
    except Broken as broken:
        os.makedirs(keep, exist_ok=True)
        path = os.path.join(keep, f"{seed}-{number}")
        with open(path, "wb") as file:
            file.write(given)
        return f"{command_of(case.words)} broken", 1, f"{path}, made of {case.name}, words {case.words}: {broken}"


def try_all(said, program, found):
    """All inputs; how many weren't answered as promised. Who stops it is told of those up to there."""
    counts, runs, wrong = collections.Counter(), 0, 0
    pool = concurrent.futures.ThreadPoolExecutor(said.jobs)
    signal.signal(signal.SIGTERM, signal.default_int_handler)
    try:
        one = lambda number: try_one(program, found, said.seed, number, said.found)
        for name, count, told in pool.map(one, range(said.first, said.first + said.runs)):
            counts[name] += 1
            runs += count
            if told:
                wrong += 1
                print(told, flush=True)
    except KeyboardInterrupt:
        print("stopped")
    pool.shutdown(cancel_futures=True)
    print(f"{counts.total()} inputs of seed {said.seed}, {runs} runs: " + ", ".join(f"{name}: {count}" for name, count in sorted(counts.items())))
    print(f"{wrong} answers aren't as promised")
    return wrong


def main():
    parser = argparse.ArgumentParser(description=__doc__.partition("\n\n")[0])
    parser.add_argument("program")
    parser.add_argument("--runs", type=int, default=200, help="how many inputs (default 200)")
    parser.add_argument("--seed", type=int, default=1, help="which inputs (default 1)")
    parser.add_argument("--first", type=int, default=0, help="the number of the first input (default 0)")
    parser.add_argument("--jobs", type=int, default=1, help="how many programs run at once (default 1)")
    parser.add_argument("--found", default=os.path.join(tempfile.gettempdir(), "spinesd_fuzz"), help="where inputs are kept that were answered wrongly")
    said = parser.parse_args()
    sys.exit(1 if try_all(said, os.path.abspath(said.program), cases()) else 0)


if __name__ == "__main__":
    main()
