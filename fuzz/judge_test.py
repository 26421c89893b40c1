"""Tries the fuzzer's judge: python3 fuzz/judge_test.py

The stored output of each case of conformance/ is as promised, and one that is changed isn't. Then programs that answer wrongly are tried: each is
found out by a few inputs. Each difference is told, and the status is then 1.
"""

import os
import re
import subprocess
import sys
import tempfile

import fuzz
from promises import Broken, cut_keeps, keeps

HERE = os.path.dirname(os.path.abspath(__file__))
# a change of an output, of which status, and of which command
CHANGES = [
    ("another status", "replay", 0, lambda status, output: (3, output)),
    ("a status outside the table", "replay", 0, lambda status, output: (101, output)),
    ("a signal", "paths", 3, lambda status, output: (-11, output)),
    ("no newline at the end", "replay", 0, lambda status, output: (status, output[:-1])),
    ("a summary of one frame more", "replay", 0, lambda status, output: (status, more(rb"frames (\d+)\n$", output))),
    ("a summary of one message more", "replay", 0, lambda status, output: (status, more(rb"sent (\d+) delivered", output))),
    ("an entry twice", "replay", 0, lambda status, output: (status, re.sub(rb"\n(\d+ .*\n)", rb"\n\1\1", output, count=1) if b"\n1 " in output else b"")),
    ("a refusal one line on", "replay", 3, lambda status, output: (status, more(rb"refused (\d+) ", output)) if b"journal" in output else (0, output)),
    ("a kind that is none", "replay", 3, lambda status, output: (status, re.sub(rb"[A-Za-z]+\n$", b"Odd\n", output))),
    ("a forgery one event on", "replay", 4, lambda status, output: (status, more(rb"forged (\d+) ", output))),
    ("a cost of one more", "paths", 0, lambda status, output: (status, more(rb"cost (\d+)\n$", output))),
    ("a path twice", "paths", 0, lambda status, output: (status, output.split(b"\n")[0] + b"\n" + output)),
    ("as many paths as asked for", "paths", 12, lambda status, output: (status, re.sub(rb"fewer \d", b"fewer 8", output))),
    ("one digest more", "verify", 0, lambda status, output: (status, more(rb"verified (\d+)\n$", output))),
    ("half a key", "topology", 0, lambda status, output: (status, output[:-2] + b"\n")),
    ("more than a refusal", "topology", 3, lambda status, output: (status, b"4d544d57\n" + output)),
]
PROGRAMS = [
    ("one that says nothing", "exit 0"), ("one that is killed", "kill -SEGV $$"), ("one that always says usage", "echo usage; exit 2"),
    ("one that talks", "echo oh >&2; echo refused 1 Header; exit 3"), ("one that answers otherwise each time", "echo refused 1$$ Word; exit 3"),
]


def more(pattern, output):
    """The output with a number that is one more."""
    return re.sub(pattern, lambda found: found.group(0).replace(found.group(1), b"%d" % (int(found.group(1)) + 1)), output, count=1)


def is_broken(words, given, status, output):
    try:
        keeps(words, given, status, output)
        return None
    except Broken as broken:
        return str(broken)


def stored():
    """The cases that have a stored output: words, input, status, output."""
    for kind, found in fuzz.cases().items():
        for case in found if kind != "daemon" else ():
            front = os.path.join(fuzz.ROOT, case.name.removesuffix("." + kind))
            if os.path.exists(front + ".out"):
                yield case, int(fuzz.read(front + ".status")), fuzz.read(front + ".out")


def outputs():
    """How many outputs are judged, and what is judged wrongly."""
    looks, wrong = 0, []
    for case, status, output in stored():
        told = is_broken(case.words, case.text, status, output)
        wrong += [f"{case.name}: {told}"] if told else []
        for name, command, of, change in CHANGES:
            other = change(status, output) if command in case.words and of == status else (status, output)
            if other != (status, output):
                looks += 1
                wrong += [] if is_broken(case.words, case.text, *other) else [f"{case.name}: {name} isn't found out"]
        looks += 1
    return looks, wrong


def programs():
    """The programs that aren't found out."""
    wrong = []
    with tempfile.TemporaryDirectory() as folder:
        path = os.path.join(folder, "program")
        for name, line in PROGRAMS:
            with open(path, "w", encoding="ascii") as file:
                file.write(f"#!/bin/sh\n{line}\n")
            os.chmod(path, 0o755)
            words = [sys.executable, os.path.join(HERE, "fuzz.py"), path, "--runs", "12", "--found", folder]
            ended = subprocess.run(words, stdout=subprocess.DEVNULL, check=False)
            wrong += [] if ended.returncode == 1 else [f"{name} isn't found out"]
    return wrong


def main():
    looks, wrong = outputs()
    journal = b"journal 1\n1 empty\n2 empty\nsummary events 2 sent 0 delivered 0 priority 0 frames 0\n"
    for cut, is_so in [(b"journal 1\n1 empty\nrefused 11 NoEnd\n", True), (b"journal 1\n1 ticked\nrefused 11 NoEnd\n", False), (journal, False)]:
        try:
            cut_keeps(journal, cut)
            found = True
        except Broken:
            found = False
        wrong += [] if found == is_so else [f"a cut schedule: {cut!r}"]
    wrong += programs()
    for told in wrong:
        print(told)
    print(f"{looks + 3 + len(PROGRAMS)} answers judged, {len(wrong)} wrongly")
    sys.exit(1 if wrong else 0)


if __name__ == "__main__":
    main()
