"""Builds a program of this checkout by `rt run`, which proves each crate first: a line for each crate that is done, and all that is said in a file."""

import os
import re
import subprocess
import sys
import time

CRATE = re.compile(r"^(?:fn|struct|enum|trait|impl|const) (\w+)::.*: proved$")
VERDICT = re.compile(r"^logic=proved functions=(\d+)")
# how many of the last lines are shown where the end isn't good, and what is no help there
SHOWN = 20
NO_HELP = re.compile(r"^(?:fn|struct|enum|trait|impl|const) .*: proved$|^statements |^by-macro")
SECONDS_A_LINE = 60
# a short run of the auditor's program, and of each other one
SHORT_AUDIT, SHORT = ["schedule", "examples/first_message.schedule"], ["generate", "--seed", "7"]


def crates_below(root, program):
    """How many crates the program stands on, with itself, by crates.txt."""
    below = {}
    with open(os.path.join(root, "crates.txt"), encoding="utf-8") as file:
        for line in file:
            name, colon, uses = line.split("#")[0].partition(":")
            if colon:
                below[name.split()[0]] = uses.split()
    found, waits = set(), [program]
    while waits:
        name = waits.pop()
        if name in below and name not in found:
            found.add(name)
            waits += below[name]
    return len(found)


class Progress:
    """Tells each crate once, and once a minute how far the one at work is."""

    def __init__(self, crates):
        self.crates, self.done, self.crate, self.begin, self.last = crates, 0, "the first", time.monotonic(), time.monotonic()

    def say(self, text):
        minutes, seconds = divmod(int(time.monotonic() - self.begin), 60)
        print(f"{text}, {minutes}:{seconds:02} so far", flush=True)
        self.last = time.monotonic()

    def hear(self, line):
        if found := CRATE.match(line):
            self.crate = found.group(1)
        elif found := VERDICT.match(line):
            self.done += 1
            self.say(f"crate {self.done} of {self.crates}: {self.crate}, {found.group(1)} functions proved")
        elif line.startswith("so far: ") and self.last + SECONDS_A_LINE < time.monotonic():
            self.say(f"crate {self.done + 1} of {self.crates}: {line.removeprefix('so far: ')}")


def build(root, program):
    """Proves and builds a program of the checkout, whose own run is a short one. Ends where that isn't good."""
    folder = os.path.join(root, "crates", program)
    os.makedirs(os.path.join(folder, "out"), exist_ok=True)
    path, last = os.path.join(folder, "out", "build.log"), []
    progress = Progress(crates_below(root, program))
    print(f"The program isn't built yet. `rt run` proves and builds it, once; what the prover says goes to {path}.", flush=True)
    short = [SHORT_AUDIT[0], os.path.join(root, SHORT_AUDIT[1])] if program == "spinesd_audit" else SHORT
    words = ["rt", "run", "--", *short]
    with open(path, "w", encoding="utf-8") as log:
        child = subprocess.Popen(words, cwd=folder, stdin=subprocess.DEVNULL, stdout=subprocess.PIPE, stderr=subprocess.STDOUT, text=True, errors="replace")
        for line in child.stdout:
            log.write(line)
            progress.hear(line.rstrip("\n"))
            if not NO_HELP.match(line):
                last = [*last, line][-SHOWN:]
    if child.wait():
        sys.exit("".join(last) + f"The program wasn't built: `rt run` ended with status {child.returncode}; all that it said is in {path}.")
    progress.say("The program is built")


if __name__ == "__main__":
    build(os.path.dirname(os.path.dirname(os.path.dirname(os.path.abspath(__file__)))), *(sys.argv[1:2] or ["spinesd"]))
