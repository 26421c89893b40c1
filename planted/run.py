"""Tries the planted bugs: python3 planted/run.py [CRATE ..]

Each file planted/CRATE/NAME.edit is a small bug, as three lines: `file:`, `old:` and `new:` (further pairs apply to what the earlier
ones made). All bugs of a crate that stand in functions of their own are put into one copy of it, and the copy is checked once: a bug is
refused where its function isn't proved. Bugs of one function take turns. The status is 1 where a bug isn't refused or can't be planted.

The copy stands beside the checkout and is removed; the check begins with what earlier checks kept in out/: so check the crate first.
"""

import os
import re
import shutil
import subprocess
import sys
import tempfile

ROOT = os.path.dirname(os.path.dirname(os.path.abspath(__file__)))
FUNCTION = re.compile(r"^\s*(?:pub(?:\([a-z]+\))? )?(?:const )?fn (\w+)")


def read_edit(path):
    """The file that a bug changes, and its pairs of old and new text."""
    name, pairs = None, []
    with open(path, encoding="utf-8") as lines:
        for line in lines:
            word, text = line.rstrip("\n").split(": ", 1) if ": " in line else (line.rstrip("\n").rstrip(":"), "")
            if word == "file":
                name = text
            elif word == "old":
                pairs.append([text, ""])
            elif word == "new":
                pairs[-1][1] = text
    return name, pairs


def function_at(text, place):
    """The name of the last function that begins before this place. The empty name where none does, as in a table above all functions."""
    found = ""
    for line in text[:place].split("\n") + [text[place:].split("\n", 1)[0]]:
        match = FUNCTION.match(line)
        found = match.group(1) if match else found
    return found


def rounds_of(crate, edits):
    """The bugs in rounds: in one round, no two of them stand in one function. One that stands in no function has a round of its own."""
    rounds = []
    for edit in sorted(edits):
        name, pairs = read_edit(os.path.join(ROOT, "planted", crate, edit))
        with open(os.path.join(ROOT, "crates", crate, name), encoding="utf-8") as file:
            text = file.read()
        place = text.find(pairs[0][0])
        bug = (edit, name, pairs, function_at(text, place) if text.count(pairs[0][0]) == 1 else None)
        for there in rounds:
            if bug[3] and all(other[3] and (name, bug[3]) != (other[1], other[3]) for other in there):
                there.append(bug)
                break
        else:
            rounds.append([bug])
    return rounds


def plant(folder, bugs):
    """Puts the bugs into the crate in this folder. Those that can't be planted are told and left out."""
    planted = []
    for edit, name, pairs, function in bugs:
        path = os.path.join(folder, name)
        with open(path, encoding="utf-8") as file:
            text = file.read()
        for old, new in pairs:
            if function is None or text.count(old) != 1:
                print(f"{edit}: its text stands {text.count(old)} times: {old}")
                function = None
                break
            text = text.replace(old, new)
        else:
            with open(path, "w", encoding="utf-8") as file:
                file.write(text)
            planted.append((edit, function))
    return planted


def judged_in(folder):
    """The functions of the crate that the check doesn't prove: those at fault themselves, and all of them."""
    ended = subprocess.run(["rt", "check"], cwd=folder, stdout=subprocess.PIPE, stderr=subprocess.STDOUT, text=True)
    if os.environ.get("SHOW"):
        print(ended.stdout)
    at_fault, unproved = set(), set()
    for line in ended.stdout.split("\n"):
        match = re.match(r"^fn [\w:]+::(\w+): (no proof|not proved)(.*)", line)
        if match:
            unproved.add(match.group(1))
            if "it calls" not in match.group(3):
                at_fault.add(match.group(1))
        match = re.match(r"^\./proofs/(?:[\w/+]+/)?(\w+)/\w+\.antt:\d+:\d+: error", line)
        if match:
            at_fault.add(match.group(1))
    return at_fault, unproved


def lay_copy(copy, crate):
    """The sources of the checkout in this folder, with what earlier checks kept: of this crate all, of the others the libraries that they made."""
    for part in ("crates", "crates.txt", "HANDLES"):
        source = os.path.join(ROOT, part)
        if os.path.isdir(source):
            shutil.copytree(source, os.path.join(copy, part), ignore=shutil.ignore_patterns("out"))
        else:
            shutil.copy(source, copy)
    for name in os.listdir(os.path.join(ROOT, "crates")):
        kept, into = (os.path.join(top, "crates", name, "out") for top in (ROOT, copy))
        if name == crate and os.path.isdir(kept):
            shutil.copytree(kept, into)
        elif os.path.isdir(os.path.join(kept, "rlib")):
            shutil.copytree(os.path.join(kept, "rlib"), os.path.join(into, "rlib"), copy_function=os.link)


def try_round(crate, bugs, alone):
    """Those of the bugs that are refused, those that aren't, and those that only call a function which is: these want a try alone."""
    with tempfile.TemporaryDirectory(dir=os.path.dirname(ROOT), prefix="planted-") as copy:
        lay_copy(copy, crate)
        folder = os.path.join(copy, "crates", crate)
        planted = plant(folder, bugs)
        at_fault, unproved = judged_in(folder)
    refused = [bug for bug in planted if bug[1] in (unproved if alone else at_fault) or (not bug[1] and unproved)]
    unclear = [bug for bug in planted if bug not in refused and bug[1] in unproved]
    names = [edit for edit, _ in refused + unclear]
    passed = [bug for bug in bugs if bug[0] not in names]
    return refused, passed, [bug for bug in bugs if bug[0] in [edit for edit, _ in unclear]]


def main():
    wanted = sys.argv[1:] or sorted(name for name in os.listdir(os.path.join(ROOT, "planted")) if not name.endswith(".py"))
    wrong, count = 0, 0
    for crate in wanted:
        edits = [name for name in os.listdir(os.path.join(ROOT, "planted", crate)) if name.endswith(".edit")]
        rounds = [(there, False) for there in rounds_of(crate, edits)]
        while rounds:
            there, alone = rounds.pop(0)
            refused, passed, unclear = try_round(crate, there, alone or len(there) == 1)
            rounds += [([bug], True) for bug in unclear]
            count += len(refused) + len(passed)
            wrong += len(passed)
            for edit, function in refused:
                print(f"{crate}: {edit[:-5]}: refused at {function or 'a table'}", flush=True)
            for bug in passed:
                print(f"{crate}: {bug[0][:-5]}: NOT REFUSED at {bug[3]}", flush=True)
    print(f"{count} planted bugs, {wrong} not refused or not planted")
    return 1 if wrong else 0


if __name__ == "__main__":
    sys.exit(main())
