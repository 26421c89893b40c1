"""Tries the planted bugs that a script must tell: python3 planted/scripts.py [NAME ..]

Each file planted/spinesd/scripts/NAME.edit is a small bug of an adapter of `spinesd`, in the form of the others, and its line `script:` names the script of .ci
that must tell it, since no clause says what an adapter asks of the system. Each is put into one copy of the crate, and the program is proved, built and run
by its script. The status is 1 where a script passes, a bug can't be planted, or the prover refuses one, which then belongs to planted/spinesd.

The copy stands beside the checkout and is removed; it begins with what earlier checks kept in out/: so build `spinesd` first. A bug takes some minutes.
"""

import os
import shutil
import subprocess
import sys
import tempfile

from run import ROOT, function_at, lay_copy, plant, read_edit

CRATE = "spinesd"
EDITS = os.path.join(ROOT, "planted", CRATE, "scripts")


def script_of(path):
    """The script that must tell a bug."""
    with open(path, encoding="utf-8") as lines:
        return next(line.split(": ", 1)[1].strip() for line in lines if line.startswith("script: "))


def built(folder):
    """The program of the crate in this folder. None where it isn't proved."""
    program = os.path.join(folder, "out", CRATE)
    if os.path.exists(program):
        os.remove(program)
    subprocess.run(["rt", "run"], cwd=folder, stdin=subprocess.DEVNULL, stdout=subprocess.PIPE, stderr=subprocess.STDOUT, check=False)
    return program if os.path.exists(program) else None


def answer_to(copy, name):
    """What became of a bug, and whether its script told it."""
    path = os.path.join(EDITS, f"{name}.edit")
    file, pairs = read_edit(path)
    folder = os.path.join(copy, "crates", CRATE)
    source = os.path.join(ROOT, "crates", CRATE, file)
    with open(source, encoding="utf-8") as lines:
        text = lines.read()
    try:
        if not plant(folder, [(name, file, pairs, function_at(text, text.find(pairs[0][0])))]):
            return "NOT PLANTED", False
        program = built(folder)
    finally:
        shutil.copy(source, os.path.join(folder, file))
    if program is None:
        return "refused by the prover: it belongs to planted/spinesd", False
    script = script_of(path)
    ended = subprocess.run([sys.executable, os.path.join(ROOT, ".ci", f"{script}.py"), program], stdout=subprocess.PIPE, stderr=subprocess.STDOUT, text=True,
                           check=False)
    if os.environ.get("SHOW"):
        print(ended.stdout)
    return (f"told by {script}", True) if ended.returncode else (f"NOT TOLD by {script}", False)


def main():
    names = sys.argv[1:] or sorted(name[:-5] for name in os.listdir(EDITS) if name.endswith(".edit"))
    wrong = 0
    with tempfile.TemporaryDirectory(dir=os.path.dirname(ROOT), prefix="planted-") as copy:
        lay_copy(copy, CRATE)
        for name in names:
            said, is_told = answer_to(copy, name)
            wrong += not is_told
            print(f"{name}: {said}", flush=True)
    print(f"{len(names)} planted bugs of adapters, {wrong} not told")
    return 1 if wrong else 0


if __name__ == "__main__":
    sys.exit(main())
