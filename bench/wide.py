"""Builds a program, proved, for processors with eight lanes (x86-64-v3): python3 bench/wide.py FOLDER CRATE [WORDS]

Copies the crates into FOLDER/wide, sets the number of lanes to eight in the two places that say it, and proves, builds and runs the
program CRATE there for the processor level x86-64-v3, with the words after it. Nothing here changes: for the level of the gate four
lanes are better. No proof speaks of the number, so each holds as it stands.
"""

import os
import shutil
import subprocess
import sys

PLACES = (
    ("crates/sp_ots/src/words.rt", "pub const LANES: usize = 4;", "pub const LANES: usize = 8;"),
    ("crates/sp_ots/specs/Lanes.antt", "lanes = 4\n", "lanes = 8\n"),
)


def copy_to(top):
    """The sources at the top, without what was built from them."""
    here = os.path.dirname(os.path.dirname(os.path.abspath(__file__)))
    for name in ("crates.txt", "HANDLES"):
        os.makedirs(top, exist_ok=True)
        shutil.copy(os.path.join(here, name), top)
    shutil.copytree(os.path.join(here, "crates"), os.path.join(top, "crates"), ignore=shutil.ignore_patterns("out"))


def widen(top):
    """Eight lanes in each place that says how many there are."""
    for name, old, new in PLACES:
        path = os.path.join(top, name)
        with open(path, encoding="utf-8") as file:
            text = file.read()
        if text.count(old) != 1:
            sys.exit(f"{name} doesn't say '{old.strip()}' once")
        with open(path, "w", encoding="utf-8") as file:
            file.write(text.replace(old, new))


def main():
    if len(sys.argv) < 3:
        sys.exit(__doc__)
    top = os.path.join(sys.argv[1], "wide")
    copy_to(top)
    widen(top)
    folder = os.path.join(top, "crates", sys.argv[2])
    sys.exit(subprocess.run(["rt", "run", "--cpu=x86-64-v3", "--", *sys.argv[3:]], cwd=folder, check=False).returncode)


if __name__ == "__main__":
    main()
