"""The last column of the table of crates in docs/HOUSE.md: the public types of each crate, and of a crate of definitions or laws the files of its specs
with the types that they define. Used by documents.py. `write` puts the column into docs/HOUSE.md.
"""

import glob
import os
import re

ROOT = os.path.dirname(os.path.dirname(os.path.abspath(__file__)))
HOUSE = "docs/HOUSE.md"
ROW = re.compile(r"^\| `(\w+)` \| ([^|]*) \| ([^|]*) \|(?: ([^|]*) \|)?$")
TYPE = re.compile(r"^pub (?:struct|enum|trait|type) (\w+)", re.M)
DEFINED = re.compile(r"^pub (?:record|data) (\w+)", re.M)
OF_DEFINITIONS = ("sp_rules", "sp_runs", "laws_")


def sources(crate, folder, end):
    return sorted(glob.glob(os.path.join(ROOT, "crates", crate, folder, "**", f"*.{end}"), recursive=True))


def read(path):
    with open(os.path.join(ROOT, path), encoding="utf-8") as file:
        return file.read()


def names(paths, pattern):
    """The names of these files that the pattern finds, each once."""
    return ", ".join(sorted({name for path in paths for name in pattern.findall(read(path))}))


def cell(crate):
    """What the column says of a crate."""
    specs = sources(crate, "specs", "antt") if crate.startswith(OF_DEFINITIONS) else []
    files = ", ".join(name for name in (os.path.basename(path)[:-5] for path in specs) if name != "Lib")
    told = [("", names(sources(crate, "src", "rt"), TYPE)), ("files: ", files), ("specs: ", names(specs, DEFINED))]
    return "; ".join(what + its for what, its in told if its)


def rows(lines):
    """The lines of the document, with the column as it is."""
    for line in lines:
        row = ROW.match(line)
        is_crate = row and os.path.isdir(os.path.join(ROOT, "crates", row[1]))
        yield f"| `{row[1]}` | {row[2]} | {row[3]} | {cell(row[1])} |".replace("|  |", "| |") if is_crate and row[4] is not None else line


def write():
    text = "\n".join(rows(read(HOUSE).split("\n")))
    with open(os.path.join(ROOT, HOUSE), "w", encoding="utf-8") as file:
        file.write(text)


def faults(documents):
    """The faults of the column: path, line and words."""
    for at, (said, wanted) in enumerate(zip(documents[HOUSE], rows(documents[HOUSE])), 1):
        if said != wanted:
            yield HOUSE, at, f"the types are: {wanted.split(' | ')[-1]}"
