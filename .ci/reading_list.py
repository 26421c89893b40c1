#!/usr/bin/env python3
"""Judges the reading lists of docs/AUDIT.md: that each file stands there which the clauses of either `run` cite, and that each count is right.

    .ci/reading_list.py            fails where a cited file is missing, a listed one is gone, or a row, a count or a total differs
    .ci/reading_list.py --print    prints the lists at length: a line for each file, with the definitions of it that the clauses cite
    .ci/reading_list.py --write    puts rows, counts and the total into docs/AUDIT.md as they are, and a last row of the files that the others lack

A row has a subject, files by their folders, and a count: the lines of what is cited that are neither blank nor a comment nor an import. A star behind a file
says that the clauses cite some of its definitions and not the others; `--print` tells which.
"""

import os
import re
import sys

sys.path.insert(0, os.path.dirname(os.path.abspath(__file__)))

from definitions import CRATES, ROOT, TOPS, Definitions, closure, read  # noqa: E402

AUDIT = os.path.join(ROOT, "docs", "AUDIT.md")
TRAITS = ["source", "sink", "wire", "clock", "keeper"]
BEGIN = "| What | Files | Lines |"
ELSE = "what else the clauses cite"
ROW = re.compile(r"^\| (.*?) \| (`\w+/(?:specs|src)`: .*?) \| ([\d,]+) \|$")
TOTAL = re.compile(r"^\| together \| \| ([\d,]+) \|$")
ENDS = {"specs": ".antt", "src": ".rt"}


def lines_of(path):
    """How many lines of a file say something."""
    says = lambda line: line and not line.startswith(("--", "//")) and not re.match(r"(ghost )?(pub )?use ", line)
    return sum(bool(says(line.strip())) for line in read(path).split("\n"))


def said_first(path):
    """What a file's first line says."""
    return read(path).split("\n")[0].lstrip("-/! ").rstrip(".")


def paths_in(cell):
    """The files of a row's second cell, by their paths beneath crates/."""
    for folder, names in re.findall(r"`(\w+/(?:specs|src))`: ([^;]*)", cell):
        for name in names.split(","):
            yield f"{folder}/{name.strip().rstrip('*')}{ENDS[folder.split('/')[1]]}"


def listed(text):
    return [path for row in map(ROW.match, text.split("\n")) if row for path in paths_in(row[2])]


def names_of(names):
    """Names as a line tells them."""
    return names[0] if len(names) == 1 else f"{', '.join(names[:-1])} and {names[-1]}"


class Reading:
    """What of each file is to be read."""

    def __init__(self):
        self.definitions = Definitions()
        self.seen = closure(self.definitions)[0]
        self.wanted = sorted({path for path, _ in self.seen} | {f"sp_outside/src/{it}.rt" for it in TRAITS} | set(TOPS))

    def part_of(self, path):
        """Which definitions of a file the clauses cite, in words where they cite some and not all, and how many lines these are."""
        own = self.definitions.own.get(path, set())
        cited = [it for it in sorted(own) if (path, it) in self.seen]
        others = sorted(own - set(cited))
        if not cited or not others:
            return "", lines_of(path)
        count = sum(bool(line.strip()) for it in cited for line in self.definitions.texts[path, it].split("\n"))
        return f"{names_of(cited)} alone" if len(cited) <= len(others) else f"all but {names_of(others)}", count

    def row_of(self, subject, paths):
        """A row of docs/AUDIT.md, and its count."""
        folders, total = {}, 0
        for path in paths:
            part, count = self.part_of(path)
            folder, name = path.split("/", 2)[:2], path.split("/", 2)[2].rsplit(".", 1)[0]
            folders.setdefault("/".join(folder), []).append(name + ("*" if part else ""))
            total += count
        files = "; ".join(f"`{folder}`: {', '.join(names)}" for folder, names in folders.items())
        return f"| {subject} | {files} | {total:,} |", total

    def written(self, text):
        """The text with all rows, counts and totals as they are."""
        total, out = 0, []
        for line in text.split("\n"):
            row = ROW.match(line)
            if line.startswith(BEGIN):
                total = 0
            if row:
                line, count = self.row_of(row[1], [it for it in paths_in(row[2]) if os.path.exists(os.path.join(CRATES, it))])
                total += count
            elif TOTAL.match(line):
                line = f"| together | | {total:,} |"
            out.append(line)
        return "\n".join(out)

    def with_else(self, text):
        """The text with the row of what no other has."""
        bare = "\n".join(line for line in text.split("\n") if not line.startswith(f"| {ELSE} |"))
        left = [path for path in self.wanted if path not in listed(bare)]
        at = bare.index("| together |", bare.index(BEGIN))
        return bare[:at] + (self.row_of(ELSE, left)[0] + "\n" if left else "") + bare[at:]

    def printed(self, text):
        """The lists at length."""
        for line in text.split("\n"):
            row = ROW.match(line)
            if line.startswith("| **"):
                yield "\n" + line.split("**")[1]
            elif row:
                yield f"  {row[1]}"
                for path in paths_in(row[2]):
                    part, count = self.part_of(path)
                    yield f"{count:6,}  crates/{path}{', ' + part if part else ''}: {said_first(path)}"

    def faults(self, text):
        """What is wrong with the lists of a text."""
        have = listed(text)
        gone = [it for it in have if not os.path.exists(os.path.join(CRATES, it))]
        found = [f"{it} is cited by the clauses of `run`, and no list has it" for it in self.wanted if it not in have]
        found += [f"{it} is listed, and isn't there" for it in gone]
        if not found:
            pairs = zip(text.split("\n"), self.written(text).split("\n"))
            found = [f"a row differs: {said} is {right}" for said, right in pairs if said != right]
        return found


def main(words):
    with open(AUDIT, encoding="utf-8") as it:
        text = it.read()
    reading = Reading()
    if "--write" in words:
        text = reading.written(reading.with_else(text))
        with open(AUDIT, "w", encoding="utf-8") as it:
            it.write(text)
    if "--print" in words:
        print("\n".join(reading.printed(text)).lstrip("\n"))
        return 0
    faults = reading.faults(text)
    for fault in faults:
        print(fault)
    files = {path for path, _ in reading.seen}
    print(f"reading list: {len(reading.seen)} definitions in {len(files)} files, {len(listed(text))} files listed, {len(faults)} faults")
    return 1 if faults else 0


if __name__ == "__main__":
    sys.exit(main(sys.argv[1:]))
