"""What documents cite, judged against the repository. Used by documents.py.

1. A path in backticks that begins with a folder of the repository is there: a file, a folder, the beginning of a file's name up to its end, or what a gate
   makes in an `out/`; a trailing `:NAME` and stars are allowed. So is a path beneath a crate (`sp_rules/specs/..`), and a bare name of a file (`Rounds.antt`).
2. A word in backticks that is written as a name of the sources, with an underscore, as `Type::name`, or in two humps (`IsBegun`), is one of them: of crates/,
   kit/, .ci/, bench/, fuzz/, planted/ or examples/. A metric is its name behind `spinesd_`; what ends with an underscore begins a name.
3. What stands in backticks ends on its line.
4. A document that is named, in a document or in any source, is there; and the heading that is named behind it stands in it: docs/FORMATS.md, "Messages".
"""

import glob
import os
import re
import subprocess

ROOT = os.path.dirname(os.path.dirname(os.path.abspath(__file__)))
SOURCES = ("crates", "kit", ".ci", "bench", "fuzz", "planted", "examples")
QUOTED = re.compile(r"(?<!`)`([^`\n]+)`(?!`)")
NAME = re.compile(r"(?:[A-Za-z]\w*::)*[A-Za-z]\w*(?:\(\))?")
HUMPS = re.compile(r"[A-Z][a-z]+(?:[A-Z][a-z]*)+")
FILE = re.compile(r"[\w.-]+\.(?:antt|rt|py|md|yml|conf\.5)")
WORD = re.compile(r"[A-Za-z_]\w*")
DOCUMENT = re.compile(r"(?<![\w/])docs/([A-Za-z_.]+\.md)(?:, \\?\"([A-Z][^\"\\]*)\\?\")?")
# files that a program makes, and a name of the system
MADE = {"spinesd.conf", "spinesd.keys", "spinesd.conf.VERSION"}


def files():
    """All files that the repository keeps, and their folders."""
    listed = subprocess.run(["git", "ls-files", "-co", "--exclude-standard"], cwd=ROOT, stdout=subprocess.PIPE, text=True, check=True).stdout.split("\n")
    found = {name for name in listed if name and os.path.lexists(os.path.join(ROOT, name))}
    for name in list(found):
        while name := os.path.dirname(name):
            found.add(name)
    return found


def sources(found):
    """The text of each source, by its path."""
    for name in sorted(found):
        path = os.path.join(ROOT, name)
        if name.split("/")[0] in SOURCES + ("crates.txt",) and os.path.isfile(path):
            with open(path, "rb") as file:
                yield name, file.read().decode("utf-8", "replace")


def path_fault(quoted, found):
    """What is wrong with a path; None where nothing is."""
    path = quoted.rstrip("/").split(":")[0]
    if path in found or "/out/" in path or glob.glob(os.path.join(ROOT, path)) or glob.glob(os.path.join(ROOT, path) + ".*"):
        return None
    return "no such file"


class Names:
    """What the repository has: files, words of the sources, and headings of the documents."""

    def __init__(self, found, documents):
        self.found = found
        self.files = {os.path.basename(name) for name in found} | MADE
        self.words = set()
        for name in found:
            self.words.update(WORD.findall(os.path.basename(name)))
        self.cited = []
        for name, text in sources(found):
            self.words.update(WORD.findall(text))
            self.cited += [(name, text.count("\n", 0, match.start()) + 1, match) for match in DOCUMENT.finditer(text)]
        self.headings = {path: {re.sub(r" \(`.*", "", line.lstrip("# ")) for line in lines if line.startswith("#")} for path, lines in documents.items()}

    def fault_of(self, quoted):
        """What is wrong with words in backticks; None where nothing is."""
        first = quoted.split("/")[0]
        if "/" in quoted and " " not in quoted and not re.search(r"[<>{}]|\.\.$|[A-Z]{3,}", quoted):
            if first in self.found:
                return path_fault(quoted, self.found)
            if f"crates/{first}" in self.found:
                return path_fault("crates/" + quoted, self.found)
        if FILE.fullmatch(quoted):
            return None if quoted in self.files else "no such file"
        if NAME.fullmatch(quoted) and ("_" in quoted or "::" in quoted or HUMPS.fullmatch(quoted)):
            missing = [word for word in WORD.findall(quoted.removeprefix("spinesd_")) if not self.has(word)]
            return f"no such name: {missing[0]}" if missing else None
        return None

    def has(self, word):
        return word in self.words or word.endswith("_") and any(it.startswith(word) for it in self.words)

    def document_fault(self, match):
        """What is wrong with a document that is named."""
        path, heading = "docs/" + match[1], match[2]
        if path not in self.headings:
            return f"{path}: no such document"
        if heading and heading not in self.headings[path]:
            return f'{path} has no heading "{heading}"'
        return None


def faults(documents):
    """The faults of all documents, and of what sources cite of them: path, line and words."""
    names = Names(files(), documents)
    for name, at, match in names.cited:
        if fault := names.document_fault(match):
            yield name, at, fault
    for path, lines in documents.items():
        for at, line in enumerate(lines, 1):
            if path.split("/")[0] not in SOURCES:
                for match in DOCUMENT.finditer(line):
                    if fault := names.document_fault(match):
                        yield path, at, fault
            if not line.startswith("    "):
                if line.count("`") % 2:
                    yield path, at, "a backtick without its other one"
                for quoted in QUOTED.findall(line):
                    if fault := names.fault_of(quoted):
                        yield path, at, f"`{quoted}`: {fault}"
