"""The definitions of all specs/ of the crates, and which of them the clauses of both programs' `run` cite: the texts of definitions by file and name, what
the words of a file stand for, and the closure of what the clauses in crates/sp_top/src/top.rt and crates/sp_auditor/src/top.rt name: their words, then the
words of the definitions that these name, and so on. Used by reading_list.py.
"""

import collections
import os
import re

ROOT = os.path.dirname(os.path.dirname(os.path.abspath(__file__)))
CRATES = os.path.join(ROOT, "crates")
TOPS = ["sp_top/src/top.rt", "sp_auditor/src/top.rt"]
TOKEN = re.compile(r"[^\s(){}\[\],;]+")
ITEM = re.compile(r"^(?:  )?(?:(?:abbrev|unfoldable|record|data|total|pub) )+(\S+)")
FIELD = re.compile(r"^  pub \S+ :")
USE = re.compile(r"^(?:pub )?use (Rattle\.[\w.]+?)(?:\.\{(.*)\})?(?: as (\w+))?$")


def read(path):
    with open(os.path.join(CRATES, path), encoding="utf-8") as it:
        return it.read()


class Definitions:
    """The definitions of all specs/: their texts, and what the words in a file stand for."""

    def __init__(self):
        self.texts, self.names, self.aliases, self.own = {}, {}, {}, collections.defaultdict(set)
        for at, _, files in os.walk(CRATES):
            if "/specs" in at and "/out" not in at:
                for name in files:
                    if name.endswith(".antt"):
                        self.load(os.path.relpath(os.path.join(at, name), CRATES))

    def target(self, path):
        """Where an imported module stands: a file of specs/, or a type of src/ as (crate, module)."""
        parts = path.split(".")
        if len(parts) < 4 or parts[2] != "specs" or not os.path.isdir(os.path.join(CRATES, parts[1])):
            return None
        if parts[3] == "declared":
            return (parts[1], parts[4])
        return f"{parts[1]}/specs/{'/'.join(parts[3:])}.antt"

    def imports(self, lines):
        names, aliases = {}, {}
        for line in lines:
            match = USE.match(line.strip().rstrip(";").removeprefix("ghost "))
            target = match and self.target(match[1])
            if not target:
                continue
            for one in (match[2] or "").split(","):
                what, _, name = one.strip().partition(" as ")
                if what:
                    names[name or what] = (target, what)
            if match[3]:
                aliases[match[3]] = target
        return names, aliases

    def load(self, path):
        lines, current = read(path).split("\n"), None
        self.names[path], self.aliases[path] = self.imports(lines)
        for line in lines:
            if line.strip().startswith(("--", "use ", "pub use ")):
                continue
            item = ITEM.match(line)
            if item and not FIELD.match(line):
                current = (path, item[1])
                self.texts[current] = ""
                self.own[path].add(item[1])
            if current:
                self.texts[current] += line + "\n"

    def find(self, path, name):
        """The definition of this name, or the one that has a constructor of it."""
        if (path, name) in self.texts:
            return path, name
        told = re.compile(r"^\s*(?:pub )?" + re.escape(name) + r" :", re.M)
        return next(((path, own) for own in self.own[path] if told.search(self.texts[path, own])), None)

    def cited(self, text, own, names, aliases):
        """What the words of a text stand for: definitions, and types of src/."""
        for word in set(TOKEN.findall(text)):
            first, _, rest = word.partition(".")
            if own and word in self.own[own]:
                yield own, word
            elif word in names:
                yield names[word]
            elif rest and first in aliases:
                yield aliases[first], rest
            elif rest and first in names:
                yield names[first]
            else:
                for it in [*(self.own[own] if own else ()), *names]:
                    if "◌" in it and word in it.replace("◌", " ").split():
                        yield (own, it) if own and it in self.own[own] else names[it]


def closure(definitions):
    """All definitions that the clauses of both programs' `run` cite, and the types that these name."""
    left, seen, types = [], set(), set()
    for text in map(read, TOPS):
        names, aliases = definitions.imports(text.split("\n"))
        begin = text.index("pub fn run<")
        left += definitions.cited(text[begin : text.index("\n{", begin)], None, names, aliases)
    while left:
        target, name = left.pop()
        if isinstance(target, tuple):
            types.add(target)
            continue
        at = definitions.find(target, name)
        if at and at not in seen:
            seen.add(at)
            left += definitions.cited(definitions.texts[at], target, definitions.names[target], definitions.aliases[target])
    return seen, types
