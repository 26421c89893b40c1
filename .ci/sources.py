"""Judges the sources of the product by two rules that no contract can say: python3 .ci/sources.py

1. No type with a key or a seed derives `Debug`: a debug line of such a type is written by hand, and leaves them out. (The seed of a
   schedule is no secret: it stands in its text.)
2. Want of memory is told only where an allocation was refused. One place turns an allocator's error into `Memory` (sp_base); all others hand
   on what a call said that takes memory: the arm of a `match` over such a call whose pattern is `Memory`, `_` or a name, the `else` of a
   `let Ok(..)` over such a call, a sum that no memory could hold, or a conversion of `Memory` into a refusal that has it.
   The answer `Unread` of a line of a schedule tells it too: it is judged where it is made, and handed on where it is read.

Each line that breaks a rule is told, and the status is then 1.
"""

import glob
import os
import re
import sys

ROOT = os.path.dirname(os.path.dirname(os.path.abspath(__file__)))
SECRET = re.compile(r"^\s*(pub(\(\w+\))? )?(seed|admin_seed|key|keys)\s*:\s*(&\w* )?(\[u8; 32\]|Listed<\(\w+, \[u8; 32\]\)>|Listed<DraftNode>|Listed<Peer>)")
WRITES = re.compile(r"=>\s*Lead::Unread\(|(?:\bErr\(|\bended\(|\bok_or\(|=>\s*)(\w+::)?Memory\b(?!\s*(?:=>|::|\{))|\|_\|\s*(\w+::)?Memory\b|^\s*code: Status::Memory")
TAKES = re.compile(r"closing_room|epoch::room_for|with_edge|with_bad|alloc|reserve|\.push\(|push_\w+\(|write!|read_up_to|extend|sign|make\(|grow|encode|decode|collect|public_key|with_room|is_memory|replay|offline|program")


def product():
    for pattern in ("crates/sp_*/src/*.rt", "crates/spinesd*/src/*.rt"):
        yield from sorted(glob.glob(os.path.join(ROOT, pattern)))


def secrets(name, lines):
    """The structs that derive `Debug` and have a key or a seed."""
    for at, line in enumerate(lines):
        match = re.match(r"^(?:pub(?:\(\w+\))? )?struct (\w+).*\{$", line)
        if not match:
            continue
        derives, up = "", at - 1
        while up >= 0 and re.match(r"^(#\[|///)", lines[up]):
            derives, up = derives + lines[up], up - 1
        if not re.search(r"derive\([^)]*\bDebug\b", derives):
            continue
        for field in lines[at + 1:]:
            if field.startswith("}"):
                break
            if SECRET.match(field) and match.group(1) != "Scenario":
                yield f"{name}:{at + 1}: {match.group(1)} has a key or a seed and derives Debug"


def opens(lines, at, indent):
    """The statement that the block around this line begins with: its lines, from the first that is indented less."""
    up = at
    while up >= 0 and (not lines[up].strip() or len(lines[up]) - len(lines[up].lstrip()) >= indent):
        up -= 1
    first = up
    while first > 0 and not re.match(r"^\s*(let|match|if|return|'|Ok|fn|pub|\}|Err|for|while)", lines[first]):
        first -= 1
    return " ".join(lines[first:up + 1])


def hands_on(lines, at):
    """Whether the want of memory that this line tells is a callee's."""
    line = lines[at]
    indent = len(line) - len(line.lstrip())
    arm = re.match(r"^\s*(?:Err\((?P<err>[^)]*(?:\([^)]*\))?)\)|(?P<plain>[\w:]+)(?:\(_\))?)\s*(?P<guard>if [^=]*)?=>", line)
    if re.match(r"^\s*Lead::Unread\(\w+\) =>", line) or "Lead::Unread(" in opens(lines, at, indent):
        return True
    if arm:
        pattern = arm.group("err") or arm.group("plain") or ""
        if "Memory" in pattern:
            return True
        if re.fullmatch(r"_|[a-z_]+", pattern):
            return bool(TAKES.search(opens(lines, at, indent))) and (not arm.group("guard") or "is_memory" in arm.group("guard"))
        return False
    if re.search(r"(\.map_err\(\|_\| (\w+::)?Memory\)|\.ok_or\(Memory\))", line):
        return bool(TAKES.search(" ".join(lines[max(0, at - 8):at + 1]))) or "checked_add" in line
    block = opens(lines, at, indent)
    if re.search(r"let (Ok|Some)\(.*else \{$", block):
        return bool(TAKES.search(block)) or "checked_add" in block
    if re.search(r"if \w+\.(push|reserve|extend_from_slice)\(.*\)\.is_err\(\) \{$", block):
        return True
    if "code: Status::Memory" in line:
        return "let Ok(words) = words else {" in " ".join(lines[max(0, at - 3):at])
    if re.search(r"^\s*(fn from|pub fn code)", block) or "fn from(" in block:
        return True
    return False


def memory(name, lines):
    """The lines that tell want of memory where no call refused it."""
    if name.endswith("sp_base/src/memory.rt"):
        return
    for at, line in enumerate(lines):
        code = line.split("//")[0]
        if re.match(r"^\s*(ensures|requires|ghost|use )", code) or "Status::Memory =>" in code or re.search(r"Memory => (0|9|\"Memory\")", code):
            continue
        if WRITES.search(code) and not hands_on(lines, at):
            yield f"{name}:{at + 1}: want of memory is told where no call was refused it: {code.strip()}"


def main():
    wrong = []
    for path in product():
        with open(path, encoding="utf-8") as file:
            lines = file.read().split("\n")
        name = os.path.relpath(path, ROOT)
        wrong += [*secrets(name, lines), *memory(name, lines)]
    for line in wrong:
        print(line)
    print(f"{len(list(product()))} files of the product: {len(wrong)} lines against the rules of sources")
    return 1 if wrong else 0


if __name__ == "__main__":
    sys.exit(main())
