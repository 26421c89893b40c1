"""The figures of the documents that can be counted: the table of counts in docs/MEASURES.md, and bounds of the sources that documents repeat.
Used by documents.py.

A line of code, of a definition or of a proof is one that is neither blank, nor a comment, nor an import. `write` puts the table into docs/MEASURES.md.
"""

import glob
import os
import re

ROOT = os.path.dirname(os.path.dirname(os.path.abspath(__file__)))
MEASURES = "docs/MEASURES.md"
BEGIN, END = "| What | How many |", "\n\n"
WORDS = dict(zip("two three four five six seven eight nine ten eleven twelve thirteen fourteen fifteen sixteen".split(), range(2, 17)))

# where a bound stands, and the sentence that repeats it
SAID = [
    ("crates/sp_base/src/limits.rt", r"MAX_LINE_BYTES: usize = ([\d_]+)", r"a line has at most ([\d,]+) bytes"),
    ("crates/sp_base/src/limits.rt", r"MAX_INPUT_BYTES: usize = ([\d_]+)", r"[Ii]nput has at most ([\d,]+) bytes"),
    ("crates/sp_base/src/limits.rt", r"MAX_EVENTS: usize = ([\d_]+)", r"at most ([\d,]+) events"),
    ("crates/sp_base/src/limits.rt", r"MAX_NODES_2: u8 = ([\d_]+)", r"up to (\d+) nodes and 256 links"),
    ("crates/sp_base/src/limits.rt", r"MAX_EDGES_2: u16 = ([\d_]+)", r"up to 32 nodes and (\d+) links"),
    ("crates/sp_base/src/limits.rt", r"MAX_RELS_2: usize = ([\d_]+)", r"at most (\w+) in format 2"),
    ("crates/sp_frame/src/frame.rt", r"MAX_FRAME_BYTES: usize = ([\d_]+)", r"more than ([\d,]+) bytes \| an attack"),
    ("kit/spinesd@.service", r"StartLimitBurst=(\d+)", r"(\d+) (?:starts in an hour|times an hour at most)"),
    ("crates/sp_keystate/src/starts.rt", r"RESERVED: u64 = ([\d_]+)", r"reserves (\d+) indexes"),
]


def paths(pattern):
    return [path for path in glob.glob(os.path.join(ROOT, pattern), recursive=True) if "/out/" not in path]


def read(path):
    with open(os.path.join(ROOT, path), encoding="utf-8") as file:
        return file.read()


def lines(pattern):
    """How many lines of these files say something."""
    says = re.compile(r"\s*(?!//|--|(?:ghost )?(?:pub )?use )\S")
    return sum(bool(says.match(line)) for path in paths(pattern) for line in read(path).split("\n"))


def crates(begin=""):
    return sum(line.startswith(begin) and ":" in line for line in read("crates.txt").split("\n") if not line.startswith("#"))


def cases(end):
    return len(paths(f"conformance/**/*.{end}"))


def refused():
    return sum(read(path).strip() == "3" for path in paths("conformance/**/*.status"))


def rows():
    """What is counted, and how often it is there."""
    adapters = len(paths("planted/spinesd/scripts/**/*.edit"))
    yield "crates, of these of definitions and laws, of tests", [crates(), crates("laws_") + 2, crates("test_")]
    yield "lines of code, of definitions, of proofs", [lines("crates/*/src/**/*.rt"), lines("crates/*/specs/**/*.antt"), lines("crates/*/proofs/**/*.antt")]
    yield "must-fail edits in crates", [len(paths("crates/**/*.edit"))]
    yield "wrong bodies in `planted/` that the prover must refuse, and that a script must tell", [len(paths("planted/**/*.edit")) - adapters, adapters]
    yield "of the former tried by `.ci/run`", [len(re.findall(r"^    \w+/\w+", read(".ci/run"), re.M))]
    yield "cases in `conformance/`, of these refused", [cases("status"), refused()]
    yield "of these schedules, graphs, texts in TOML, recordings", [cases(end) for end in ("schedule", "graph", "toml", "recording")]
    yield "rows of `kit/endings.md`", [read("kit/endings.md").count("\n| ") - 1]


def table():
    told = [f"| {what} | {', '.join(f'{count:,}' for count in counts)} |" for what, counts in rows()]
    return "\n".join([BEGIN, "|---|---|", *told])


def write():
    text = read(MEASURES)
    begin = text.index(BEGIN)
    with open(os.path.join(ROOT, MEASURES), "w", encoding="utf-8") as file:
        file.write(text[:begin] + table() + text[text.index(END, begin):])


def number(word):
    """The number that digits or a word say; None where they say none."""
    return WORDS.get(word, int(re.sub(r"[,_]", "", word)) if re.fullmatch(r"\d[\d,_]*", word) else None)


def faults(documents):
    """The faults of all documents: path, line and words."""
    text, right = "\n".join(documents[MEASURES]), table()
    for said, wanted in zip(text[text.index(BEGIN):].split("\n"), right.split("\n")):
        if said != wanted:
            yield MEASURES, documents[MEASURES].index(said) + 1, f"the counts are: {wanted}"
    for path, bound, phrase in SAID:
        wanted, found = number(re.search(bound, read(path))[1]), False
        for name, its in documents.items():
            whole = "\n".join(its)
            for match in re.finditer(phrase.replace(" ", r"\s+"), whole):
                found = True
                if number(match[1]) != wanted:
                    yield name, whole.count("\n", 0, match.start()) + 1, f"{match[0]!r}: {path} has {wanted:,}"
        if not found:
            yield path, 1, f"no document says its bound as {phrase!r}"
