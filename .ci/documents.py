"""Judges the documents: python3 .ci/documents.py [PROGRAM] [--write]

1. What they cite is there: files, names of the sources, headings (document_names.py).
2. They are plain: no sentence above 35 words, no run of words that stands twice, no number of a paper, a request or a theorem, no line above 160 columns, and
   docs/ with README.md together at most 1,800 lines (document_words.py).
3. Their figures are those that a script counts (document_figures.py), the types of crates those that are there (document_types.py), and the reading lists
   those of reading_list.py, which judges them by itself.
4. With PROGRAM, each command that they show behind a `$` ends as they say (document_commands.py).

--write puts the table of counts into docs/MEASURES.md and the types of crates into docs/HOUSE.md as they are. Each fault is told with its line, and the
status is then 1.
"""

import glob
import os
import sys

sys.path.insert(0, os.path.dirname(os.path.abspath(__file__)))

import document_commands  # noqa: E402
import document_figures  # noqa: E402
import document_names  # noqa: E402
import document_types  # noqa: E402
import document_words  # noqa: E402

ROOT = os.path.dirname(os.path.dirname(os.path.abspath(__file__)))
COUNTED = ["README.md", *(os.path.relpath(path, ROOT) for path in sorted(glob.glob(os.path.join(ROOT, "docs", "*.md"))))]
OTHERS = ["CONTRIBUTING.md", "examples/generated.md", "examples/overlay/README.md"]


def texts():
    """The lines of each document, by its path."""
    found = {}
    for path in COUNTED + OTHERS:
        with open(os.path.join(ROOT, path), encoding="utf-8") as file:
            found[path] = file.read().split("\n")
    return found


def main(words):
    if "--write" in words:
        document_figures.write()
        document_types.write()
    programs = [word for word in words if not word.startswith("--")]
    documents = texts()
    faults = [*document_names.faults(documents), *document_words.faults(documents, COUNTED)]
    faults += [*document_figures.faults(documents), *document_types.faults(documents)]
    shown = document_commands.commands(documents)
    if programs:
        faults += document_commands.faults(shown, os.path.abspath(programs[0]))
    for path, at, fault in faults:
        print(f"{path}:{at}: {fault}")
    ran = "were run" if programs else "weren't run"
    print(f"{len(documents)} documents, {len(shown)} commands that {ran}, {len(faults)} faults")
    return 1 if faults else 0


if __name__ == "__main__":
    sys.exit(main(sys.argv[1:]))
