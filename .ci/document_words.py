"""How plain documents are: sentences, what is said twice, what is cited by number, lines. Used by documents.py.

A sentence ends at a full stop, a question mark or an exclamation mark, and at the end of a paragraph, of an item of a list or of a cell of a table. What
stands in backticks is one word. Examples, which are indented by four, and headings aren't sentences.
"""

import re

MOST_WORDS = 35
MOST_LINES = 1_800
MOST_COLUMNS = 160
# so many words one after the other, in two places, are one thing that is said twice
RUN = 14
QUOTED = re.compile(r"`[^`]*`")
END = re.compile(r"(?<=[.!?])[)*\"]*\s+")
# a row of a reading list, whose files are no sentence
LISTED = re.compile(r"\| `\w+/(?:specs|src)`: ")
# a cell of names alone, which is none either
NAMES = re.compile(r" (?:\w+: )?\w+(?:[,;] (?:\w+: )?\w+)* ")
NUMBERED = re.compile(r"\b(?:[Pp]apers?|[Tt]heorems?|[Rr]equests?|[Ii]ssues?|[Ss]essions?|[Tt]rials?|[Hh]elpers?) (?:no\. ?|number )?#?\d|"
                      r"\b[RT]\d{1,2}\b|(?<!\w)#\d+\b")


def pieces(lines):
    """The paragraphs, items and cells of a document, each with its first line."""
    held, begun = [], 0
    for at, line in enumerate([*lines, ""], 1):
        item = re.match(r"^(?:- |\d+\. )", line)
        plain = line.strip() and not line.startswith(("    ", "|", "#", "!["))
        if held and (item or not plain):
            yield begun, " ".join(held)
            held = []
        if line.startswith("|") and not LISTED.search(line):
            yield from ((at, cell) for cell in re.split(r"(?<!\\)\|", QUOTED.sub("`x`", line)) if not NAMES.fullmatch(cell))
        elif plain:
            begun = begun if held else at
            held.append(line[item.end():] if item else line.strip())


def said(text):
    """The words of a text, and each of what stands in backticks as one."""
    return [word for word in QUOTED.sub("x", text).replace("**", "").split() if re.search(r"\w", word)]


def sentences(lines):
    """Each sentence of a document, with the line on which its piece begins."""
    for at, piece in pieces(lines):
        for sentence in END.split(QUOTED.sub("x", piece).replace("**", "")):
            yield at, sentence


def long_sentences(path, lines):
    for at, sentence in sentences(lines):
        count = len(said(sentence))
        if count > MOST_WORDS:
            yield path, at, f"a sentence of {count} words: {sentence.strip()[:60]}.."


def said_twice(documents):
    """Runs of words that stand in two places, each told once."""
    seen, told = {}, set()
    for path, lines in documents.items():
        for at, piece in pieces(lines):
            words = [re.sub(r"\W", "", word.lower()) for word in said(piece)]
            for begin in range(len(words) - RUN + 1):
                run = tuple(words[begin:begin + RUN])
                where = seen.setdefault(run, (path, at, begin))
                if where != (path, at, begin) and (where[:2], path, at) not in told and run.count("x") < RUN / 2:
                    told.add((where[:2], path, at))
                    yield path, at, f"{where[0]}:{where[1]} says this too: {' '.join(run)}"


def wide(path, lines):
    for at, line in enumerate(lines, 1):
        if len(line) > MOST_COLUMNS and not line.startswith(("    ", "|", "#")):
            yield path, at, f"{len(line)} columns"


def numbered(path, lines):
    for at, line in enumerate(lines, 1):
        if not line.startswith("    ") and (match := NUMBERED.search(QUOTED.sub("x", line))):
            yield path, at, f"cited by number: {match[0]}"


def faults(documents, counted):
    """The faults of all documents; of those that are counted their lines together are one."""
    for path, lines in documents.items():
        yield from long_sentences(path, lines)
        yield from wide(path, lines)
        yield from numbered(path, lines)
    yield from said_twice(documents)
    together = sum(len(documents[path]) - 1 for path in counted)
    if together > MOST_LINES:
        yield "docs", together, f"README.md and docs/ have {together:,} lines, and may have {MOST_LINES:,}"
