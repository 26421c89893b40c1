"""Runs each case of conformance/ through a program and compares byte by byte: python3 .ci/conformance.py PATH/TO/PROGRAM

A case is an input, NAME.schedule, NAME.graph, NAME.toml or NAME.recording, and beside it

    NAME.status    the status, in decimal
    NAME.out       the standard output; where several are right, each other one in NAME.out.2, NAME.out.3 and so on
    NAME.sha256    in place of NAME.out, the SHA-256 of the standard output, in hexadecimal
    NAME.words     the words, one a line; without it they are `replay` for a schedule, `topology` for a toml, `verify` for a recording

Words that read nothing have no input: such a case is a NAME.words alone, and beside it NAME.status and NAME.out, or in place of NAME.out

    NAME.summary   the first line of the standard output; the second and last is `digest` with 64 digits
    NAME.replayed  a schedule of this folder: the digest is that of the standard output of its replay

Inputs of more than 100 KB are made here, from the pieces that RECIPES has. Each case runs twice, and both runs must answer the same. Words
that read nothing, as those that are no command (status 2), run once more over an input that can't be read and once without one, which changes
nothing, and once more where nothing can be written, which is status 6. Each difference is told, and the status is then 1; so it is where a kind
has no file, or a file no case.
"""

import hashlib
import os
import re
import subprocess
import sys

ROOT = os.path.dirname(os.path.dirname(os.path.abspath(__file__)))
FOLDER = os.path.join(ROOT, "conformance")
PLAIN = {"schedule": [b"replay"], "graph": None, "toml": [b"topology"], "recording": [b"verify"]}
ALONE = "without input"
HEADER = b"schedule 1\nseed " + 64 * b"0" + b"\nheight 5\nbounds 2 4\nnodes 3\nedge 1 2 10\nedge 2 3 10\nbegin\n"
PATHS = [b"paths", b"--from", b"1", b"--to", b"2", b"--paths", b"1"]
# a frame in which each of these bits is changed, 31 times over: none of it is heard, and then the frame still is
FLIPS = b"".join(b"flip 1 2 1 %d %d\n" % (back, bit) for back in range(1, 65) for bit in range(8))
HEARD = b"".join(b"%d badtag\n" % number for number in range(2, 2 + 31 * 512))
FIRST_FRAME = b"1 frame 1 76 449e95834d7aeecc94f2aa99fc95617b4a38c38a9f0781b1029faf9c2950b707\n"
TAKES = b"".join(b"%d empty\n" % number for number in range(1, 16_385))


def stored(path):
    with open(path, "rb") as file:
        return file.read()


DRAFT, TOPOLOGY = (stored(os.path.join(ROOT, "examples", "two_nodes." + end)) for end in ("toml", "topology"))

# a name, the words, the pieces of the input with how often each stands there, the status, and the output
RECIPES = [
    ("a line of 131,200 bytes", PATHS, [(b"graph 1\n", 1), (b"a", 131_200), (b"\n", 1)], 3, b"refused 2 Event\n"),
    ("a line of 131,201 bytes", PATHS, [(b"graph 1\n", 1), (b"a", 131_201), (b"\n", 1)], 3, b"refused 2 LineLong\n"),
    ("131,200 bytes and no newline", PATHS, [(b"graph 1\n", 1), (b"a", 131_200)], 3, b"refused 2 Cut\n"),
    ("131,201 bytes and no newline", PATHS, [(b"graph 1\n", 1), (b"a", 131_201)], 3, b"refused 2 LineLong\n"),
    ("a graph of 64 MiB", PATHS, [(b"\n", 67_108_864)], 3, b"refused 1 Word\n"),
    ("a graph of one byte more", PATHS, [(b"\n", 67_108_865)], 3, b"refused 0 TooBig\n"),
    ("a draft with a comment of 100 KB", [b"topology"], [(b"# ", 1), (b"a", 100_000), (b"\n" + DRAFT, 1)], 0, TOPOLOGY),
    ("a draft of more than 64 MiB", [b"topology"], [(b"\n", 67_108_865)], 3, b"refused 0 TooBig\n"),
    ("an event of 131,201 bytes", [b"replay"], [(HEADER, 1), (b"0", 131_201)], 3, b"journal 1\nrefused 9 LineLong\n"),
    ("such an event and an end", [b"replay"], [(HEADER, 1), (b"0", 131_201), (b"\nend\n", 1)], 3, b"journal 1\nrefused 9 LineLong\n"),
    ("16,384 events", [b"replay"], [(HEADER, 1), (b"take 3 1\n", 16_384), (b"end\n", 1)], 0,
     b"journal 1\n" + TAKES + b"summary events 16384 sent 0 delivered 0 priority 0 frames 0\n"),
    ("16,385 events", [b"replay"], [(HEADER, 1), (b"take 3 1\n", 16_385), (b"end\n", 1)], 3, b"journal 1\n" + TAKES + b"refused 16393 TooMany\n"),
    ("15,872 frames with one bit changed", [b"replay"], [(HEADER + b"poll 1 2\n", 1), (FLIPS, 31), (b"pass 1 2 1\nend\n", 1)], 0,
     b"journal 1\n" + FIRST_FRAME + HEARD + b"15874 learned 1\nsummary events 15874 sent 0 delivered 0 priority 0 frames 1\n"),
    ("an event without an end", [b"replay"], [(HEADER, 1), (b"0", 134_217_728)], 3, b"journal 1\nrefused 9 LineLong\n"),
    ("a schedule of more than 64 MiB", [b"replay"], [(HEADER, 1), (b"inject 1 2 " + 65_507 * b"00" + b"\n", 513)], 3,
     b"journal 1\n" + b"".join(b"%d magic\n" % number for number in range(1, 513)) + b"refused 0 TooBig\n"),
    ("bytes without an end after end", [b"replay"], [(HEADER + b"end\n", 1), (b"0", 134_217_728)], 3, b"journal 1\nrefused 10 LineLong\n"),
]


def outputs_of(path):
    """The files of the outputs that are right."""
    names = [path + ".out"] if os.path.exists(path + ".out") else []
    while names and os.path.exists(f"{path}.out.{len(names) + 1}"):
        names.append(f"{path}.out.{len(names) + 1}")
    return names


def words_of(path, kind):
    """The words of a case, or those of its kind; None where neither has any."""
    return stored(path + ".words").split(b"\n")[:-1] if os.path.exists(path + ".words") else PLAIN[kind]


def right_of(path):
    """Whether an output is right, as a call; None where a case has no output, or an output and a digest."""
    outputs = [stored(name) for name in outputs_of(path)]
    if os.path.exists(path + ".sha256"):
        digest = stored(path + ".sha256").decode().strip()
        return None if outputs else lambda output: hashlib.sha256(output).hexdigest() == digest
    return (lambda output: output in outputs) if outputs else None


def is_told(path, output, digest):
    """Whether an output is a summary and a digest, where the digest is known this one."""
    summary = stored(path + ".summary")
    told = re.fullmatch(rb"digest ([0-9a-f]{64})\n", output.removeprefix(summary))
    return output.startswith(summary) and told is not None and (digest is None or told.group(1) == digest)


class Runs:
    """The program, how many cases of each kind passed, and how many answers differed."""

    def __init__(self, program):
        self.program, self.passed, self.wrong = os.path.abspath(program), {}, 0

    def tell(self, name, what):
        self.wrong += 1
        print(f"{name}: {what}")

    def once(self, name, words, status, is_right, **ends):
        """The output of a run with this status and a right output; None of another."""
        ended = subprocess.run([self.program, *words], check=False, **{"stdout": subprocess.PIPE, **ends})
        output = ended.stdout or b""
        if ended.returncode == status and is_right(output):
            return output
        self.tell(name, f"status {ended.returncode}, wanted {status}; the output is {'right' if is_right(output) else 'another'}: {output[:200]!r}")
        return None

    def unread(self, name, words, given, status, is_right):
        """These words read nothing, and want to write."""
        folder = os.open(ROOT, os.O_RDONLY)
        self.once(name + " over an input that can't be read", words, status, is_right, stdin=folder)
        os.close(folder)
        self.once(name + " without an input", words, status, is_right, stdin=subprocess.DEVNULL, preexec_fn=lambda: os.close(0))
        with open("/dev/full", "wb") as full:
            self.once(name + " where nothing can be written", words, 6, lambda output: output == b"", input=given, stdout=full)

    def case(self, name, kind, words, given, status, is_right):
        before = self.wrong
        first, second = (self.once(name, words, status, is_right, input=given) for _ in range(2))
        if None not in (first, second) and first != second:
            self.tell(name, "two runs wrote two outputs")
        if status == 2 or kind == ALONE:
            self.unread(name, words, given, status, is_right)
        self.passed[kind] = self.passed.get(kind, 0) + (self.wrong == before)


def run_file(runs, path, kind):
    """Runs the case of an input, and gives the names of its files."""
    name, words, is_right = os.path.relpath(path, ROOT), words_of(path, kind), right_of(path)
    if words is None or is_right is None or not os.path.exists(path + ".status"):
        runs.tell(name, "no words, no output, an output and a digest, or no status")
    else:
        runs.case(name, kind, words, stored(path + "." + kind), int(stored(path + ".status")), is_right)
    return {f"{path}.{end}" for end in (kind, "status", "words", "sha256")} | set(outputs_of(path))


def digest_of(runs, path):
    """The digest of the replay that a case names; None where it names none."""
    if not os.path.exists(path + ".replayed"):
        return None
    source = os.path.join(FOLDER, stored(path + ".replayed").decode().strip())
    output = runs.once(os.path.relpath(source, ROOT), [b"replay"], 0, lambda output: True, input=stored(source)) or b""
    return hashlib.sha256(output).hexdigest().encode()


def run_alone(runs, path):
    """Runs the case of words without an input, and gives the names of its files."""
    name, is_right = os.path.relpath(path, ROOT), right_of(path)
    if os.path.exists(path + ".summary") and is_right is None:
        digest = digest_of(runs, path)
        is_right = lambda output: is_told(path, output, digest)
    if is_right is None or not os.path.exists(path + ".status"):
        runs.tell(name, "no output, two, or no status")
    else:
        runs.case(name, ALONE, words_of(path, ALONE), b"", int(stored(path + ".status")), is_right)
    return {f"{path}.{end}" for end in ("status", "words", "sha256", "summary", "replayed")} | set(outputs_of(path))


def run_files(runs):
    """Runs the cases of the folder."""
    files = {os.path.join(folder, name) for folder, _, names in os.walk(FOLDER) for name in names}
    used = set()
    for kind in PLAIN:
        runs.passed[kind] = 0
        for source in sorted(files):
            if source.endswith("." + kind):
                used |= run_file(runs, source.removesuffix("." + kind), kind)
    for words in sorted(files - used):
        if words.endswith(".words"):
            used |= run_alone(runs, words.removesuffix(".words"))
    for kind in [*PLAIN, ALONE]:
        if not runs.passed.get(kind):
            runs.tell("conformance", f"no case {kind} passed")
    for name in sorted(files - used):
        runs.tell(os.path.relpath(name, ROOT), "a file of no case")


def run_recipes(runs):
    """Runs the cases whose input is made here."""
    for name, words, pieces, status, output in RECIPES:
        runs.case(name, "long input", words, b"".join(piece * count for piece, count in pieces), status, lambda wrote, output=output: wrote == output)


def main():
    if len(sys.argv) != 2:
        sys.exit("usage: python3 .ci/conformance.py PATH/TO/PROGRAM")
    runs = Runs(sys.argv[1])
    run_files(runs)
    run_recipes(runs)
    print("passed: " + ", ".join(f"{count} {kind}" for kind, count in runs.passed.items()) + f"; {runs.wrong} answers differ")
    sys.exit(1 if runs.wrong else 0)


if __name__ == "__main__":
    main()
