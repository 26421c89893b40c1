"""Reads every schedule and journal of both formats in conformance/: python3 .ci/schedules.py PATH/TO/spinesd_audit

A good schedule is written back to the byte. Of a bad one the line of its first refusal is told: it is the last line of its journal, which
another program wrote. A journal that ends with a summary is written back to the byte. Any other is no whole journal: it is refused at its
last line. A whole journal is audited with its schedule, and no event of it breaks a promise; with epochs it isn't audited. Then some are audited with other
schedules, which OTHERS has. JOURNALS are journals of no run. A file that differs is named, and the status is then 1.
"""

import pathlib
import re
import subprocess
import sys
import tempfile

FOLDER = pathlib.Path(__file__).parents[1] / "conformance" / "schedules"
FOLDERS = FOLDER, *(FOLDER.with_name(name) for name in ("schedules_format_2", "restarts", "versions"))
# a schedule, a line of it, what stands there in another one, and the status and what is told of the first one's journal under the other
OTHERS = [
    ("acknowledgement", b"rel 1 3 6869\n", b"take 3 1\n", 14, b"broken 10\n"),  # the message of event 10 was never sent
    ("acknowledgement", b"rel 1 3 6869\n", b"rel 1 3 6868\n", 14, b"broken 10\n"),  # another one was
    ("acknowledgement", b"rel 1 3 6869\n", b"rel 1 2 6869\n", 14, b"broken 10\n"),  # it was sent to another node
    ("acknowledgement", b"tick 3 5\n", b"", 3, b"unread events %d entries %d\n"),  # one entry more than events
]
# lines of entries, and what is told of the journal that ends after them; nothing where it is written back
JOURNALS = [
    (b"1 fresh rel:new epoch:new\n+ ended 1 3\n+ ended 32 1\n2 fresh epoch:old\n", b""),
    (b"1 fresh epoch:badend\n2 fresh epoch:badsig\n", b""),
    (b"1 started 1 0\n+ signed 07010000000000000001\n2 badend\n3 down\n4 stopped\n5 exhausted 1024\n", b""),
    (b"1 started 1\n", b"journal refused 2 Form\n"),  # a boot without the index
    (b"1 exhausted -\n", b"journal refused 2 Form\n"),  # no number
    (b"1 stopped 1\n", b"journal refused 2 Form\n"),
    (b"1 ticked\n2 fresh epoch:seen\n", b"journal refused 3 Form\n"),  # no such answer
    (b"1 ticked\n2 fresh epoch\n", b"journal refused 3 Form\n"),  # an answer without its object
    (b"1 ticked\n+ ended 0 1\n", b"journal refused 3 Form\n"),  # no node has the id 0
    (b"1 ticked\n+ ended 1 33\n", b"journal refused 3 Form\n"),  # nor this one
    (b"1 ticked\n+ ended 1\n", b"journal refused 3 Form\n"),
    (b"1 ticked\n+ ended 1 2 3\n", b"journal refused 3 Form\n"),
]


def differs(words, name, status, wanted):
    """Whether the program ends with another status or writes anything else for these words."""
    ended = subprocess.run(words, stdout=subprocess.PIPE, check=False)
    if (ended.returncode, ended.stdout) == (status, wanted):
        return False
    print(f"{name}: status {ended.returncode}, wanted {status}; wrote {ended.stdout[:100]!r}, wanted {wanted[:100]!r}")
    return True


def of_file(program, file):
    """How many answers differ for a schedule and its journal, and whether they were audited."""
    journal = file.with_suffix(".out")
    told = journal.read_bytes()
    lines = told.splitlines(keepends=True)
    is_whole = lines[-1].startswith(b"summary ")
    is_bad = lines[-1].startswith(b"refused ")
    wrong = differs([program, "schedule", file], file.name, 3 if is_bad else 0, b"schedule " + lines[-1] if is_bad else file.read_bytes())
    wanted = told if is_whole else b"journal refused %d Form\n" % len(lines)
    wrong += differs([program, "journal", journal], journal.name, 0 if is_whole else 3, wanted)
    if is_whole:
        status, wanted = (3, b"unread epochs\n") if b"\nepochs\n" in file.read_bytes() else (0, b"kept\n")
        wrong += differs([program, "run", file, journal], f"{file.name} and its journal", status, wanted)
    return wrong, is_whole


def main(program):
    wrong = audits = 0
    files = sorted(file for folder in FOLDERS for file in folder.glob("*.schedule"))
    for file in files:
        differ, is_whole = of_file(program, file)
        wrong, audits = wrong + differ, audits + is_whole
    with tempfile.TemporaryDirectory() as folder:
        other = pathlib.Path(folder, "other")
        for name, line, text, status, told in OTHERS:
            file = FOLDER / f"{name}.schedule"
            other.write_bytes(file.read_bytes().replace(line, text, 1))
            count = len(re.findall(rb"(?m)^\d", file.with_suffix(".out").read_bytes()))
            wanted = told % (count - 1, count) if b"%" in told else told
            wrong += differs([program, "run", other, file.with_suffix(".out")], f"{name} under another schedule", status, wanted)
        for lines, told in JOURNALS:
            count = len(re.findall(rb"(?m)^\d", lines))
            text = b"journal 1\n%bsummary events %d sent 0 delivered 0 priority 0 frames 0\n" % (lines, count)
            other.write_bytes(text)
            wrong += differs([program, "journal", other], repr(lines), 3 if told else 0, told or text)
    others = f"{len(OTHERS)} of other schedules, {len(JOURNALS)} journals of no run"
    print(f"{len(files)} schedules and their journals, {audits} audits and {others}, {wrong} differ")
    return 1 if wrong else 0


sys.exit(main(sys.argv[1]))
