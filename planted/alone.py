"""Tries planted bugs by their functions alone: python3 planted/alone.py CRATE/NAME .. or CRATE ..

CRATE/NAME is the bug of planted/CRATE/NAME.edit, CRATE all of a crate. Each is put into a copy of its crate, of which only the function is checked where it
stands, over the libraries that a gate left in crates/: some twenty seconds, where a check of the crate takes minutes. So `.ci/run` tries a few. A bug is
refused where all else is read and that function isn't proved, and NOT REFUSED where the checker proves it. Where the checker stops before it judges the
function, as over libraries of two builds, the bug is NOT CHECKED, with the cause. The status is 1 where one isn't refused, isn't checked or can't be planted.
"""

import os
import re
import shutil
import subprocess
import sys
import tempfile

from run import FUNCTION, ROOT, plant, read_edit

KIT = os.path.dirname(subprocess.run(["rt", "doc"], capture_output=True, text=True, check=True).stdout.strip())
OWNER = re.compile(r"^impl(?:<[^{]*?>)? (?:.* for )?(\w+)")


def crates():
    """What each crate stands on, by crates.txt."""
    uses = {}
    with open(os.path.join(ROOT, "crates.txt"), encoding="utf-8") as lines:
        for line in lines:
            if ":" in line.split("#")[0]:
                name, others = line.split("#")[0].split(":")
                uses[name.split()[0]] = others.split()
    return uses


def below(uses, crate, found):
    """All crates of the checkout below this one, each once."""
    for other in uses[crate]:
        if other in uses and other not in found:
            below(uses, other, found)
            found.append(other)
    return found


def libraries(uses, crate):
    """The words that give a check the built libraries."""
    words = []
    for name in ["std"] + uses[crate]:
        path = f"{ROOT}/crates/{name}/out" if name in uses else KIT
        words += ["--extern", f"{name}={path}/{'rlib' if name in uses else 'rlibs'}/{name}.rlib"]
    for folder in [f"{KIT}/rlibs"] + [f"{ROOT}/crates/{name}/out/rlib" for name in below(uses, crate, [])]:
        words += ["-L", f"dependency={folder}"]
    return words


def function_of(text, file, place):
    """The end of the name of the function at this place: with its module, or with the type whose method it is."""
    owner, found = "", None
    for line in text[:place].split("\n") + [text[place:].split("\n", 1)[0]]:
        match = OWNER.match(line)
        owner = match.group(1) if match else "" if line.startswith("}") else owner
        match = FUNCTION.match(line)
        if match:
            module = "" if file in ("src/lib.rt", "src/main.rt") else os.path.basename(file)[:-3]
            found = "::".join(word for word in (owner or module, match.group(1)) if word)
    return found


def judged(crate, function, said):
    """What the checker's text says of this function, and whether it refuses it. Where a module of another crate has an error nothing here was judged, though
    the checker says then that the function isn't proved."""
    lines = [line for line in said.split("\n") if line.strip()]
    below = [line for line in lines if re.match(rf"the module `Rattle\.(?!{crate}\b).*: error: ", line)]
    answers = [line for line in lines if re.match(rf"fn [\w:+]*\b{re.escape(function)}: ", line)]
    if not below and any(re.search(": (no proof(?!: it calls)|not proved)", line) for line in answers):
        return f"refused at {function}", True
    if not below and any(line.endswith(": proved") for line in answers):
        return f"NOT REFUSED at {function}", False
    causes = below + answers + [line for line in lines if line.startswith("rattle: ") or re.search(r"\berror\b", line)] + lines[-1:]
    return f"NOT CHECKED: {causes[0] if causes else 'the checker said nothing'}", False


def answer_to(uses, crate, name):
    """What became of a bug, and whether it was refused."""
    file, pairs = read_edit(os.path.join(ROOT, "planted", crate, f"{name}.edit"))
    with tempfile.TemporaryDirectory(prefix="alone-") as copy:
        folder = os.path.join(copy, crate)
        shutil.copytree(os.path.join(ROOT, "crates", crate), folder, ignore=shutil.ignore_patterns("out"))
        with open(os.path.join(folder, file), encoding="utf-8") as source:
            text = source.read()
        function = function_of(text, file, text.find(pairs[0][0]))
        if not plant(folder, [(name, file, pairs, function)]):
            return "NOT PLANTED", False
        root = "src/main.rt" if os.path.exists(os.path.join(folder, "src/main.rt")) else "src/lib.rt"
        words = [f"{KIT}/bin/rattle", "check", "--crate-name", crate, root, *libraries(uses, crate), "--links", f"{crate}=", "--only", function,
                 "--antt-project", f"{KIT}/rattle/logic/antt-project.json", "--logic-built", f"{KIT}/logic_built"]
        ended = subprocess.run(words, cwd=folder, stdout=subprocess.PIPE, stderr=subprocess.STDOUT, text=True, check=False)
    if os.environ.get("SHOW"):
        print(ended.stdout)
    return judged(crate, function, ended.stdout)


def bugs(words):
    """The crate and the name of each bug that is asked for."""
    for word in words:
        crate, _, name = word.partition("/")
        names = [name] if name else sorted(file[:-5] for file in os.listdir(os.path.join(ROOT, "planted", crate)) if file.endswith(".edit"))
        yield from ((crate, each) for each in names)


def main():
    if len(sys.argv) < 2:
        sys.exit("usage: python3 planted/alone.py CRATE/NAME .. or CRATE ..")
    uses, count, wrong = crates(), 0, 0
    for crate, name in bugs(sys.argv[1:]):
        said, is_refused = answer_to(uses, crate, name)
        count += 1
        wrong += not is_refused
        print(f"{crate}/{name}: {said}", flush=True)
    print(f"{count} planted bugs tried alone, {wrong} not refused, not checked or not planted")
    sys.exit(1 if wrong else 0)


if __name__ == "__main__":
    main()
