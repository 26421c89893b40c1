"""The commands that documents show, run over the built program. Used by documents.py.

A command stands in an example behind a `$`. The lines after it, up to the next command or the end of the example, are its standard output; two dots stand for
any lines. A command without lines may write anything. It ends with status 0, or with the one that a comment behind it says: `# status 4`. The commands of a
document are run in one shell, in the root of the repository, with a folder of their own as HOME and the program as `spinesd`; what still runs at the end is
ended.
"""

import os
import re
import shlex
import signal
import subprocess
import tempfile

ROOT = os.path.dirname(os.path.dirname(os.path.abspath(__file__)))
BUILT = "crates/spinesd/out/spinesd"
SECONDS = 300
SHELL = 'set -m\nstep() { eval "$2" > "$STEPS/$1.out" 2> "$STEPS/$1.err" < /dev/null; echo $? > "$STEPS/$1.status"; }\n'


class Command:
    """A command with what it is said to write and how it is said to end."""

    def __init__(self, path, at, line):
        self.path, self.at, self.lines = path, at, []
        self.text, _, comment = line.partition(" # ")
        status = re.search(r"status (\d+)", comment)
        self.text, self.status = self.text.strip(), int(status[1]) if status else 0


def commands(documents):
    """All commands of all documents, in their order."""
    found = []
    for path, lines in documents.items():
        current = None
        for at, line in enumerate(lines, 1):
            if line.startswith("    $ "):
                current = Command(path, at, line[6:])
                found.append(current)
            elif current and line.startswith("    "):
                current.lines.append(line[4:])
            else:
                current = None
    return found


def agrees(said, written):
    """Whether lines are those that were written, where two dots stand for any."""
    if not said:
        return not written
    if said[0] == "..":
        return any(agrees(said[1:], written[at:]) for at in range(len(written) + 1))
    return bool(written) and said[0] == written[0] and agrees(said[1:], written[1:])


def ends(session):
    """Ends the processes that a shell of ours left, each by its number."""
    for name in os.listdir("/proc"):
        if name.isdigit():
            try:
                with open(f"/proc/{name}/stat", encoding="utf-8", errors="replace") as file:
                    if int(file.read().rpartition(")")[2].split()[3]) == session:
                        os.kill(int(name), signal.SIGKILL)
            except (OSError, IndexError, ValueError):
                continue


def run(shown, program, folder):
    """Runs the commands of one document in a shell."""
    steps, names = os.path.join(folder, "steps"), os.path.join(folder, "bin")
    os.makedirs(steps)
    os.makedirs(names)
    os.makedirs(os.path.join(folder, "home"))
    os.symlink(program, os.path.join(names, "spinesd"))
    script = SHELL + "".join(f"step {at} {shlex.quote(one.text.replace(BUILT, program))}\n" for at, one in enumerate(shown))
    environment = dict(os.environ, HOME=os.path.join(folder, "home"), PATH=names + ":" + os.environ["PATH"], STEPS=steps)
    with subprocess.Popen(["bash", "-c", script], cwd=ROOT, env=environment, stdin=subprocess.DEVNULL, stdout=subprocess.DEVNULL,
                          stderr=subprocess.DEVNULL, start_new_session=True) as shell:
        try:
            shell.wait(timeout=SECONDS)
        except subprocess.TimeoutExpired:
            pass
        ends(shell.pid)
    return steps


def told(path):
    try:
        with open(path, encoding="utf-8", errors="replace") as file:
            return file.read()
    except FileNotFoundError:
        return None


def fault_of(command, steps, at):
    """How a command ended otherwise than it is said to; None where it didn't."""
    status, output = told(os.path.join(steps, f"{at}.status")), told(os.path.join(steps, f"{at}.out"))
    if status is None:
        return "it didn't end"
    if int(status) != command.status:
        said = " / ".join(line.strip() for line in told(os.path.join(steps, f"{at}.err")).splitlines()[-2:])
        return f"status {status.strip()}, not {command.status}: {said[-200:]}"
    if command.lines and not agrees(command.lines, output.splitlines()):
        return "it writes " + (" / ".join(output.splitlines()[:4]) or "nothing")
    return None


def faults(shown, program):
    """The commands that end otherwise: path, line and words."""
    for path in dict.fromkeys(one.path for one in shown):
        its = [one for one in shown if one.path == path]
        with tempfile.TemporaryDirectory() as folder:
            steps = run(its, program, folder)
            for at, command in enumerate(its):
                if fault := fault_of(command, steps, at):
                    yield path, command.at, f"`{command.text}`: {fault}"
