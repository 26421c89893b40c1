"""How each script of the kit ends, and where it finds the program: 0 it is done, 1 it was refused and the reason is said, 2 the words are none."""

import os
import shutil
import sys

HERE = os.path.dirname(os.path.abspath(__file__))


class Refused(Exception):
    """What was asked for isn't done; the text is a sentence for who asked, and the status is what the script ends with."""

    def __init__(self, text, status=1):
        super().__init__(text)
        self.status = status


def program_of(named):
    """The program's path: the named one, that of the environment's SPINESD, the installed one, or the one that this checkout built."""
    built = os.path.join(HERE, "..", "..", "crates", "spinesd", "out", "spinesd")
    for path in (named, os.environ.get("SPINESD"), shutil.which("spinesd"), built):
        if path and os.access(path, os.X_OK) and not os.path.isdir(path):
            return os.path.abspath(path)
        if path and path in (named, os.environ.get("SPINESD")):
            raise Refused(f"{path} is no program")
    raise Refused("no program spinesd is installed or built; name it by --program or SPINESD")


def read(path, most=-1):
    """The bytes of a file, or of standard input where it is named by a dash; no more than so many."""
    try:
        if path == "-":
            return sys.stdin.buffer.read(most)
        with open(path, "rb") as file:
            return file.read(most)
    except OSError as fault:
        raise Refused(f"{path}: {fault.strerror}") from fault


def ends(name, run):
    """Runs a script to its exit status."""
    try:
        run()
    except Refused as refused:
        print(f"{name}: {refused}", file=sys.stderr)
        sys.exit(refused.status)
    except BrokenPipeError:
        os.dup2(os.open(os.devnull, os.O_WRONLY), sys.stdout.fileno())
        sys.exit(1)
    except KeyboardInterrupt:
        sys.exit(130)
