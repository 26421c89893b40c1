"""The session file of a client: it goes on with these numbers when it is started again, and nothing that it asked runs twice.

docs/FORMATS.md, "The session file of a client", has its lines. It is written whole before a request goes out: beside, synced, and then renamed.
"""

import collections
import os

from clients import EXPIRIES, KIND_OF, MOST_NUMBER, NODES, NOT_RUN, is_command, is_number, is_payload
from frames import KREL, REL
from scripts import Refused, read

PORTS = range(1, 65_536)
# so many bytes are read of a file
MOST_BYTES = 1 << 20
# the lines that may stand after a line, and what each is
NEXT = {None: ("session",), "session": ("last",), "last": ("asked", "taken", "end"), "asked": ("taken", "end"), "taken": ("taken", "end"), "end": ()}
LINES = {"session": "session 1 DAEMON LOCAL", "last": "last NUMBER", "asked": "asked NUMBER COMMAND", "taken": "taken MESSAGE", "end": "end"}

Asked = collections.namedtuple("Asked", "number command")
# the number of a reliable message isn't known: None; its kind is that of its flow
Message = collections.namedtuple("Message", "source number payload kind", defaults=(REL,))


def words_of(message):
    """A message as `rel SOURCE PAYLOAD`, `krel SOURCE PAYLOAD` or `prio SOURCE NUMBER PAYLOAD`."""
    words = (message.kind, message.source) if message.number is None else ("prio", message.source, message.number)
    return " ".join(map(str, (*words, message.payload)))


def taken_by(message):
    """The command that takes a message."""
    return "takeprio" if message.number is not None else f"{'take' if message.kind == REL else 'ktake'} {message.source}"


class Kept:
    """What is kept of a session: both ports, the last number that was answered, what was asked and not answered, and messages that weren't told yet."""

    def __init__(self, path, daemon=0, local=0):
        self.path, self.daemon, self.local = path, daemon, local
        self.last, self.asked, self.taken = 0, None, []
        # what the file has, once it is there
        self.written = None

    # ---- what answers do

    def is_closed(self):
        """Whether the next request opens a session."""
        return self.last == 0 and self.asked is None

    def answered(self, words):
        """What the answer to the request that was asked does. A message that it brings is kept until it is told."""
        number, command, self.asked = self.asked.number, self.asked.command.split(" "), None
        if words[0] == "badnumber":
            self.last = int(words[1])
        elif words[0] in NOT_RUN or words[0] == "closed":
            self.last = 0
        elif words[0] != "badrequest":
            self.last = number
        if words[0] == "payload":
            source, *more = words[1:-1] or command[1:]
            self.taken.append(Message(int(source), int(more[0]) if more else None, words[-1], KIND_OF.get(command[0], REL)))

    # ---- the file

    def text(self):
        lines = [f"session 1 {self.daemon} {self.local}", f"last {self.last}"]
        lines += [f"asked {self.asked.number} {self.asked.command}"] if self.asked else []
        return "\n".join([*lines, *("taken " + words_of(message) for message in self.taken), "end", ""])

    def write(self):
        """Writes the file, where it isn't so yet. A first one isn't written over another."""
        text, beside = self.text(), f"{self.path}.new" if self.written else f"{self.path}.{os.getpid()}.new"
        if text == self.written:
            return
        try:
            place = os.open(beside, os.O_WRONLY | os.O_CREAT | os.O_TRUNC, 0o600)
            with os.fdopen(place, "w", encoding="ascii") as file:
                file.write(text)
                file.flush()
                os.fsync(file.fileno())
            if self.written is None:
                os.link(beside, self.path)
                os.remove(beside)
            else:
                os.replace(beside, self.path)
        except FileExistsError as fault:
            os.remove(beside)
            raise Refused(f"{self.path}: another client has begun this file at this moment; ask again") from fault
        except OSError as fault:
            raise Refused(f"{self.path}: {fault.strerror}; a request goes out only when its number is on the disk") from fault
        self.written = text

    def of_session(self, words):
        if len(words) != 3 or words[0] != "1" or not all(is_number(word, PORTS) for word in words[1:]):
            return False
        self.daemon, self.local = map(int, words[1:])
        return True

    def of_last(self, words):
        if len(words) != 1 or not is_number(words[0], range(MOST_NUMBER)):
            return False
        self.last = int(words[0])
        return True

    def of_asked(self, words):
        """The number of what was asked is the next one."""
        if len(words) < 2 or words[0] != str(self.last + 1) or not is_command(words[1:]):
            return False
        self.asked = Asked(self.last + 1, " ".join(words[1:]))
        return True

    def of_taken(self, words):
        numbers = {(REL, 3): (NODES,), (KREL, 3): (NODES,), ("prio", 4): (NODES, EXPIRIES)}.get((words[0], len(words)) if words else None, ())
        if not numbers or not is_payload(words[-1]) or not all(is_number(word, each) for word, each in zip(words[1:], numbers)):
            return False
        is_prio = words[0] == "prio"
        self.taken.append(Message(int(words[1]), int(words[2]) if is_prio else None, words[-1], REL if is_prio else words[0]))
        return True

    def of_end(self, words):
        return not words


def kept_in(path):
    """What a session file has; None where there is no such file. What is no session file is refused, with its first line that is none."""
    if not os.path.lexists(path):
        return None
    text = read(path, MOST_BYTES).decode("ascii", "replace")
    *lines, rest = text.split("\n")
    kept, before = Kept(path), None
    for number, line in enumerate(lines, 1):
        name, *words = line.split(" ")
        if name not in NEXT[before] or not getattr(kept, "of_" + name)(words):
            raise refused(path, number, before)
        before = name
    if rest or before != "end":
        raise refused(path, len(lines) + 1, before)
    kept.written = text
    return kept


def refused(path, number, before):
    """What is said of a line that can't stand there."""
    stands = " or ".join(f"`{LINES[name]}`" for name in NEXT[before]) or "nothing"
    return Refused(f"{path}, line {number}: no session file of a client, there stands {stands} (docs/FORMATS.md). Nothing was asked. "
                   "Name another file by --session; `spinesd-sessions` lists the sessions that the daemon has, and closes one")
