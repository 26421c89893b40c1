"""A recording that is read on as it grows, and the files that are meant by a node's folder."""

import os
import sys

import configurations
import recordings
from holders import holder_of
from scripts import Refused, read
from watching import Watch

PIECE = 1 << 20


class Reading:
    """A recording with its watch, which knows all that was read so far."""

    def __init__(self, path, watch):
        self.path, self.watch, self.place, self.size, self.rest = path, watch, 1, 0, b""

    def open(self):
        try:
            return sys.stdin.buffer if self.path == "-" else open(self.path, "rb")
        except OSError as fault:
            raise Refused(f"{self.path}: {fault.strerror}") from fault

    def more(self):
        """Reads what came since, and feeds the whole lines of it."""
        with self.open() as file:
            if self.size and os.fstat(file.fileno()).st_size < self.size:
                raise Refused(f"{self.path} got shorter: a recording only grows, and each start has its own")
            if self.size:
                file.seek(self.size)
            while piece := file.read(PIECE):
                self.size += len(piece)
                self.take(piece)

    def take(self, piece):
        whole, newline, self.rest = (self.rest + piece).rpartition(b"\n")
        for text in whole.split(b"\n") if newline else ():
            line = recordings.line_of(self.place, text)
            if (line.name == "recording") != (self.place == 1) or self.watch.ended:
                raise recordings.BadLine(f"line {self.place} can't stand there")
            self.watch.feed(line)
            self.place += 1


def files_of(folder):
    """The configuration and the newest recording of a node's folder."""
    found = recordings.newest_in(folder)
    if not found:
        holder = holder_of(folder)
        runs = f"; process {holder.pid} runs there, and its recording was moved or removed while it grew" if holder else ""
        raise Refused(f"{folder} is no folder with a recording, a file that ends with .recording and begins with `recording 1`{runs}")
    return os.path.join(folder, "spinesd.conf"), found[-1]


def reading_of(configuration, recording):
    """A recording of which nothing was read yet."""
    return Reading(recording, Watch(configurations.configuration_of(read(configuration))))
