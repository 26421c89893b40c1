"""Times the replay of long schedules: python3 bench/replay.py PATH/TO/spinesd

Three nodes in a line, with room for 64 messages, and three mixes of events:

  mixed   a client of the first node sends a message of 64 bytes, frames go both ways on both links, and a client of the last
          node takes what came. The first 64 messages are accepted and arrive
  takes   a client of the last node takes, and there is nothing
  frames  frames alone, both ways on both links, and each arrives

Each schedule is read from a file several times, with its journal thrown away. What is told are medians of the processor time,
the program's and the system's, which on Linux is exact to a microsecond. An untimed replay of no events goes before each timed
one, so that all find the processor's caches alike: a start behind a long replay takes longer. The time of a schedule of no
events, which is that of starting the process, is told first.
"""

import os
import statistics
import subprocess
import sys
import tempfile

SIZES = (0, 1000, 4000, 16384)
ROUNDS = 200
ROOM = 64
HEADER = f"""schedule 1
seed {'00' * 32}
height 5
bounds {ROOM} 256
nodes 3
edge 1 2 10
edge 2 3 10
begin
"""
HOPS = ((1, 2), (2, 3), (3, 2), (2, 1))
MIXES = ("mixed", "takes", "frames")


def events(mix, count):
    """So many lines of events: in turn what the mix has of a message, a frame over each of the four hops, and a take."""
    lines = []
    turns = 0
    while len(lines) < count:
        turns += 1
        if mix == "mixed":
            lines.append(f"rel 1 3 {(turns - 1) % 256:02x}" + "5a" * 63)
        if mix != "takes":
            for hop in HOPS:
                lines.append(f"poll {hop[0]} {hop[1]}")
                lines.append(f"pass {hop[0]} {hop[1]} {turns}")
        if mix != "frames":
            lines.append("take 3 1")
    return lines[:count]


def schedule(lines):
    return (HEADER + "".join(line + "\n" for line in lines) + "end\n").encode()


def summary(lines):
    """The last line of the journal. What is accepted arrives."""
    frames = sum(line.startswith("poll") for line in lines)
    messages = min(ROOM, sum(line.startswith("rel") for line in lines))
    return f"summary events {len(lines)} sent {messages} delivered {messages} priority 0 frames {frames}"


def check_summary(program, path, lines):
    with open(path, "rb") as file:
        ended = subprocess.run([program, "replay"], stdin=file, capture_output=True, check=True)
    last = ended.stdout.decode().splitlines()[-1]
    if last != summary(lines):
        sys.exit(f"{len(lines)} events: {last!r} in place of {summary(lines)!r}")


def processor_seconds(program, path):
    """The processor time of one replay whose journal is thrown away."""
    actions = ((os.POSIX_SPAWN_OPEN, 0, path, os.O_RDONLY, 0), (os.POSIX_SPAWN_OPEN, 1, os.devnull, os.O_WRONLY, 0))
    child = os.posix_spawn(program, [program, "replay"], os.environ, file_actions=actions)
    _, status, used = os.wait4(child, 0)
    if status != 0:
        sys.exit(f"{path}: status {os.waitstatus_to_exitcode(status)}")
    return used.ru_utime + used.ru_stime


def rounds_of_seconds(program, paths):
    """The times of each schedule, round by round. The first one has no events, and goes untimed before each."""
    rounds = []
    for _ in range(ROUNDS):
        rounds.append([])
        for path in paths:
            processor_seconds(program, paths[0])
            rounds[-1].append(processor_seconds(program, path))
    return rounds


def tell(mix, paths, rounds):
    """A row for each schedule. The start is taken off within a round, since the processor's speed changes from round to round."""
    print(f"{mix:<8} {'events':>8} {'bytes in':>10} {'ms':>9} {'us an event':>12} {'ratio':>6}")
    first = statistics.median(times[1] - times[0] for times in rounds) / SIZES[1]
    for place, (count, path) in enumerate(zip(SIZES, paths)):
        took = statistics.median(times[place] for times in rounds)
        row = f"{'':<8} {count:>8} {os.path.getsize(path):>10} {took * 1e3:>9.2f}"
        if count:
            each = statistics.median(times[place] - times[0] for times in rounds) / count
            row += f" {each * 1e6:>12.3f} {each / first:>6.2f}"
        print(row)


def main():
    if len(sys.argv) != 2:
        sys.exit("usage: python3 bench/replay.py PATH/TO/spinesd")
    program = sys.argv[1]
    with tempfile.TemporaryDirectory() as folder:
        for mix in MIXES:
            paths = [os.path.join(folder, f"{mix}-{count}") for count in SIZES]
            for count, path in zip(SIZES, paths):
                lines = events(mix, count)
                with open(path, "wb") as file:
                    file.write(schedule(lines))
                check_summary(program, path, lines)
            tell(mix, paths, rounds_of_seconds(program, paths))


if __name__ == "__main__":
    main()
