"""What several messages in a frame save: python3 bench/frames.py PATH/TO/spinesd

One node sends priority messages of 64 bytes to its neighbour, which acknowledges them. They go one in a frame, as where nothing waits, and four in a
frame, the most there may be. The schedules differ in nothing else: how many frames go both ways, and the processor time of their replays less that of
the sends alone, the least of several rounds. Figures depend on the machine, and nothing is judged.
"""

import os
import sys
import tempfile

from replay import processor_seconds

MESSAGES = 3_200
ROUNDS = 7
HEADER = f"""schedule 1
seed {'00' * 32}
height 10
bounds 1 256
nodes 2
edge 1 2 10
begin
"""
SEND = "prio 1 2 5 18446744073709551615 0 " + "5a" * 64


def events(batch):
    """All messages, with a frame there and one back after each so many; no frame for 0."""
    lines, frames = [], 0
    for sent in range(1, MESSAGES + 1):
        lines.append(SEND)
        if batch and sent % batch == 0:
            frames += 1
            # the first frame of a life is but learned, so one more goes before it
            for each in (frames, frames + 1) if frames == 1 else (frames + 1,):
                lines += ["poll 2 1", f"pass 2 1 {each}", "poll 1 2", f"pass 1 2 {each}"]
    return lines


def main():
    if len(sys.argv) != 2:
        sys.exit("usage: python3 bench/frames.py PATH/TO/spinesd")
    with tempfile.TemporaryDirectory() as folder:
        least = {}
        for batch in (0, 1, 4):
            path = os.path.join(folder, str(batch))
            lines = events(batch)
            with open(path, "w", encoding="ascii") as file:
                file.write(HEADER + "".join(line + "\n" for line in lines) + "end\n")
            least[batch] = path, len(lines), sum(line.startswith("poll") for line in lines), []
        for _ in range(ROUNDS):
            for path, _, _, times in least.values():
                times.append(processor_seconds(sys.argv[1], path))
        sends = min(least[0][3])
        print(f"{MESSAGES} sends alone: {1e3 * sends:.1f} ms")
        for batch in (1, 4):
            _, count, frames, times = least[batch]
            more = min(times) - sends
            print(f"{batch} in a frame: {count} events, {frames} frames, {1e3 * more:.1f} ms beside the sends, {more / (min(least[1][3]) - sends):.3f} of the first")


if __name__ == "__main__":
    main()
