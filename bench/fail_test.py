"""Runs a test once for each of its allocations, which then fails: python3 bench/fail_test.py PATH/TO/NAME_tests TEST

The test must pass each time, with that allocation failing alone. The tests of a crate are built by `rt test` in its folder,
as out/NAME_tests. It needs a C compiler, `cc`.
"""

import os
import subprocess
import sys
import tempfile


def run(program, test, variables):
    """The status, and how many allocations there were."""
    ended = subprocess.run([program, test], capture_output=True, env=variables, check=False)
    return ended.returncode, int(ended.stderr.split()[-3])


def main():
    if len(sys.argv) != 3:
        sys.exit("usage: python3 bench/fail_test.py PATH/TO/NAME_tests TEST")
    program, test = sys.argv[1:]
    source = os.path.join(os.path.dirname(os.path.abspath(__file__)), "fail_calls.c")
    with tempfile.TemporaryDirectory() as folder:
        library = os.path.join(folder, "fail_calls.so")
        subprocess.run(["cc", "-O1", "-shared", "-fPIC", "-o", library, source, "-ldl"], check=True)
        preload = {"LD_PRELOAD": library}
        status, allocations = run(program, test, preload)
        if status != 0 or allocations == 0:
            sys.exit(f"with no failure: status {status}, {allocations} allocations")
        for number in range(1, allocations + 1):
            status, _ = run(program, test, {**preload, "FAIL_ALLOC": str(number)})
            if status != 0:
                sys.exit(f"at allocation {number}: status {status}")
        print(f"{test}: it passes with each of its {allocations} allocations failing")


if __name__ == "__main__":
    main()
