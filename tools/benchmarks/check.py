"""Takes the time that the check of a bank's books needs for an entry, over made-up banks of three sizes.

    tools/benchmarks/check [PROGRAM]

PROGRAM is the built program of the crate bench_check; without it the one in the crate's out folder, which is proved and
built first where that is due. Each bank has 1,000 entries, 100 accounts and 10 tellers a branch. A run of the program
makes a synthetic bank, computes what is kept of it, and checks it once. Two times are printed for each size, each the shortest
of many runs: that of the check alone, which the program takes itself, and that of the whole run. The exit status is 1
where the whole run needs more than twice the time for an entry of the largest bank that it needs for one of the
smallest.
"""
import os
import subprocess
import sys
import time

from checks import reader
from repository import TOP

PROGRAM = os.path.join(TOP, "crates", "bench_check", "out", "bench_check")
SIZES = [(1, 100), (10, 30), (100, 10)]


def run(program, branches):
    """The nanoseconds of one check, and of the whole run."""
    start = time.monotonic_ns()
    ran = subprocess.run([program, str(branches), "timed"], stdout=subprocess.PIPE, check=False)
    whole = time.monotonic_ns() - start
    lines = ran.stdout.splitlines()
    if ran.returncode != 0 or len(lines) != 2 or lines[1] != b"books hold":
        sys.exit(f"check: status {ran.returncode}, {ran.stdout!r}")
    return int(lines[0]), whole


def main():
    program = reader(__doc__, program=PROGRAM, has_checks=False).parse_args().program
    build = [os.path.join(TOP, "tools", "build"), "bench_check"]
    if program == PROGRAM and subprocess.run(build, check=False).returncode:
        sys.exit("check: the program could not be built")
    if not os.access(program, os.X_OK):
        sys.exit(f"check: there is no program {program}")
    figures = []
    print("nanoseconds an entry")
    print("entries  check  whole run")
    for branches, runs in SIZES:
        times = [run(program, branches) for _ in range(runs)]
        check, whole = (min(it) / (branches * 1000) for it in zip(*times))
        figures.append(whole)
        print(f"{branches * 1000:7d}  {check:5.0f}  {whole:9.0f}", flush=True)
    ratio = figures[-1] / figures[0]
    print(f"the largest bank needs {ratio:.1f} times the time for an entry of the smallest")
    return 1 if ratio > 2 else 0
