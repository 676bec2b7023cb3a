"""Says which functions of a crate the prover checks for how many seconds of the processor.

    tools/toolchain/where-time [--libraries FOLDER] [--only PATH ..] [--most N] CRATE

The whole crate is checked from nothing, by one process, and nothing is kept of that; with --only the functions of these paths,
as `rattle check` takes them. FOLDER has the crates below it with their libraries built, as rt ci and tools/build leave them;
without it, they are those of this copy. First stand the seconds until the prover ends with a first function, which read sources
and libraries, and those after its last; then the functions, the costliest first. The time between two of its lines is that of
the function which the second names, with one exception: how a function runs, with its exits, is worked out before what it
calls is proved, and is added to the first of these. So the seconds of a short function may be those of a caller with many exits.

The seconds are the process's own, as the system has them, of user and system; the machine's load hardly changes them. The exit
status is that of the check.
"""
import os
import re
import subprocess
import sys
from collections.abc import Iterable
from typing import NamedTuple

from checks import reader
from repository import TOP, kit, source_of, dependencies, check_arguments

TICKS = os.sysconf("SC_CLK_TCK")
ENDED = re.compile(r"checked (\S+), \d+ of \d+")


class Spent(NamedTuple):
    """The seconds of a check: until it ended with a first function, after the last, and of each function between."""

    first: float
    last: float
    functions: dict[str, float]


def spent(lines: Iterable[tuple[float, str]], end: float) -> Spent:
    """What was spent on what, by the lines that a check wrote, each with its seconds till then, and the seconds at the end."""
    ended = [(seconds, it[1]) for seconds, line in lines if (it := ENDED.match(line))]
    found: dict[str, float] = {}
    for (before, _), (seconds, name) in zip(ended, ended[1:]):
        found[name] = found.get(name, 0.0) + seconds - before
    return Spent(ended[0][0], end - ended[-1][0], found) if ended else Spent(end, 0.0, {})


def seconds_of(process: int) -> float:
    """The seconds of the processor that a process took: the 14th and 15th fields of its line, which follow its name's end."""
    with open(f"/proc/{process}/stat", encoding="utf-8", errors="replace") as file:
        fields = file.read().rpartition(")")[2].split()
    return (int(fields[11]) + int(fields[12])) / TICKS


def checked(words: list[str], folder: str) -> tuple[int, list[tuple[float, str]], float]:
    """The exit status of a check, the lines that it writes, each with its seconds till then, and the seconds at its end."""
    lines = []
    none, pipe, same = subprocess.DEVNULL, subprocess.PIPE, subprocess.STDOUT
    with subprocess.Popen(words, cwd=folder, stdin=none, stdout=pipe, stderr=same, text=True, errors="replace") as it:
        for line in it.stdout or ():
            lines.append((seconds_of(it.pid), line.rstrip("\n")))
        _, waited, used = os.wait4(it.pid, 0)
        it.returncode = os.waitstatus_to_exitcode(waited)
    return it.returncode, lines, used.ru_utime + used.ru_stime


def main() -> int:
    arguments = reader(__doc__, program=None, has_checks=False)
    arguments.add_argument("--libraries", metavar="FOLDER", default=TOP, help="a copy whose crates are proved")
    arguments.add_argument("--only", metavar="PATH", action="append", default=[], help="check the functions of this path alone")
    arguments.add_argument("--most", metavar="N", type=int, default=20, help="print the N longest functions (20)")
    arguments.add_argument("crate", metavar="CRATE")
    given = arguments.parse_args()
    source = source_of(given.crate)
    command = check_arguments(dependencies(), given.crate, source, os.path.abspath(given.libraries), kit())
    only = [word for path in given.only for word in ("--only", path)]
    folder = os.path.join(TOP, "crates", given.crate)
    status, lines, end = checked(["rattle", "check", *command, "--jobs", "1", "--progress", *only], folder)
    if status:
        print("\n".join(line for _, line in lines if not ENDED.match(line)), file=sys.stderr)
    found = spent(lines, end)
    print(f"{given.crate}: {end:.0f} seconds; {found.first:.0f} until the first function, {found.last:.0f} after the last")
    for name, seconds in sorted(found.functions.items(), key=lambda it: -it[1])[: given.most]:
        print(f"{seconds:8.1f}  {name}")
    return status
