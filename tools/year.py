"""Lives of banks, simulated, with everything failing: each is one file through days of requests, kills, losses of
power, failing disks, refused memory, cut connections, clocks that go back, copies and restores. A seed draws all of it.

    tools/year [--seed S] [--seeds N] [--days D] [--requests R] [--processes P] [--table] [--plant FAULT] [PROGRAM]

N lives from seed S on, each of D days with about R requests per day, by P processes: 3 lives of 7 days with 120 where
they are left out. PROGRAM is crates/bank_cli/out/bank_cli. A seed draws a bank of two to five branches with its own
opening lists, which may be a file of an earlier schema version first, what is asked for each day, by clients with slips
and without, and what fails (tools/simulation/failing.py). Each reply has to be that of the reference model, or 503
where something failed so, or none where the program or its connection ended. Then the file has to be what the model
says, row by row: nothing that was answered is lost, nothing is carried out twice, and of the requests on a connection
that got no reply a beginning is carried out. `check` has to pass each day.

The clock, the disk and the memory of the program are those of tools/simulation/machine.c, which the loader puts before
the C library. Faults are counted in calls, so a seed has the same ones each time.

A life that fails prints the day, what failed there, and the first reply or row that differs, and leaves its folder: the
file and its log, the opening lists, and the messages with their replies. With --table a line says how often each rule,
form, command, fault, status and exit occurred, and what did not occur has failed, too. With --plant a fault that no
contract reaches is planted, and each life that finds it is counted as passed: sync (syncs do nothing), clock (it stands
still), reply (one goes to another connection), badge (the list has one more), copy (a backup is taken without its log).

Each life is a check.
"""
import os
import shutil
import tempfile
import time
from collections import Counter
from concurrent.futures import ProcessPoolExecutor
from functools import partial

from checks import Report, reader, refuse
from repository import are_built
from simulation.coverage import Seen
from simulation.life import FAULTS, Life

# Where a life's files stand, if this many bytes are free there.
MEMORY, MEMORY_BYTES = "/dev/shm", 1 << 30
PLANTS = ("sync", "clock", "reply", "badge", "copy")
# What is said of each life, and of all: what occurred, by the names under which it is counted.
TOTALS = {
    "kills": ("exit killed",),
    "losses of power": ("a loss of power", "idle a loss of power"),
    "failing calls": ("calls to the disk that failed",),
    "refused allocations": ("calls for memory refused",),
    "restarts": ("restarts after a fault", "starts that failed"),
    "slips again": ("slip sent again",),
    "restores": ("backups restored",),
    "upgrades": ("upgrades",),
    "clocks set back": ("clock set back",),
    "bits flipped": ("bits flipped",),
    "years closed": ("years closed",),
}


def has_memory_disk():
    """Whether files may stand in memory, and libraries among them be loaded. There a sync takes no time, however busy the
    machine's disk is; what a disk loses with the power is the machine's of the simulation anyway."""
    if not os.access(MEMORY, os.W_OK) or os.statvfs(MEMORY).f_flag & os.ST_NOEXEC:
        return False
    return shutil.disk_usage(MEMORY).free > MEMORY_BYTES


def live_one(given, seed):
    """Lives one life: what occurred, how long it took, and what is wrong, if anything is."""
    room = tempfile.mkdtemp(prefix=f"bank-year-{seed}-", dir=MEMORY if has_memory_disk() else None)
    begin, life = time.monotonic(), None
    wrong, seen = None, Seen()
    try:
        life = Life(seed, given.days, given.requests, given.program, room, given.plant)
        seen = life.seen
        life.live()
    except FAULTS as why:
        day, fault = (life.day, life.fault) if life else (0, "none")
        wrong = f"day {day}, {fault}: {type(why).__name__}: {why}"
    finally:
        if life:
            life.close()
    if wrong and not given.plant:
        room = shutil.move(room, os.path.join(tempfile.gettempdir(), os.path.basename(room)))
        with open(os.path.join(room, "failed"), "w", encoding="utf-8") as file:
            file.write(wrong + "\n")
        wrong = f"{wrong}\n    in {room}"
    else:
        shutil.rmtree(room)
    return seen.counts, time.monotonic() - begin, wrong


def line_of(counts):
    """The line on what occurred."""
    found = {name: sum(counts[it] for it in of) for name, of in TOTALS.items()}
    return ", ".join([f"{counts['requests']} requests", *(f"{count} {name}" for name, count in found.items() if count)])


def arguments():
    """What the command line says."""
    found = reader(__doc__, has_checks=False)
    found.add_argument("--seed", type=int, default=None)
    found.add_argument("--seeds", type=int, default=None)
    found.add_argument("--days", type=int, default=7)
    found.add_argument("--requests", type=int, default=120)
    found.add_argument("--processes", type=int, default=len(os.sched_getaffinity(0)))
    found.add_argument("--table", action="store_true")
    found.add_argument("--plant", choices=PLANTS)
    given = found.parse_args()
    if given.seeds is None:
        given.seeds = 3 if given.seed is None else 1
    given.seed = 1 if given.seed is None else given.seed
    return given


def live_all(given, report):
    """Lives all lives, takes each as a check, and returns how often each thing occurred."""
    counts = Counter()
    seeds = range(given.seed, given.seed + given.seeds)
    with ProcessPoolExecutor(min(given.processes, given.seeds)) as pool:
        for seed, (found, seconds, wrong) in zip(seeds, pool.map(partial(live_one, given), seeds)):
            counts += found
            note = f"{line_of(found)}; {seconds:.1f} seconds"
            if given.plant:
                report.add(f"seed {seed}", None if wrong else f"not found: {note}", f"{note}; found: {wrong}")
            else:
                report.add(f"seed {seed}", wrong and f"{note}: {wrong}", note)
    return counts


def main():
    given, report = arguments(), Report()
    if not are_built(given.program):
        return refuse("there is no program")
    counts = live_all(given, report)
    print(f"in all: {line_of(counts)}")
    if given.table:
        seen = Seen()
        seen.counts = counts
        lines, missing = seen.table()
        print("\n".join(lines))
        for it in missing:
            report.add(it, "it did not occur")
    return report.end()
