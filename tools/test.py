"""Runs all checks of the repository: rt ci, and beside it, on the time of the processor that it leaves, the unit tests and the
mutants that the contracts have to refuse, those of a crate from when it is proved; then one after another what looks at the
built programs and at the pages (PARTS; docs/TESTING.md says what each shows).

    tools/test [--quick]

With --quick nothing is proved, no mutant is tried, and no test of a crate is run: it compiles the program unproved, runs QUICK
over it, and names the parts that it leaves out (LEFT_OUT). It takes some four minutes of the processor to compile, once, and fifteen
after that.

rt ci proves a copy of the repository that has no folder must-fail, no crate whose tests tools/toolchain/unit-tests runs, no
benchmark, and not the program that serves the sample in a store of one's choice. It would check a crate once for each mutant,
and tools/toolchain/mutants tries many of them in one check, over the libraries that rt ci has built; it would prove those
tests, which unit-tests compiles and runs; the benchmarks are proved where they are run, so benchmark-types only reads them
here; and it would build that program twice, which stores-program proves and builds once.

Each line of their output is passed on after the minutes since the start, so that the time of each crate can
be read off; those of the unit tests and of the mutants come once both have ended. The last line is 'N passed, M failed' over
all of them; the exit status is 1 where M is not 0. A part that ends with a fault, or says no count, counts as one failure at
least. What failed is said once more before that line.

branch/test tries a branch over https, office/test the office beside it, and desk/test the teller's page in a browser: last of all,
as they go by the clock and the machine is quiet then. A part that lacks a program of
tools/packages names it and says how many of its checks are skipped; then the last line is 'N passed, M failed, K skipped'.
"""
import contextlib
import os
import re
import shutil
import subprocess
import sys
import tempfile
import threading
import time

from checks import counted, reader
from first_look.compiling import QUICK as QUICK_PROGRAM
from first_look.compiling import compiled
from repository import BANK_PROGRAM, BENCHES, PROVED, ROWS_OVER, TOP, copy_crates, tests_to_run, dependencies

START = time.monotonic()
# The lines that say what failed, or passed at the second try; they are said once more at the end, at most MOST_FAILURES of them.
HAS_FAILED, MOST_FAILURES = re.compile(rb"\bFAILED\b|at the second try|^fn .*: (not proved|no proof)$"), 100
failures = []
# The minutes that each part took.
minutes = {}
# What runs over the libraries that rt ci has built, by its path below tools/toolchain.
OVER_LIBRARIES = ("stores-program", "benchmark-types", "permit-mutants")
# What goes by the clock, and is run last of all.
AT_LAST = ("branch/test", "branch/package", "office/test", "desk/test")
# What --quick runs, over a program that is not proved and less often than the whole.
QUICK = (
    "tools/cases/run --no-stores PROGRAM",
    "tools/cases/coverage --check",
    "tools/faults/kills --times 2 PROGRAM",
    "tools/faults/clients PROGRAM",
    "tools/faults/badges PROGRAM",
    "tools/faults/many PROGRAM",
    "tools/model/streams --no-stores 8 1 NONE PROGRAM",
    "tools/model/years 10 1 PROGRAM",
    "tools/year --seeds 1 --days 2 PROGRAM",
    "tools/pages/openapi PROGRAM",
    "tools/pages/sample-lists",
    "tools/pages/reading",
    "tools/pages/crates",
    "tools/pages/operation --check",
    "tools/pages/terms",
    "tools/pages/counter",
    "tools/pages/version PROGRAM",
    "tools/toolchain/self-tests",
    "tools/lint",
    "office/test PROGRAM",
    "desk/test PROGRAM",
)
# The parts that it leaves out, each with the reason.
LEFT_OUT = {
    "rt ci": "it proves",
    "tools/toolchain/mutants": "it proves",
    "tools/toolchain/permit-mutants": "it proves",
    "tools/toolchain/stores-program": "it proves",
    "tools/toolchain/benchmark-types": "it needs proved libraries",
    "tools/toolchain/unit-tests": "it takes 20 minutes of the processor",
    "tools/pages/contracts": "it proves",
    "tools/pages/adding": "it proves",
    "tools/pages/guide": "it proves",
    "tools/pages/lists": "it takes minutes over this program",
    "tools/faults/ends": "it counts calls of the proved program",
    "tools/faults/run": "it takes 22 minutes",
    "tools/faults/flips": "it reads pages of the proved program's file",
    "tools/faults/upgrades": "it starts the program 5,000 times",
    "tools/model/connections": "it is of the loop's model alone",
    "tools/benchmarks/report-memory": "it counts the proved program's memory",
    "branch/test": "it goes by the clock of a quick program",
    "branch/package": "it packs the proved program",
}
# What looks at the built programs, and at the pages, by its path below tools.
PARTS = (
    "cases/run",
    "cases/coverage --check",
    "faults/ends",
    "faults/run",
    "faults/kills",
    "faults/flips",
    "faults/upgrades",
    "faults/clients",
    "faults/badges",
    "faults/many",
    "model/streams",
    "model/years",
    "model/connections",
    "year --seeds 3 --days 7",
    "benchmarks/report-memory",
    "pages/openapi",
    "pages/guide",
    "pages/sample-lists",
    "pages/reading",
    "pages/contracts",
    "pages/adding",
    "pages/crates",
    "pages/operation --check",
    "pages/terms",
    "pages/counter",
    "pages/version",
    "pages/lists",
    "toolchain/self-tests",
    "lint",
)


def say(text):
    """Prints a line after the minutes since the start."""
    minutes = (time.monotonic() - START) / 60
    sys.stdout.buffer.write(b"%6.1f  " % minutes + text.rstrip(b"\r\n") + b"\n")
    sys.stdout.buffer.flush()


def start(words, folder=TOP, told=subprocess.DEVNULL, output=subprocess.PIPE):
    """Starts a command in a folder, and returns its process, or none where it does not start."""
    try:
        return subprocess.Popen(words, cwd=folder, stdin=told, stdout=output, stderr=subprocess.STDOUT)
    except OSError as error:
        say(b"tools/test: %s did not start: %s" % (words[0].encode(), str(error).encode()))
        return None


def pass_lines(lines, hear=lambda line: None):
    """Passes lines on, to `hear` too, keeps those on what failed, and returns the last that is not empty."""
    last = b""
    for line in lines:
        say(line)
        hear(line)
        if HAS_FAILED.search(line):
            failures.append(line)
        last = line.strip() or last
    return last


def take_minutes(words, begun):
    """Takes note of the minutes that a part took, which ends now."""
    minutes[words[0] if "/" in words[0] else " ".join(words)] = (time.monotonic() - begun) / 60


def run_part(words, folder=TOP, hear=lambda line: None):
    """Runs a command in a folder, passes its lines on, to `hear` too, and returns its status and last line."""
    say(b"tools/test: " + " ".join(words).encode())
    begun = time.monotonic()
    ran = start(words, folder)
    if ran is None:
        return 127, b""
    last, status = pass_lines(ran.stdout, hear), ran.wait()
    take_minutes(words, begun)
    return status, last


def counts_in(words, status, last):
    """How many passed, failed and were skipped in a part of the checks, by its exit status and its last line."""
    count = re.fullmatch(rb"(\d+) passed, (\d+) failed(?:, (\d+) skipped)?", last)
    if not count:
        say(b"tools/test: %s gave no count, and ended with status %d" % (words[0].encode(), status))
        return 0, 1, 0
    passed, failed, skipped = (int(it or 0) for it in count.groups())
    if status and not failed:
        say(b"tools/test: %s ended with status %d" % (words[0].encode(), status))
        failed = 1
    return passed, failed, skipped


def counts_of(words, folder=TOP, hear=lambda line: None):
    """Runs a part of the checks in a folder and returns how many passed, failed and were skipped."""
    return counts_in(words, *run_part(words, folder, hear))


class Beside:
    """A part of the checks that runs beside others, on the time of the processor that they leave."""

    def __init__(self, words):
        self.words = words
        self.output = tempfile.TemporaryFile()
        self.ran = start(["nice", "-n", "19", *words], told=subprocess.PIPE, output=self.output)
        self.waits = threading.Thread(target=self.wait)
        self.waits.start()

    def wait(self):
        """Waits for its end, and takes note of the minutes that it took."""
        begun = time.monotonic()
        if self.ran and self.ran.wait() is not None:
            take_minutes(self.words, begun)

    def tell(self, line):
        """Gives it a line on its standard input. One that did not start, or has ended, is reported by its counts."""
        with contextlib.suppress(OSError, AttributeError):
            self.ran.stdin.write(line + b"\n")
            self.ran.stdin.flush()

    def tell_if_proved(self, line):
        """Gives it the name of the crate that a line of rt ci says is proved, if it says so of one."""
        found = PROVED.match(line)
        if found:
            self.tell(found[1])

    def end_telling(self):
        """Says to it that no line follows."""
        with contextlib.suppress(OSError, AttributeError):
            self.ran.stdin.close()

    def counts(self):
        """Waits for its end, passes its lines on, and returns how many passed, failed and were skipped."""
        self.end_telling()
        say(b"tools/test: " + " ".join(self.words).encode())
        self.waits.join()
        status = self.ran.returncode if self.ran else 127
        self.output.seek(0)
        return counts_in(self.words, status, pass_lines(self.output))


def crates_to_prove():
    """What rt ci is to prove: all crates but those that other parts look at."""
    uses = dependencies()
    left_out = [*tests_to_run(uses), *BENCHES, ROWS_OVER]
    return [it for it in uses if it not in left_out]


def take_program(copy):
    """Takes over the bank program as rt ci has built it in a copy. Where it has not, there is none, and each row fails."""
    built, taken = (os.path.join(top, "crates", BANK_PROGRAM, "out", BANK_PROGRAM) for top in (copy, TOP))
    os.makedirs(os.path.dirname(taken), exist_ok=True)
    with contextlib.suppress(FileNotFoundError):
        os.remove(taken)
    with contextlib.suppress(FileNotFoundError):
        shutil.copy2(built, taken)


def all_counts(copy):
    """Runs each part, over a copy of the repository that it makes, and returns how many passed, failed and were skipped in
    each."""
    copy_crates(copy, crates_to_prove())
    tests = Beside(["tools/toolchain/unit-tests"])
    mutants = Beside(["tools/toolchain/mutants", "--libraries", copy, "--as-proved"])
    counts = [counts_of(["rt", "ci"], copy, mutants.tell_if_proved)]
    mutants.end_telling()
    counts += [counts_of([f"tools/toolchain/{it}", "--libraries", copy]) for it in OVER_LIBRARIES]
    take_program(copy)
    counts += [counts_of(f"tools/{it}".split()) for it in PARTS]
    counts += [it.counts() for it in (tests, mutants)]
    return counts + [counts_of([it]) for it in AT_LAST]


def quick_counts():
    """Runs the quick parts over the unproved program, and returns how many passed, failed and were skipped in each. What is left
    out is named, and skipped."""
    program = compiled(QUICK_PROGRAM)
    if program is None:
        return [(0, 1, 0)]
    counts = [counts_of([program if it == "PROGRAM" else it for it in part.split()]) for part in QUICK]
    for part, why in LEFT_OUT.items():
        say(f"skipped {part}: {why}".encode())
    return [*counts, (0, 0, len(LEFT_OUT))]


def whole_counts():
    """Runs all parts, and returns how many passed, failed and were skipped in each."""
    with tempfile.TemporaryDirectory(prefix="tespiorvu-") as room:
        return all_counts(os.path.join(room, "copy"))


def say_minutes():
    """Prints a table of the minutes that each part took, in the order in which they ended."""
    for row in ("| Part | Minutes |", "|---|---|", *(f"| `{part}` | {own:.1f} |" for part, own in minutes.items())):
        say(row.encode())


def main():
    arguments = reader(__doc__, program=None, has_checks=False)
    arguments.add_argument("--quick", action="store_true", help="prove nothing, and run the quick parts over an unproved program")
    counts = quick_counts() if arguments.parse_args().quick else whole_counts()
    passed, failed, skipped = (sum(it) for it in zip(*counts))
    for line in failures[:MOST_FAILURES]:
        say(b"again: " + line)
    say_minutes()
    print(counted(passed, failed, skipped), flush=True)
    return 1 if failed else 0
