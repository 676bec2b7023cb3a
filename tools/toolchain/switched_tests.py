"""The unit tests as one program that can be any of many mutants (switches.py), and which of them fail with one.

They are compiled as tools/toolchain/unit-tests does, but by the linker, which drops what no test calls. A test runs by itself, and the
tests of a crate one after another, those first that took least with no mutant, until one fails.
"""
import os
import re
import shutil
import subprocess
import tempfile
import time
from collections.abc import Mapping, Sequence
from concurrent.futures import ThreadPoolExecutor
from functools import partial
from typing import NamedTuple

from first_look.compiling import QUICK, REPLACED, say, toolchain_that_keeps
from repository import below, kit, shared_by_tests, tests_to_run, dependencies
from toolchain.program import output_of
from toolchain.switches import Mutant, digits, put_switches
from toolchain.unit_tests import make_whole

# How many times as long as with no mutant a test is waited for, and how many seconds more.
TIMES, MORE, MOST_SECONDS = 4, 20, 3_600
TEST = re.compile(r"^(\S+): test$", re.M)


class Ran(NamedTuple):
    """How a test ended: whether it failed, and after how many seconds."""

    failed: bool
    seconds: float


def crates_of_tests() -> list[str]:
    """The crates of unit tests."""
    uses = dependencies()
    shared = shared_by_tests(uses)
    return [it for it in tests_to_run(uses) if it not in shared]


def reaches(crate: str, mutant: Mutant) -> bool:
    """Whether the tests of a crate can call what a mutant changes."""
    return mutant.crate in below(dependencies(), [crate])


def compile_tests(program: str, numbered: Mapping[int, Mutant]) -> bool:
    """Compiles the unit tests with these mutants, and returns whether they compiled. Then the compiler's last lines are printed."""
    with tempfile.TemporaryDirectory(prefix="tespiorvu-tests-") as room:
        copy, made = os.path.join(room, "copy"), os.path.join(room, "made")
        folder = make_whole(crates_of_tests(), copy)
        put_switches(copy, numbered)
        rt = toolchain_that_keeps(os.path.join(room, "kit"), made, REPLACED, QUICK)
        # (rt would run all tests after that, for which it gets no time.)
        _, text = output_of([rt, "try", "--test", "--steps", "1", "--seconds", "1"], folder)
        if not os.path.isfile(made):
            say(f"the tests do not compile:\n{text[-4000:]}")
            return False
        os.makedirs(os.path.dirname(program), exist_ok=True)
        shutil.copy(made, f"{program}.new")
        os.rename(f"{program}.new", program)
        return True


def run_test(program: str, number: int, name: str, seconds: float) -> Ran:
    """Runs a test with the mutant of this number, or with none for 0, in a folder of its own."""
    libraries, begun = os.path.join(kit(), "toolchain", "lib"), time.monotonic()
    words = [f"{libraries}/ld-linux-x86-64.so.2", "--inhibit-cache", "--library-path", libraries, program, name]
    limit = ["timeout", "--signal=KILL", str(int(seconds))]
    with tempfile.TemporaryDirectory(prefix="test-") as folder:
        status, _ = output_of([*limit, "env", "-i", f"MUTANT={digits(number)}", *words], folder)
    return Ran(status != 0, time.monotonic() - begun)


def names_of(program: str) -> dict[str, list[str]]:
    """The names of the tests, by their crates."""
    libraries = os.path.join(kit(), "toolchain", "lib")
    words = [f"{libraries}/ld-linux-x86-64.so.2", "--inhibit-cache", "--library-path", libraries, program, "--list"]
    said = subprocess.run(words, stdin=subprocess.DEVNULL, stdout=subprocess.PIPE, text=True, check=True).stdout
    found: dict[str, list[str]] = {}
    for name in TEST.findall(said):
        found.setdefault(name.partition("::")[0], []).append(name)
    return found


def plain_seconds(program: str, crate_tests: Sequence[str]) -> dict[str, float] | str:
    """How many seconds each of these tests takes with no mutant, or the first that fails."""
    found: dict[str, float] = {}
    for name in crate_tests:
        ran = run_test(program, 0, name, MOST_SECONDS)
        if ran.failed:
            return name
        found[name] = ran.seconds
    return found


def first_failing(program: str, number: int, seconds: Mapping[str, float]) -> str:
    """The first of a crate's tests that fails with a mutant, or nothing, by how long each takes with none."""
    for name in sorted(seconds, key=lambda it: seconds[it]):
        if run_test(program, number, name, TIMES * seconds[name] + MORE).failed:
            return name
    return ""


def failing(program: str, number: int, plain: Mapping[str, Mapping[str, float]], jobs: int) -> dict[str, str]:
    """The first test of each of these crates that fails with a mutant, or nothing; this many crates at once."""
    with ThreadPoolExecutor(jobs) as pool:
        return dict(zip(plain, pool.map(partial(first_failing, program, number), plain.values())))
