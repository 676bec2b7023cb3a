"""The checks of a part: how they are chosen and made, and what comes of each.

A check passes if it raises nothing. In a part that goes by the clock, one that has waited in vain, and so raises Late or an error
of the system that says so, is made once more, alone, after all others, when the machine is quieter; if it passes then, a line
says so. If more than a fifth of the checks would need that, and five at least, they have all failed: that is no chance. Nothing
else has a second try: a wrong row, amount or reply fails at once.
"""
import argparse
import os
import shutil
import subprocess
import sys
import tempfile
import threading
import time
import traceback
from collections.abc import Callable, Iterable, Sequence
from concurrent.futures import ThreadPoolExecutor
from typing import Any, NamedTuple

from repository import OVER, PROGRAM, TOP, are_built

# Of more checks than these only those are printed that failed, and after how many seconds how far it is.
MOST_PRINTED, SECONDS_BETWEEN = 100, 60
# What share of the checks may be late, and how many may be anyway.
SHARE_OF_LATE, FEW_LATE = 1 / 5, 4


class Wrong(Exception):
    """What was found is not what is wanted."""


class Late(Wrong):
    """What has to come did not come in its time."""


# What is raised by waiting alone.
BY_WAITING = (Late, TimeoutError, subprocess.TimeoutExpired)


def require(found: Any, wanted: Any, what: str) -> None:
    """Raises Wrong unless what was found is what is wanted."""
    if found != wanted:
        raise Wrong(f"{what}: {found!r}, and not {wanted!r}")


def require_nothing(faults: Iterable[str]) -> None:
    """Raises Wrong if there are lines that say what is wrong."""
    if lines := list(faults):
        raise Wrong("\n    ".join(lines))


def require_time(passed: float, least: float, most: float, what: str) -> None:
    """Raises Wrong if something took less time than it has to, in seconds, and Late if it took more."""
    if not least <= passed <= most:
        raise (Late if passed > most else Wrong)(f"{what} took {passed:.1f} seconds, and not {least:.0f} to {most:.0f}")


def wait_until(found: Callable[[], Any], seconds: float, what: str, pause: float = 0.02) -> Any:
    """Waits until something is found, and returns that. Raises Late if it is not found in that time."""
    end = time.monotonic() + seconds
    while not (it := found()):
        if time.monotonic() > end:
            raise Late(f"{what}: not within {seconds} seconds")
        time.sleep(pause)
    return it


class Check(NamedTuple):
    """A check: what makes it, which may return a note to print; what it lacks on this machine, if anything; and what makes it at
    a second try, if that is something else. One of a day (days.py) is made over the day."""

    name: str
    make: Callable[..., str | None]
    lacks: str = ""
    again: Callable[[], str | None] | None = None


def lacking(*programs: str) -> str:
    """What is said of programs that are not there."""
    return ", ".join(f"there is no {it}" for it in programs if not shutil.which(it))


def reason(error: Exception | None) -> str | None:
    """What is printed of an error, if there is one: of one that no check raises by itself, where it was raised, too."""
    if error is None or isinstance(error, Wrong):
        return None if error is None else str(error)
    places = [it for it in traceback.extract_tb(error.__traceback__) if it.filename.startswith(TOP)]
    place = f" ({os.path.relpath(places[-1].filename, TOP)}:{places[-1].lineno})" if places else ""
    return f"{type(error).__name__}: {error}{place}"


def outcome(make: Callable[[], str | None]) -> tuple[str, Exception | None]:
    """The note of a check that is made, and its error, if it failed."""
    try:
        return make() or "", None
    except Exception as error:  # noqa: BLE001 - whatever goes wrong is a check that failed
        return "", error


class Report:
    """What came of checks, printed as it comes: of all n of them or, without their number, of those that failed."""

    def __init__(self, count: int = 0) -> None:
        self.count, self.passed, self.failed, self.skipped, self.passed_again = count, 0, 0, 0, 0
        self.late: list[tuple[Check, str]] = []
        self.lock, self.printed = threading.Lock(), time.monotonic()

    def add(self, name: str, why: str | None = None, note: str = "") -> None:
        """Takes a check as passed, or, if there is a reason, as failed."""
        with self.lock:
            self.passed, self.failed = self.passed + (why is None), self.failed + (why is not None)
            if why is not None:
                print(f"FAILED {name}: {why}", flush=True)
            elif note or 0 < self.count <= MOST_PRINTED:
                print(f"passed {name}" + (":" if note.startswith("\n") else ": " * bool(note)) + note, flush=True)
            elif self.count and time.monotonic() - self.printed > SECONDS_BETWEEN:
                self.printed = time.monotonic()
                print(f"{self.passed + self.failed} of {self.count} checks are made", flush=True)

    def add_all(self, found: Iterable[tuple[str, str | None]]) -> int:
        """Takes checks by their names, each with what is wrong, if anything, and prints the last lines. The exit status."""
        for name, why in found:
            self.add(name, why)
        return self.end()

    def take(self, check: Check, found: tuple[str, Exception | None], go_by_clock: bool) -> None:
        """Takes a check by its outcome; one that was late has a second try, if it goes by the clock."""
        note, error = found
        if go_by_clock and isinstance(error, BY_WAITING):
            self.late.append((check, str(reason(error))))
            print(f"late {check.name}: {reason(error)}", flush=True)
        else:
            self.add(check.name, reason(error), note)

    def able(self, checks: Iterable[Check]) -> list[Check]:
        """Those of the checks that lack nothing; the others are skipped."""
        found = list(checks)
        named: dict[str, list[str]] = {}
        for it in found:
            if it.lacks:
                named.setdefault(it.lacks, []).append(it.name)
        for lacks, names in named.items():
            self.skipped += len(names)
            lines = names if len(names) <= MOST_PRINTED else [f"{len(names)}, from {names[0]} to {names[-1]}"]
            print("\n".join(f"skipped {it}: {lacks}" for it in lines), flush=True)
        return [it for it in found if not it.lacks]

    def make(self, checks: Iterable[Check], jobs: int = 1, go_by_clock: bool = False) -> None:
        """Makes checks, `jobs` at a time, and then those once more that were late, if they go by the clock."""
        able = self.able(checks)
        for check, found in zip(able, in_order([it.make for it in able], jobs)):
            self.take(check, found, go_by_clock)
        self.try_again(len(able))

    def make_lanes(self, lanes: Sequence[Sequence[Check]]) -> None:
        """Makes checks that go by the clock, those of a lane one after another and the lanes beside one another."""
        def make_lane(checks: Sequence[Check]) -> int:
            able = self.able(checks)
            for it in able:
                self.take(it, outcome(it.make), True)
            return len(able)

        with ThreadPoolExecutor(len(lanes)) as pool:
            self.try_again(sum(pool.map(make_lane, lanes)))

    def try_again(self, count: int) -> None:
        """Makes the checks a second time that were late, if they are few among all."""
        for check, why in self.late:
            if is_by_chance(len(self.late), count):
                self.add_again(check.name, why, outcome(check.again or check.make))
            else:
                self.add(check.name, f"{why}; so were {len(self.late)} of {count}, too many for a second try")

    def add_again(self, name: str, why: str, found: tuple[str, Exception | None]) -> None:
        """Takes a check that was late, for a reason, by its outcome at the second try."""
        note, error = found
        self.passed_again += error is None
        first = f"at the second try; at the first: {why}"
        self.add(name, f"{why}; at the second try: {reason(error)}" if error else None, f"{first}{note and '; ' + note}")

    def end(self) -> int:
        """Prints the last lines. The exit status."""
        if self.passed_again:
            print(f"{self.passed_again} passed at the second try")
        print(counted(self.passed, self.failed, self.skipped), flush=True)
        return 1 if self.failed else 0


def counted(passed: int, failed: int, skipped: int) -> str:
    """The last line of a part, and of all."""
    return f"{passed} passed, {failed} failed" + f", {skipped} skipped" * bool(skipped)


def is_by_chance(late: int, count: int) -> bool:
    """Whether this number of the checks may be late."""
    return late <= max(FEW_LATE, count * SHARE_OF_LATE)


def in_order(makes: list[Callable[[], str | None]], jobs: int) -> Iterable[tuple[str, Exception | None]]:
    """The outcomes of checks in their order; of one job each is made once the one before is taken, by this thread."""
    if jobs == 1:
        yield from map(outcome, makes)
        return
    with ThreadPoolExecutor(jobs) as pool:
        yield from pool.map(outcome, makes)


def reader(
    description: str | None,
    *,
    program: str | None = PROGRAM,
    has_checks: bool = True,
    has_name: bool = False,
    has_stores: bool = False,
) -> argparse.ArgumentParser:
    """A reader of the arguments that parts have: which checks are made, if they can be chosen, and over which program, if not
    over this one; once more which, after that, if a part has a name there; and whether stores are left out, if some go over those."""
    found = argparse.ArgumentParser(description=description, formatter_class=argparse.RawDescriptionHelpFormatter)
    if has_checks:
        found.add_argument("--list", action="store_true", help="print the names of the checks")
        found.add_argument("--only", metavar="TEXT", action="append", default=[], help="make those with this in their names")
    if has_stores:
        found.add_argument("--no-stores", action="store_true", help=f"skip what {os.path.relpath(OVER, TOP)} serves")
    if program:
        said = f"the program, if not {os.path.relpath(program, TOP)}"
        path = lambda text: os.path.abspath(text)
        found.add_argument("program", metavar="PROGRAM", nargs="?", default=program, type=path, help=said)
    if has_name:
        found.add_argument("name", metavar="NAME", nargs="?", help="the same as --only NAME")
    return found


def only_of(given: argparse.Namespace) -> list[str]:
    """Of which texts the name of a check has to hold one, if there are any."""
    return [*given.only, given.name] if given.name else list(given.only)


def lacks_stores(given: argparse.Namespace) -> str:
    """What is said of the program that serves the sample in stores, if it is left out, or not there."""
    name = os.path.relpath(OVER, TOP)
    return f"{name} is left out" if given.no_stores else "" if os.path.isfile(OVER) else f"there is no {name}"


def is_chosen(name: str, only: list[str]) -> bool:
    """Whether a check is asked for."""
    return not only or any(it in name for it in only)


def refuse(why: str) -> int:
    """Reports that no check can be made, as one that failed. The exit status."""
    print(f"FAILED {why}\n0 passed, 1 failed", flush=True)
    return 1


def run_checks(
    given: argparse.Namespace,
    checks_of: Callable[[str], Iterable[Check]],
    *,
    jobs: int = 1,
    programs: Sequence[str] | None = None,
    go_by_clock: bool = False,
) -> int:
    """Makes the checks that are asked for, over the program, or these; `checks_of` has them for a temporary folder. The exit
    status."""
    if not given.list and not are_built(*([given.program] if programs is None else programs)):
        return refuse("there is no program")
    with tempfile.TemporaryDirectory(prefix=f"bank-{os.path.basename(sys.argv[0])}-") as room:
        try:
            checks = [it for it in checks_of(room) if is_chosen(it.name, given.only)]
        except Exception as error:  # noqa: BLE001 - whatever goes wrong, no check can be made
            return refuse(str(reason(error)))
        if given.list:
            print("\n".join(it.name for it in checks))
            return 0
        if not checks:
            return refuse("there is no such check")
        report = Report(len(checks))
        report.make(checks, jobs, go_by_clock)
    return report.end()


def run_named(given: argparse.Namespace, checks: Sequence[Check], make: Callable[[Report], None]) -> int:
    """Has `make` make what has been asked for, which these checks name, over the program, unless all of them lack something. The
    exit status."""
    if given.list:
        print("\n".join(it.name for it in checks))
        return 0
    if not checks:
        return refuse("there is no such check")
    report = Report(len(checks))
    if all(it.lacks for it in checks):
        report.able(checks)
    elif not are_built(given.program):
        return refuse("there is no program")
    elif error := outcome(lambda: make(report))[1]:
        report.add("what they begin with", reason(error))
    return report.end()
