"""Notes which families of tests see which mutants of the bank program.

    tools/toolchain/families [--seed N] [--count N] [--family NAME] [--first N] [--table] [CRATE/MUTANT ..]

The mutants are must-fail edits that change the body of one function: those that are named, or a sample by a seed, two of each of the
largest crates. They are compiled unproved as one program (switches.py), which takes some seven minutes of the processor, and the unit
tests with them as another. A family sees a mutant if its short run fails, or takes far longer than without a mutant, when it is waited
for no longer; it passes with no mutant. It is stopped at the first check that fails, and is not run where it can't reach the mutant's
crate. Each crate of unit tests is a family; `units` names all. What came of each is kept under a checksum of the program's sources, the
mutant, and the tests, so a later run adds to it. With --first only the first N mutants are tried, as with a slow family; with --table
none is.

The table says how many mutants were tried with each family, or are out of its reach, how many it saw, and how many it alone saw; it names
these, and what no family saw. The unit tests are one family beside the others, and their crates stand below. It ends with status 1 if a
family fails with no mutant.
"""
import argparse
import glob
import json
import os
import random
import signal
import subprocess
import tempfile
import time
from collections.abc import Callable, Iterable, Mapping
from typing import NamedTuple

from checks import reader
from first_look.compiling import QUICK, checksum, compile_to, say
from repository import BANK_PROGRAM, TOP, below, dependencies
from toolchain import switched_tests as units
from toolchain.kept import PLACE, Kept, sum_of, sum_of_files
from toolchain.switches import LAUNCHER, Mutant, digits, place_of, put_switches, texts_of

# The families over the program, each with the short run that represents it. The seeds are those of tools/test --quick.
FAMILIES = {
    "cases": "tools/cases/run --no-stores PROGRAM",
    "ends": "tools/faults/ends --no-stores PROGRAM",
    "model": "tools/model/streams --no-stores 8 1 NONE PROGRAM",
    "clients": "tools/faults/clients PROGRAM",
    "many": "tools/faults/many PROGRAM",
    "kills": "tools/faults/kills --times 1 PROGRAM",
    "years": "tools/model/years 10 1 PROGRAM",
    "upgrades": "tools/faults/upgrades PROGRAM",
    "life": "tools/year --seeds 1 --days 1 PROGRAM",
    "faults": "tools/faults/run --no-stores --step 2000 --cases post_to_an_account --only disk --only power --only read PROGRAM",
}
# Which of them ask of no port, and so can't reach what only `counter` calls; and the crates that these stand on.
NO_PORT, BELOW_NO_PORT = ("model", "years", "upgrades", "faults"), ("cli_make", "cli_serve", "cli_words", "sample_service")
# The name of all crates of unit tests.
UNITS = "units"
PER_CRATE = 2
# How many times as long as without a mutant a family is waited for, and how many seconds more.
TIMES, MORE = 4, 120
# What the outcome hangs on beside the program's sources; and that of unit tests.
FOLDERS = "cases faults model simulation"
TESTS = ("tools/*.py", *(f"tools/{it}/**" for it in FOLDERS.split()), "rows/**", "migrations/**", "sample/**")
UNIT_TESTS = ("crates.txt", "crates/test_*/src/**")
SEEN, PASSED = "seen", "passed"


class Outcome(NamedTuple):
    """What came of a run: the line that says so, if it failed, and how many seconds it took."""

    why: str
    seconds: float


def mutants_of(crate: str) -> list[Mutant]:
    """The mutants of a crate that change the body of one function and nothing else, by their names."""
    texts, found = texts_of(crate), list[Mutant]()
    for file in sorted(glob.glob(os.path.join(TOP, "crates", crate, "must-fail", "*.edit"))):
        pairs, path, old = list[tuple[str, str, str]](), "", ""
        with open(file, encoding="utf-8") as lines:
            for line in lines.read().split("\n"):
                word, _, rest = line.partition(": ") if not line.startswith("new:") else ("new", "", line[4:].removeprefix(" "))
                path, old = (rest.strip() if word == "file" else path), (rest if word == "old" else old)
                pairs += [(path, old, rest)] if word == "new" else []
        if len({it for it, _, _ in pairs}) == 1:
            mutant = Mutant(crate, os.path.basename(file).removesuffix(".edit"), path, tuple((old, new) for _, old, new in pairs))
            found += [mutant] if place_of(texts, mutant) else []
    return found


def sample(seed: int, count: int) -> list[Mutant]:
    """So many mutants, drawn by a seed: two of each of the largest crates."""
    chance, found = random.Random(seed), list[Mutant]()
    crates = below(dependencies(), [BANK_PROGRAM])
    sizes = {it: sum(len(text) for text in texts_of(it).values()) for it in crates}
    for crate in sorted(crates, key=lambda it: -sizes[it]):
        of_crate = mutants_of(crate)
        found += chance.sample(of_crate, min(PER_CRATE, len(of_crate)))
    return found[:count]


def named(titles: Iterable[str]) -> list[Mutant]:
    """The mutants of these names."""
    found = {it.title(): it for crate in {title.partition("/")[0] for title in titles} for it in mutants_of(crate)}
    return [found[it] for it in titles]


def program_of(kind: str, mutants: list[Mutant], compile_it: Callable[[str, dict[int, Mutant]], bool]) -> str:
    """The path of the program of a kind that can be any of these, compiled first if it is not kept."""
    program = os.path.join(PLACE, "families", kind, sum_of(checksum(), sum_of_files(TOP, *UNIT_TESTS) if kind == UNITS else "", mutants))
    if not os.path.isfile(program):
        say(f"compiling {kind} with {len(mutants)} mutants, which takes some seven minutes of the processor")
        if not compile_it(program, dict(enumerate(mutants, 1))):
            raise SystemExit(1)
    return program


def compile_bank(program: str, numbered: dict[int, Mutant]) -> bool:
    """Compiles the bank program with these mutants, and returns whether it compiled."""
    return compile_to(program, QUICK, lambda copy: put_switches(copy, numbered))


def launcher(program: str, number: int, room: str) -> str:
    """A program that is the mutant of this number, or none for 0."""
    made = os.path.join(room, digits(number), BANK_PROGRAM)
    if not os.path.isfile(made):
        os.makedirs(os.path.dirname(made))
        given = [f'-DNUMBER="{digits(number)}"', f'-DPROGRAM="{program}"']
        subprocess.run(["cc", "-static", "-O1", *given, "-x", "c", "-", "-o", made], input=LAUNCHER.encode(), check=True)
    return made


def run_family(words: str, program: str, room: str, seconds: float) -> Outcome:
    """Runs a family over a program, with its files in a folder, until its first line that says that a check failed, or its end, or so
    many seconds have passed."""
    begun = time.monotonic()
    given = [program if it == "PROGRAM" else it for it in words.split()]
    with subprocess.Popen(
        ["timeout", "--signal=TERM", str(int(seconds)), *given], cwd=TOP, stdin=subprocess.DEVNULL, stdout=subprocess.PIPE,
        stderr=subprocess.STDOUT, start_new_session=True, text=True, errors="replace", env={**os.environ, "TMPDIR": room},
    ) as ran:  # fmt: skip
        assert ran.stdout
        why = next((it.strip() for it in ran.stdout if it.startswith("FAILED")), "")
        if why:
            os.killpg(ran.pid, signal.SIGTERM)
        status = ran.wait()
    why = why or (f"it ended with status {status}" if status else "")
    return Outcome(why[:200], time.monotonic() - begun)


class Trial:
    """Some mutants, and what is known of each with each family."""

    def __init__(self, mutants: list[Mutant], first: int, room: str) -> None:
        self.mutants, self.room, self.kept, self.crates = mutants, room, Kept("families"), units.crates_of_tests()
        self.tried = mutants[:first]
        self.sources = sum_of(checksum(), sum_of_files(TOP, *TESTS))
        self.sources_of_units = sum_of(checksum(), sum_of_files(TOP, *UNIT_TESTS))
        self.below_no_port = {*below(dependencies(), BELOW_NO_PORT), BANK_PROGRAM}

    def names(self) -> list[str]:
        """The names of all families."""
        return [*FAMILIES, *self.crates]

    def key(self, family: str, mutant: Mutant | None) -> str:
        """Under which name an outcome is kept."""
        sources = self.sources if family in FAMILIES else self.sources_of_units
        return sum_of(sources, FAMILIES.get(family, family), mutant and (*mutant,))

    def reaches(self, family: str, mutant: Mutant) -> bool:
        """Whether a family can call what a mutant changes."""
        if family in self.crates:
            return units.reaches(family, mutant)
        return family not in NO_PORT or mutant.crate in self.below_no_port

    def known(self, family: str, mutant: Mutant | None) -> Outcome | None:
        """What is kept of an outcome, or follows from what a family reaches."""
        if mutant and not self.reaches(family, mutant):
            return Outcome("", 0)
        piece = self.kept.get(self.key(family, mutant))
        return Outcome(*json.loads(piece)) if piece else None

    def take(self, family: str, mutant: Mutant | None, found: Outcome) -> Outcome:
        """Keeps an outcome, and prints it."""
        self.kept.put(self.key(family, mutant), json.dumps(found).encode())
        name = mutant.title() if mutant else "no mutant"
        print(f"{family}: {name}: {f'{SEEN}: {found.why}' if found.why else PASSED} ({found.seconds:.0f} s)", flush=True)
        return found

    def outcome(self, family: str, mutant: Mutant | None, seconds: float) -> Outcome:
        """What comes of a family with a mutant, or with none."""
        found = self.known(family, mutant)
        if not found:
            number = self.mutants.index(mutant) + 1 if mutant else 0
            program = launcher(program_of("program", self.mutants, compile_bank), number, self.room)
            found = self.take(family, mutant, run_family(FAMILIES[family], program, self.room, seconds))
        return found

    def try_family(self, family: str) -> bool:
        """Tries all mutants with a family; whether it passes with none."""
        plain = self.outcome(family, None, 3_600)
        if not plain.why:
            for it in self.tried:
                self.outcome(family, it, TIMES * plain.seconds + MORE)
        return not plain.why

    def try_units(self, crates: list[str]) -> bool:
        """Tries all mutants with these crates of unit tests; whether they pass with none."""
        program = program_of(UNITS, self.mutants, units.compile_tests)
        names, plain = units.names_of(program), dict[str, dict[str, float]]()
        for crate in crates:
            begun, found = time.monotonic(), units.plain_seconds(program, names[crate])
            self.take(crate, None, Outcome(found if isinstance(found, str) else "", time.monotonic() - begun))
            plain.update({} if isinstance(found, str) else {crate: found})
        for number, mutant in enumerate(self.tried, 1):
            asked = {it: seconds for it, seconds in plain.items() if self.known(it, mutant) is None}
            begun = time.monotonic()
            for crate, why in units.failing(program, number, asked, os.cpu_count() or 1).items():
                self.take(crate, mutant, Outcome(why, time.monotonic() - begun))
        return len(plain) == len(crates)

    def table(self) -> list[str]:
        """The lines of the table, of all that is known."""
        seen: dict[str, dict[str, bool]] = {}
        for family in self.names():
            plain = self.known(family, None)
            if plain and not plain.why:
                seen[family] = {it.title(): bool(found.why) for it in self.mutants if (found := self.known(family, it))}
        return lines_of(seen, self.crates)


def of_all(found: list[Mapping[str, bool]]) -> dict[str, bool]:
    """What families see together, of the mutants that were tried with each of them."""
    return {it: any(one[it] for one in found) for it in found[0] if all(it in one for one in found)} if found else {}


def line_of(name: str, found: Mapping[str, bool], others: list[Mapping[str, bool]]) -> str:
    """A family's line: how many were tried, how many it saw, and how many of these no other one saw, which are named."""
    alone = [it for it, is_seen in found.items() if is_seen and not any(other.get(it) for other in others)]
    return f"{name:22} {len(found):6} {sum(found.values()):6} {len(alone):6}" + "".join(f"\n    {it}" for it in alone)


def lines_of(seen: Mapping[str, Mapping[str, bool]], crates: list[str]) -> list[str]:
    """The table: the unit tests as one family beside the others, then their crates; and what none saw."""
    whole: dict[str, Mapping[str, bool]] = {name: found for name, found in seen.items() if name not in crates}
    whole[UNITS] = of_all([seen[it] for it in crates if it in seen])
    lines = [f"{'family':22} {'tried':>6} {'seen':>6} {'alone':>6}"]
    for families, names in ((whole, list(whole)), (seen, [it for it in crates if it in seen])):
        lines += [line_of(it, families[it], [other for name, other in families.items() if name != it]) for it in names]
    titles = dict.fromkeys(it for found in whole.values() for it in found)
    none = [it for it in titles if not any(found.get(it) for found in whole.values())]
    return [*lines, f"seen by none: {len(none)}", *(f"    {it}, tried with {sum(it in found for found in whole.values())}" for it in none)]


def arguments() -> argparse.Namespace:
    """What the command line says."""
    found = reader(__doc__, program=None, has_checks=False)
    found.add_argument("--seed", type=int, default=1)
    found.add_argument("--count", type=int, default=40)
    names = [*FAMILIES, UNITS, *units.crates_of_tests()]
    found.add_argument("--family", action="append", choices=names, default=[], help="try these alone")
    found.add_argument("--first", type=int, metavar="N", help="try these of the mutants alone")
    found.add_argument("--table", action="store_true", help="print the table of what is kept, and run nothing")
    found.add_argument("mutants", metavar="CRATE/MUTANT", nargs="*")
    return found.parse_args()


def main() -> int:
    given = arguments()
    mutants = named(given.mutants) or sample(given.seed, given.count)
    with tempfile.TemporaryDirectory(prefix="families-") as room:
        trial = Trial(mutants, given.first or len(mutants), room)
        families = [] if given.table else given.family or [*FAMILIES, UNITS]
        crates = trial.crates if UNITS in families else [it for it in families if it in trial.crates]
        passes = [trial.try_family(it) for it in families if it in FAMILIES]
        passes += [trial.try_units(crates)] if crates else []
        print("\n".join(trial.table()))
    return 0 if all(passes) else 1
