"""Proves and builds test_stores, the program by which tools/cases/run and tools/model/streams serve the sample in a store of
their choice.

    tools/toolchain/stores-program --libraries FOLDER [--anew]

FOLDER has the crates that it uses with their libraries built, as rt ci leaves them. What serves is proved in those; this
program only reads its arguments. So rt ci is spared it, which would build it by two compilers and read all that it calls for
each. Here it is built by the one that is written in Rattle, which needs least; the bank program that the same rows are run
over is LLVM's. The program is kept for later runs (kept.py), which take it unless something of it or below it has changed;
with --anew it is proved and built anew.
"""
import contextlib
import os
import tempfile

from checks import Report, reader
from repository import OVER, ROWS_OVER, TOP, kit, dependencies
from toolchain.kept import Kept, sum_below, sum_of, sum_of_files, sum_of_kit, sum_of_tools
from toolchain.program import fault_of, layout_of, steps

FOLDER = os.path.join(TOP, "crates", ROWS_OVER)
# The files of tools/ by which it is built, and the most bytes that are kept.
TOOLS, MOST_KEPT = ("toolchain/stores_program.py", "toolchain/program.py", "repository.py"), 500_000_000


def name_of(libraries):
    """The name under which the program is kept: a checksum of all that it is proved and built from."""
    home = kit()
    under = sum_below(dependencies(), ROWS_OVER, libraries, home)
    return under and sum_of(sum_of_kit(home), sum_of_tools(TOOLS), under, sum_of_files(FOLDER, "src/**", "specs/**", "proofs/**"))


def take(program):
    """Puts the program, as an earlier run built it, where it has to stand."""
    os.makedirs(os.path.dirname(OVER), exist_ok=True)
    with contextlib.suppress(FileNotFoundError):
        os.remove(OVER)
    with open(OVER, "wb") as file:
        file.write(program)
    os.chmod(OVER, 0o755)


def keep(kept, name):
    """Keeps the program as it was built."""
    with open(OVER, "rb") as file:
        kept.put(name, file.read())
    kept.shrink(MOST_KEPT)


def main():
    arguments = reader(__doc__, program=None, has_checks=False)
    said = "a copy of the repository whose crates are proved"
    arguments.add_argument("--libraries", metavar="FOLDER", type=os.path.abspath, required=True, help=said)
    arguments.add_argument("--anew", action="store_true", help="prove and build it, also if an earlier run did")
    given = arguments.parse_args()
    kept, name, report = Kept("stores-program", given.anew), name_of(given.libraries), Report()
    program = kept.get(name)
    report.add(f"{ROWS_OVER}, its layout", fault_of(layout_of(ROWS_OVER)))
    with tempfile.TemporaryDirectory(prefix="stores-program-") as room:
        for what, command in steps(ROWS_OVER, FOLDER, given.libraries, "rattle", room):
            why, note = (fault_of(command, FOLDER), "") if program is None else (None, "kept")
            report.add(f"{ROWS_OVER}, {what}", why, note)
    if program is not None:
        take(program)
    elif not report.failed and name == name_of(given.libraries):
        keep(kept, name)
    return report.end()
