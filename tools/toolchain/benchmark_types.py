"""Reads the benchmarks, and the library of theirs, as the compiler does, and proves nothing of them.

    tools/toolchain/benchmark-types --libraries FOLDER

Their names, types, borrows and layout are looked at, so that a change of what they call is reported; tools/benchmarks/posts and
tools/benchmarks/check prove them, before they run. All are read at once, as libraries of an empty crate: a crate that
is read as a program is linked with all that it reaches, which takes minutes and shows nothing more. FOLDER has the crates
below them with their libraries built, as rt ci leaves them.
"""
import os
import tempfile

from checks import Report, reader
from repository import BENCHES, kit, dependencies, check_arguments
from toolchain.program import fault_of, layout_of

# The crate that has them as libraries.
READER = "reads_benches"


def against_source(libraries):
    """What the compiler says against the sources of all of them."""
    reads = check_arguments({**dependencies(), READER: [*BENCHES]}, READER, "src/lib.rt", libraries, kit())
    with tempfile.TemporaryDirectory(prefix="benches-") as room:
        os.mkdir(os.path.join(room, "src"))
        with open(os.path.join(room, "src", "lib.rt"), "w", encoding="utf-8") as file:
            file.write("#![tactic(auto)]\n")
        return fault_of(["rattle", "check", *reads, "--only", ""], room)


def main():
    arguments = reader(__doc__, program=None, has_checks=False)
    said = "a copy of the repository whose crates are proved"
    arguments.add_argument("--libraries", metavar="FOLDER", type=os.path.abspath, required=True, help=said)
    given = arguments.parse_args()
    parts = [(f"{it}: its layout", fault_of(layout_of(it))) for it in BENCHES]
    parts.append((f"{', '.join(BENCHES)}: their sources", against_source(given.libraries)))
    return Report(len(parts)).add_all(parts)
