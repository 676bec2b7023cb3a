"""Tries a branch on two machines, which are made here as processes (User-Mode Linux), by the lines of docs/TWO-MACHINES.md over the
Debian packages, while power, cables and disks fail.

    branch/on-two-machines FOLDER [PROGRAM] [--way WAY] [--rounds N] [--only KIND] [--pair NAME] [--plant FAULT]
    branch/on-two-machines FOLDER --table [--way WAY]

WAY is pacemaker, with a third machine that has a voice and a management board a machine (an ipmi_sim, which Debian's fence_ipmilan
asks), or watch, our own. PROGRAM is crates/bank_cli/out/bank_cli if it is not given, or a folder with the packages that
tools/release made. FOLDER keeps a Debian that debootstrap makes the first time (two gigabytes), the machines of each pair by its
NAME, and for each way a file with a line for each round of all pairs; a later call with the same NAME goes on with the same
machines. --table prints what the rounds were, by kind. Pairs of different names may run at once. It needs root, the packages that
`tools/packages --two-machines` installs, and a gigabyte and a half of memory a pair; networks and processes are in namespaces of
their own, which end with it.

Four tellers post one after another, three with slips, who send again until they are answered, and one without. Two more, with
slips, ask each machine by its own address all the time. In a round the branch is moved, or power, cables or a disk fail (pair/rounds.py);
--only chooses the kinds with a text in their names. After each round

- the bank's file has exactly what was acknowledged, each once and under its number, and of the posts without a slip that were not
  answered each once or not at all; these are counted apart;
- balances are the sums of their entries, `bank_cli check` passes, and both disks are the same, byte by byte;
- the machine that acknowledges changed as often as the branch was moved or taken over, and no more often.

--plant plants a fault (pair/plants.py), and the trial passes if a round fails within N. The last line is 'N passed, M failed'; the
exit status is 1 if M is not 0.
"""
import argparse
import encodings.idna  # noqa: F401 - loaded before the threads use it
import os
import signal
import sys
from pathlib import Path

from branch.tests.commands import lacking, packed, said_of
from checks import reader, refuse
from repository import PROGRAM
from branch.tests.pair import image
from branch.tests.pair.branch_pair import Pair
from branch.tests.pair.cluster import Cluster
from branch.tests.pair.figures import read, table
from branch.tests.pair.plants import PLANTS
from branch.tests.pair.rounds import kinds_of
from branch.tests.pair.trial import tried

# What the trial needs here, and the Debian package of each.
COMMANDS = {"linux.uml": "user-mode-linux", "debootstrap": "debootstrap", "mkfs.ext4": "e2fsprogs", "ip": "iproute2",
            "unshare": "util-linux", "ssh": "openssh-client", "tar": "tar", "dpkg-deb": "dpkg", "ipmi_sim": "openipmi", "curl": "curl",
            "cc": "gcc"}
INSIDE = "ON_TWO_MACHINES"
WAYS = {it.way: it for it in (Cluster, Pair)}


def arguments() -> argparse.Namespace:
    """What was asked for."""
    found = reader(__doc__, has_checks=False, program=None)
    found.add_argument("folder", metavar="FOLDER", type=lambda it: Path(it).resolve())
    found.add_argument("program", metavar="PROGRAM", nargs="?", default=PROGRAM, type=lambda it: Path(it).resolve())
    found.add_argument("--way", choices=list(WAYS), default="pacemaker")
    found.add_argument("--rounds", metavar="N", type=int)
    found.add_argument("--only", metavar="KIND", action="append", default=[])
    found.add_argument("--pair", metavar="NAME")
    found.add_argument("--plant", metavar="FAULT", choices=sorted(PLANTS), help=", ".join(sorted(PLANTS)))
    found.add_argument("--table", action="store_true")
    return found.parse_args()


def packages_of(program: Path, folder: Path) -> list[Path]:
    """The packages of a program, made in a folder, or those of the folder that was given."""
    return sorted(program.glob("*.deb")) if program.is_dir() else packed(program, folder / "packages")


def main() -> int:
    """Makes the image, enters namespaces of its own, and there the trial. The exit status."""
    given = arguments()
    rounds = given.folder / f"rounds-{given.way}"
    if given.table:
        print(table(read(rounds), given.way))
        return 0
    if lacks := lacking(COMMANDS):
        print(f"skipped the trial of two machines: {said_of(lacks)}\n0 passed, 0 failed, 1 skipped")
        return 0
    if os.environ.get(INSIDE) != "yes":
        given.folder.mkdir(parents=True, exist_ok=True)
        image.make(given.folder / "debian")
        os.environ[INSIDE] = "yes"
        spaces = ["unshare", "--net", "--mount", "--pid", "--fork", "--kill-child", "--mount-proc"]
        os.execvp("unshare", [*spaces, sys.executable, *sys.argv])
    signal.signal(signal.SIGTERM, lambda *_: sys.exit(1)) # the first process of a namespace has to ask for it
    kinds = kinds_of(given.way)
    names = tuple(it.name for it in kinds if any(text in it.name for text in given.only))
    plant = PLANTS[given.plant] if given.plant else None
    if given.only and not names:
        return refuse("there is no such kind of round")
    if plant and plant.way != given.way:
        return refuse(f"that is a fault of --way {plant.way}")
    folder = given.folder / (given.pair or given.way)
    folder.mkdir(exist_ok=True)
    packages = [] if (folder / "made").exists() else packages_of(given.program, folder)
    pair = WAYS[given.way](folder, given.folder / "debian/base.img", plant)
    count = given.rounds or sum(it.wanted for it in kinds)
    return tried(pair, packages, given.folder / "plants" if plant else rounds, count, plant.rounds if plant else names)


if __name__ == "__main__":
    sys.exit(main())
