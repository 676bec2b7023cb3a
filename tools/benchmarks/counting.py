"""Counts the instructions of a run: by the processor's own counter, through perf, or by valgrind where there is none."""
import os
import re
import shutil
import subprocess
from collections.abc import Callable
from typing import NamedTuple

from checks import Wrong

# What perf counts; a machine whose processor is shared may not show it.
EVENT = "instructions:u"
SECONDS = 60


class Counter(NamedTuple):
    """What counts: its name, the arguments before a command that have it write to a file, and how the count is read of that."""

    name: str
    words: Callable[[str], list[str]]
    read: Callable[[str], int]


def read_of_perf(text: str) -> int:
    """The count in what perf writes."""
    found = re.search(rf"^(\d+),[^,\n]*,{EVENT}", text, re.MULTILINE)
    if not found:
        raise Wrong(f"perf counted nothing: {text!r}")
    return int(found[1])


def read_of_valgrind(text: str) -> int:
    """The count in what callgrind writes."""
    found = re.findall(r"^(?:summary|totals): (\d+)", text, re.MULTILINE)
    if not found:
        raise Wrong("valgrind counted nothing")
    return int(found[-1])


PERF = Counter("perf", lambda out: ["perf", "stat", "-x,", "-e", EVENT, "-o", out, "--"], read_of_perf)
VALGRIND = Counter("valgrind", lambda out: ["valgrind", "--tool=callgrind", f"--callgrind-out-file={out}"], read_of_valgrind)


def counts_by_perf() -> bool:
    """Whether the processor's counter is there."""
    if not shutil.which("perf"):
        return False
    ran = subprocess.run(
        ["perf", "stat", "-x,", "-e", EVENT, "true"],
        stdout=subprocess.DEVNULL,
        stderr=subprocess.PIPE,
        timeout=SECONDS,
        check=False,
    )
    return re.search(rb"^\d+,", ran.stderr, re.MULTILINE) is not None


def counter() -> Counter | None:
    """What counts on this machine, or none if nothing does."""
    if counts_by_perf():
        return PERF
    return VALGRIND if shutil.which("valgrind") else None


class Count:
    """A count that a command writes in a folder: its arguments are to come before those of the command."""

    def __init__(self, by: Counter, folder: str) -> None:
        self.by, self.path = by, os.path.join(folder, "count")
        self.words = by.words(self.path)

    def read(self) -> int:
        """The count, once the command has ended."""
        with open(self.path, encoding="utf-8", errors="replace") as file:
            return self.by.read(file.read())
