"""The file of rounds, one line each, to which all trials of a folder append; and the table of them."""
import random
import statistics
from pathlib import Path
from typing import NamedTuple

from branch.tests.pair.rounds import Kind, kinds_of

HEADING = ("| Round | Passed | Seconds without service: least, median, most | Posts acknowledged | "
           "Of posts without a slip that were not answered: there, not there |")


class Round(NamedTuple):
    """What came of a round."""

    kind: str
    result: str
    pause: float
    entries: int
    there: int
    not_there: int
    text: str


def add(path: Path, pair: str, it: Round) -> None:
    """Appends a round to the file."""
    counts = [str(count) for count in (it.entries, it.there, it.not_there)]
    line = "\t".join([pair, it.kind, it.result, f"{it.pause:.1f}", *counts, " ".join(it.text.split())])
    with open(path, "ab", buffering=0) as file: # by one call, as other trials append, too
        file.write(f"{line}\n".encode())


def read(path: Path) -> list[Round]:
    """The rounds of the file."""
    lines = path.read_text().splitlines() if path.exists() else []
    found = [line.split("\t") for line in lines]
    return [Round(it[1], it[2], float(it[3]), int(it[4]), int(it[5]), int(it[6]), it[7]) for it in found]


def next_kind(rounds: list[Round], way: str, names: tuple[str, ...]) -> Kind:
    """A kind of these names, or of all, at random, by how many of it are wanted still."""
    kinds = [it for it in kinds_of(way) if not names or it.name in names]
    passed = [it.kind for it in rounds if it.result == "passed"]
    due = [max(0, it.wanted - passed.count(it.name)) for it in kinds]
    return random.choices(kinds, due if any(due) else None)[0]


def table(rounds: list[Round], way: str) -> str:
    """The table of all kinds of a way."""
    lines = [HEADING, "|---" * 5 + "|"]
    for kind in kinds_of(way):
        of_it = [it for it in rounds if it.kind == kind.name]
        good = [it for it in of_it if it.result == "passed"]
        pauses = [it.pause for it in good]
        times = f"{min(pauses):.0f}, {statistics.median(pauses):.0f}, {max(pauses):.0f}" if pauses else ""
        sums = [sum(getattr(it, name) for it in good) for name in ("entries", "there", "not_there")]
        lines.append(f"| {kind.name} | {len(good)} of {len(of_it)} | {times} | {sums[0]:,} | {sums[1]}, {sums[2]} |")
    return "\n".join(lines)
