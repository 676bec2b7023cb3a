"""What the night's end hands to the office for the morning: the newest seal of the bank's days, and which units have failed."""
import json
import re
from pathlib import Path
from typing import NamedTuple

FILE = "morning"
# A seal as `bank-seal newest` prints it, and what it says of files of the trail.
SEAL = re.compile(r"seal (\d+), branch (\d+), day (\d+): ((?:[0-9a-f]{4}-){5}[0-9a-f]{4})((?:; a file of \w+\.log is gone)*)")
GONE = re.compile(r"(\w+\.log) is gone")


class Seal(NamedTuple):
    """A seal: its number, the branch and the day that it is of, its 24 hexadecimal characters, and of which trails a file was gone."""

    number: int
    branch: int
    day: int
    characters: str
    gone: tuple[str, ...] = ()


class Morning(NamedTuple):
    """The end of a night, and its moment. `seal_fault` is why the newest seal is not known, `failed_fault` why the failed units are not."""

    made: int
    seal: Seal | None
    seal_fault: str
    failed: tuple[str, ...]
    failed_fault: str


def seal_of(line: str) -> Seal | None:
    """The seal of a line; None of the one that says that there is none."""
    found = SEAL.fullmatch(line)
    if found:
        return Seal(int(found[1]), int(found[2]), int(found[3]), found[4], tuple(GONE.findall(found[5])))
    if line not in ("", "no day is sealed"):
        raise ValueError(line)
    return None


def morning_of(folder: Path) -> Morning | None:
    """The last night's end; None before the first one. Of a file that can't be read nothing is known: no page is refused for it."""
    file = folder / FILE
    if not file.exists():
        return None
    try:
        it = json.loads(file.read_text(encoding="utf-8"))
        return Morning(it["made"], seal_of(it["seal"]), it["seal_fault"], tuple(it["failed"]), it["failed_fault"])
    except (OSError, ValueError, KeyError, TypeError) as error:
        why = f"{file}: {error!r}"
        return Morning(int(file.stat().st_mtime), None, why, (), why)
