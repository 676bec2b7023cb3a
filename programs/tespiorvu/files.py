"""Files beside the bank's own: the front's logs, lists, and what gets its name once it is whole."""
import csv
import gzip
import os
import pwd
import re
from collections.abc import Iterable, Iterator
from functools import partial
from pathlib import Path

from .places import LOGS


def logs_of(name: str, since: float = 0.0) -> list[Path]:
    """The files of a log that were written to since a moment, the oldest first: those that were renamed have a day."""
    found = [it for it in LOGS.iterdir() if re.fullmatch(rf"{name}\.log(-[0-9].*)?", it.name)]
    found.sort(key=lambda it: (it.name == f"{name}.log", it.name))
    return [it for it in found if it.stat().st_mtime >= since]


def lines_of(files: Iterable[Path]) -> Iterator[str]:
    """The lines of logs, packed or not, one after another, each with its end; one that is torn may have none."""
    for it in files:
        with gzip.open(it) if it.suffix == ".gz" else open(it, "rb") as file:
            yield from (line.decode("utf-8", "replace") for line in file)


def rows_of(sheet: Path) -> list[dict[str, str]]:
    """The rows of a sheet, each by the names of its first line."""
    with open(sheet, encoding="utf-8-sig", newline="") as file:
        return list(csv.DictReader(file))


def users_of(badges: Path) -> dict[str, int]:
    """The user of each badge of a list."""
    return {it["badge"]: int(it["user"]) for it in rows_of(badges)}


def become(name: str) -> None:
    """Becomes a user, if this is root, so that no link in that user's folder leads root elsewhere."""
    if os.geteuid() == 0:
        user = pwd.getpwnam(name)
        os.setgroups([])
        os.setgid(user.pw_gid)
        os.setuid(user.pw_uid)


def name_whole(begun: Path, file: Path, mode: int) -> None:
    """Gives what is whole its mode and its name, once it is on the disk."""
    with open(begun, "rb") as it:
        os.fsync(it.fileno())
    begun.chmod(mode)
    begun.rename(file)


def write_whole(file: Path, content: str | bytes, mode: int) -> None:
    """Writes a file, which gets its name once it is whole. Before that its owner alone reads it."""
    begun = file.with_name(f"{file.name}.begun")
    with open(begun, "wb", opener=partial(os.open, mode=0o600)) as it:
        it.write(content.encode() if isinstance(content, str) else content)
    name_whole(begun, file, mode)
