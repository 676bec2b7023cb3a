"""Copies of a file of the office, in a folder beside it; and whether its changes still are what they were at the last copy."""
import sqlite3
import time
from collections.abc import Callable
from contextlib import AbstractContextManager, closing
from pathlib import Path

from . import chain
from .chain import Head
from .store import Refused

MOST_SAVED = 30


def last_head(folder: Path) -> Head:
    """The last change of the newest copy; of one before changes had sums, as of none, the beginning."""
    for file in sorted(folder.glob("[0-9]*Z"))[-1:]:
        with closing(sqlite3.connect(file)) as found:
            found.row_factory = sqlite3.Row
            if any(it["name"] == "sum" for it in found.execute("PRAGMA table_info(changes)")):
                return chain.head_of(found)
    return Head(0, chain.BEGINNING)


def begun_in(file: Path) -> sqlite3.Connection:
    """A file for a copy, empty, in a folder of its own. The folder above is there once what is copied is open."""
    file.parent.mkdir(mode=0o700, exist_ok=True)
    file.unlink(missing_ok=True)
    return sqlite3.connect(file)


def save(file: Path, open_it: Callable[[], AbstractContextManager[sqlite3.Connection]]) -> tuple[Path, Head, list[str]]:
    """Makes a copy, whole, while the service runs, and keeps the newest thirty; its path, its last change, and what is wrong with the
    changes."""
    folder = file.with_name("saved")
    begun, kept = folder / "begun", folder / time.strftime("%Y%m%dT%H%M%SZ", time.gmtime())
    with open_it() as found, closing(begun_in(begun)) as other:
        found.backup(other)
        if (fault := other.execute("PRAGMA integrity_check").fetchone()[0]) != "ok":
            raise Refused("The copy is not sound: {fault}", fault=fault)
        other.row_factory = sqlite3.Row
        head, faults, before = chain.head_of(other), list(chain.faults_of(other)), last_head(folder)
        if not chain.has(other, before):
            faults.append(f"change {before.change} of the copy before is gone, or is another")
    begun.rename(kept)
    for old in sorted(folder.glob("[0-9]*Z"))[:-MOST_SAVED]:
        old.unlink()
    return kept, head, faults
