"""The office's own file: one SQLite database, and the record of who changed what in it."""
import json
import sqlite3
import time
from collections.abc import Iterator
from contextlib import contextmanager
from pathlib import Path
from typing import Any

from . import chain
from .languages import Refused as Refused
from .migrations import REGISTER, Step, Tables, bring_up, version_of


class Taken(Refused):
    """Somebody else has it, or it is done."""

    status = 409


def now() -> int:
    """The moment in seconds."""
    return int(time.time())


def begin_empty(found: sqlite3.Connection) -> None:
    """Leaves new tables empty."""


@contextmanager
def opened(file: Path, tables: Tables = REGISTER, begin: Step = begin_empty) -> Iterator[sqlite3.Connection]:
    """A file of the office, made where it is not there. What is not committed in the end is undone."""
    try:
        found = sqlite3.connect(file, isolation_level=None, timeout=20)
    except sqlite3.OperationalError as error:
        raise Refused("{file}: {error}", file=file, error=error) from error
    try:
        found.row_factory = sqlite3.Row
        found.execute("PRAGMA foreign_keys = ON")
        found.execute("PRAGMA synchronous = FULL")
        found.execute("PRAGMA secure_delete = ON")
        if version_of(found) != tables.version:
            with changing(found):
                bring_up(found, tables, begin)
        yield found
    finally:
        found.close()


@contextmanager
def changing(found: sqlite3.Connection) -> Iterator[None]:
    """One transaction that writes: whole, or not at all."""
    found.execute("BEGIN IMMEDIATE")
    try:
        yield
    except BaseException:
        found.execute("ROLLBACK")
        raise
    found.execute("COMMIT")


def note_change(
    found: sqlite3.Connection, badge: str, what: str, row: str, old: dict[str, Any] | None, new: dict[str, Any] | None
) -> None:
    """Records that a row was changed, within the transaction that changes it."""
    texts = [None if it is None else json.dumps(it, ensure_ascii=False, sort_keys=True) for it in (old, new)]
    chain.add(found, {"moment": now(), "badge": badge, "what": what, "row": row, "old": texts[0], "new": texts[1]})


def changes_of(found: sqlite3.Connection, what: str, row: str) -> list[sqlite3.Row]:
    """The changes of a row, the newest first."""
    return found.execute("SELECT * FROM changes WHERE what = ? AND row = ? ORDER BY change DESC", (what, row)).fetchall()
