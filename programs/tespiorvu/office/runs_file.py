"""The file of runs and their approvals, which is their own user's alone: who has the office's process does not reach it."""
import sqlite3
from collections.abc import Iterator
from contextlib import closing, contextmanager
from functools import partial
from typing import Any
from urllib.parse import quote

from .copies import Copies
from .migrations import RUNS
from .settings import Settings
from .store import opened

TAKEN = ("runs", "run_lines", "approvals")


def only_read(settings: Settings) -> sqlite3.Connection:
    """The register, for reading alone."""
    found = sqlite3.connect(f"file:{quote(str(settings.file))}?mode=ro", uri=True)
    found.row_factory = sqlite3.Row
    return found


def take_over(settings: Settings, found: sqlite3.Connection) -> None:
    """Takes over the runs of an earlier version, which were in the register's file, with the numbers of their users."""
    if not settings.file.exists():
        return
    user_of = Copies(settings.copies).user_of
    with closing(only_read(settings)) as register:
        tables = {it["name"] for it in register.execute("SELECT name FROM sqlite_master")}
        for table in TAKEN if tables.issuperset(TAKEN) else ():
            for row in register.execute(f"SELECT * FROM {table}").fetchall():
                record: dict[str, Any] = dict(row) if table == "run_lines" else {**dict(row), "user": user_of(row["badge"])}
                names, marks = ", ".join(record), ", ".join("?" * len(record))
                found.execute(f"INSERT INTO {table} ({names}) VALUES ({marks})", list(record.values()))


@contextmanager
def opened_runs(settings: Settings) -> Iterator[sqlite3.Connection]:
    """The file of runs."""
    with opened(settings.runs, RUNS, partial(take_over, settings)) as found:
        yield found
