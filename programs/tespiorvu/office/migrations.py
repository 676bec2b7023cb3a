"""The tables of a file of the office, and how one of an earlier version becomes one of the present version, at the first opening."""
import sqlite3
from collections.abc import Callable, Iterator
from pathlib import Path
from typing import NamedTuple

from . import chain
from .languages import Refused

HERE = Path(__file__).resolve().parent


def statements_of(script: str) -> Iterator[str]:
    """The statements of a script, one by one, so that they are of the transaction that is open."""
    text = ""
    for line in script.splitlines(keepends=True):
        text += line
        if sqlite3.complete_statement(text):
            yield text
            text = ""


def carry_out(found: sqlite3.Connection, script: str) -> None:
    """Carries out a script within the transaction that is open."""
    for statement in statements_of(script):
        found.execute(statement)


def make_tables(found: sqlite3.Connection, names: tuple[str, ...]) -> None:
    """Makes the tables of these scripts."""
    for name in names:
        carry_out(found, (HERE / name).read_text(encoding="utf-8"))


def parts_of_requests(found: sqlite3.Connection) -> None:
    """A request has several operations, and a claim."""
    carry_out(
        found,
        """
        ALTER TABLE asks RENAME COLUMN operation TO operations;
        ALTER TABLE asks ADD COLUMN numbers TEXT;
        ALTER TABLE asks ADD COLUMN claimer TEXT;
        ALTER TABLE asks ADD COLUMN claim_ends INTEGER;
        ALTER TABLE asks ADD COLUMN lapsed TEXT NOT NULL DEFAULT '[]';
        ALTER TABLE asks ADD COLUMN taken_back INTEGER NOT NULL DEFAULT 0;
        UPDATE asks SET operations = '[' || operations || ']', numbers = '[' || number || ']';
        ALTER TABLE asks DROP COLUMN number;
        """,
    )


def chained_changes(found: sqlite3.Connection) -> None:
    """Changes have sums. Those that stand become a chain as they are."""
    rows = found.execute("SELECT * FROM changes ORDER BY change").fetchall()
    found.execute("DROP TABLE changes")
    make_tables(found, (CHANGES,))
    for row in rows:
        chain.add(found, dict(row))


def more_of_holders(found: sqlite3.Connection) -> None:
    """A holder has a date of birth, a language, a warning, and who proposed them; entries and cash lines have notes."""
    for name in ("born", "language", "warning", "proposer"):
        found.execute(f"ALTER TABLE holders ADD COLUMN {name} TEXT NOT NULL DEFAULT ''")
    make_tables(found, (NOTES,))


def words_by_holder(found: sqlite3.Connection) -> None:
    """What a name is searched by is found by its holder: a sheet of many holders would read all of it for each."""
    carry_out(found, "CREATE INDEX name_words_by_holder ON name_words (holder);")


def writers_of_notes(found: sqlite3.Connection) -> None:
    """A note keeps its writer's user. (Those of a file that had none have it by their table.)"""
    if not any(it["name"] == "user" for it in found.execute("PRAGMA table_info(notes)")):
        carry_out(found, "ALTER TABLE notes ADD COLUMN user INTEGER;")


Step = Callable[[sqlite3.Connection], None]
CHANGES = "schema_changes.sql"
NOTES = "schema_notes.sql"


class Tables(NamedTuple):
    """The scripts of a file's tables, and what changes a file of each version into one of the next. The first had no number."""

    scripts: tuple[str, ...]
    steps: tuple[Step, ...] = ()

    @property
    def version(self) -> int:
        """The present version."""
        return len(self.steps)


# Runs were in the register's file once. There they stay, for the file of runs to take them over.
REGISTER = Tables(
    ("schema.sql", CHANGES, NOTES),
    (parts_of_requests, chained_changes, more_of_holders, words_by_holder, writers_of_notes),
)
RUNS = Tables(("schema_runs.sql", CHANGES))


def version_of(found: sqlite3.Connection) -> int:
    """The version of a file; of one without a table it is below all."""
    if found.execute("SELECT 1 FROM sqlite_master").fetchone() is None:
        return -1
    return int(found.execute("PRAGMA user_version").fetchone()[0])


def bring_up(found: sqlite3.Connection, tables: Tables, begin: Step) -> None:
    """Makes the tables, and has what they begin with, or changes those of an earlier version, within the transaction that is open."""
    version = version_of(found)
    if version > tables.version:
        raise Refused("The office's file is of version {version}, and this program knows {known}",
                      version=version, known=tables.version)  # fmt: skip
    if version < 0:
        make_tables(found, tables.scripts)
        begin(found)
    for step in tables.steps[version:] if version >= 0 else ():
        step(found)
    found.execute(f"PRAGMA user_version = {tables.version}")
