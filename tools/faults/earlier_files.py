"""The banks of earlier schema versions, as the folders of migrations/ have them, and what they are in the present one.

A file of such a folder has cases in the language of rows/ (tools/cases/suite.py). A case is a bank: SQL that makes it, and a
run whose requests the program of that version answered so. `refused` has files that are refused instead, and the line for each.
"""
import os
import re
import sqlite3
import tempfile
from collections.abc import Mapping
from typing import Any, NamedTuple

from cases.suite import Suite
from checks import Wrong
from replies import body_of, size_of, with_body
from repository import TOP
from sample_file import copy_bank, run_to_end

# The rows of each table.
Rows = Mapping[str, list[tuple[Any, ...]]]

# How an action ends: its status, and what it writes on both streams.
CARRIED = (0, b"carried over\n", b"")
HOLDS = (0, b"books hold\n", b"")
OTHER = (3, b"", b"file: other version\n")
NOT_READ = (3, b"", b"file: not read\n")

# The columns of the moments at which something was done.
MOMENTS = {"entries": 6, "lines": 5}

REFUSED = "refused"
BANK = "bank"
# The present schema version, and the moments that a triple of version 1 comes to have.
VERSION = 3
WIDEST = (0, 99_999_999_999)
LISTING = b"POLICY LINES "
TRIPLE = re.compile(rb"^TRIPLE .*$", re.MULTILINE)
SCHEMA = "SELECT rowid, type, name, tbl_name, sql FROM sqlite_schema ORDER BY rowid"


class SchemaVersion(NamedTuple):
    """A schema version: its folder, and the table of its triples, which have moments or not."""

    name: str
    triples: str
    has_moments: bool

    def suite(self) -> Suite:
        """The cases of its folder."""
        return Suite(os.path.join(TOP, "migrations", self.name))

    def officer_with_a_triple(self):
        """SQL that gives an officer a triple."""
        moments = f", {WIDEST[0]}, {WIDEST[1]}" if self.has_moments else ""
        return f"INSERT INTO {self.triples} VALUES (1, 1, 2, 0{moments})"

    def replied(self, output):
        """The replies of its program as those of the present one: in a listing each triple has its moments."""
        return output if self.has_moments else widened(output)

    def carried_over(self, rows):
        """The rows of its tables as those of the present version. Nobody has a slip."""
        kept = {name: found for name, found in rows.items() if name != self.triples}
        kept["bank"] = [(number, VERSION, policy) for number, _, policy in rows["bank"]]
        moments = () if self.has_moments else WIDEST
        counts = [(row[0], 0) for row in rows["users"]]
        return {**kept, "grants": [(*it, *moments) for it in rows[self.triples]], "slips": [], "slip_counts": counts}


EARLIER_VERSIONS = (SchemaVersion("version-1", "triples", False), SchemaVersion("version-2", "grants", True))


def carried_rows(suite):
    """The names of the cases that are banks."""
    return [row.name for it in suite.subjects if it.name != REFUSED for row in it.rows if row.runs]


def refused_rows(suite):
    """The names of the cases whose files are refused."""
    return [row.name for it in suite.subjects if it.name == REFUSED for row in it.rows if row.runs]


def make_earlier_file(suite: Suite, name: str, room: str) -> tuple[str, Any]:
    """Makes the files of a case in a folder, and returns the path of its bank and its run."""
    row = suite.row(name)
    os.makedirs(room, exist_ok=True)
    for one in [*suite.way_to(row), row]:
        for change in [*one.changes, *(it for step in one.steps for it in step.changes)]:
            change.make(room)
    return os.path.join(room, BANK), row.only()


def widened(output):
    """Replies in which each triple of a listing has the widest moments, too."""
    made = []
    while output:
        size = size_of(output)
        reply, output = output[:size], output[size:]
        if body_of(reply).startswith(LISTING):
            reply = with_body(reply, TRIPLE.sub(lambda line: line[0] + b" %11d %11d" % WIDEST, body_of(reply)))
        made.append(reply)
    return b"".join(made)


def parted(said, wanted):
    """Both texts from where they differ, as far as a line goes."""
    pairs = enumerate(zip(said, wanted))
    at = next((it for it, (one, other) in pairs if one != other), min(len(said), len(wanted)))
    return said[max(at - 40, 0) :][:160], wanted[max(at - 40, 0) :][:160]


def require_said(program, words, wanted, room=None, given=b""):
    """Runs a program, in a folder. It has to end with this status, and to write this on both streams."""
    said = run_to_end([program, *words], given, cwd=room)
    if said != wanted:
        output, due = parted(said[1], wanted[1])
        found = f"status {said[0]}, wrote {output!r} and {said[2][-160:]!r}"
        raise Wrong(f"{os.fsdecode(words[0])}: {found}; due were {wanted[0]}, {due!r} and {wanted[2]!r}")


class Tables:
    """What Python's sqlite3 reads of a database: the rows of its schema, and those of each table in the order of their keys."""

    def __init__(self, file: str) -> None:
        with tempfile.TemporaryDirectory(prefix="bank-tables-") as room:
            copy = os.path.join(room, BANK)
            copy_bank(file, copy)
            connection = sqlite3.connect(copy)
            try:
                self.schema = connection.execute(SCHEMA).fetchall()
                names = [name for _, kind, name, _, _ in self.schema if kind == "table"]
                self.rows = {it: sorted(connection.execute(f"SELECT * FROM {it}")) for it in names}
                self.is_whole = connection.execute("PRAGMA integrity_check").fetchall() == [("ok",)]
                self.dangling = connection.execute("PRAGMA foreign_key_check").fetchall()
            finally:
                connection.close()


def without_moments(rows: Rows) -> Rows:
    """The rows of tables without the moments of entries and of lines."""
    kept = {name: sorted(it[:at] + it[at + 1 :] for it in rows[name]) for name, at in MOMENTS.items()}
    return {**rows, **kept}


def difference_of(found: Rows, wanted: Rows) -> str | None:
    """What differs first between two readings of tables, as text, or None where nothing does."""
    for name in sorted({*found, *wanted}):
        if name not in found or name not in wanted:
            return f"the table {name} is {'there' if name in found else 'not there'}"
        if found[name] != wanted[name]:
            more, less = [[it for it in a if it not in b] for a, b in ((found[name], wanted[name]), (wanted[name], found[name]))]
            return f"{name} has {more[:3]} and not {less[:3]}" if more or less else f"{name} has a row twice"
    return None
