"""The chain of changes: each has a sum that follows from the one before, from who, when and what, and from a digest of its texts.

So a change that is altered or taken away shows. The digest is salted, so that nobody finds a text by trying, and stays when text and
salt are dropped.
"""
import hashlib
import json
import secrets
import sqlite3
from collections.abc import Iterator
from typing import Any, NamedTuple

# What the first change follows.
BEGINNING = "0" * 64
KEPT = "INSERT INTO changes (change, moment, badge, what, row, old, new, salt, digest, sum) VALUES (?, ?, ?, ?, ?, ?, ?, ?, ?, ?)"


class Head(NamedTuple):
    """The last change and its sum."""

    change: int
    sum: str


def hashed(*members: object) -> str:
    """A digest of some members, which can't be read as other members."""
    return hashlib.sha256(json.dumps(members).encode()).hexdigest()


def sum_after(before: str, row: Any) -> str:
    """The sum of a change, by that of the one before and by its columns."""
    return hashed(before, *(row[name] for name in ("change", "moment", "badge", "what", "row", "digest")))


def head_of(found: sqlite3.Connection) -> Head:
    """The last change."""
    row = found.execute("SELECT change, sum FROM changes ORDER BY change DESC LIMIT 1").fetchone()
    return Head(row["change"], row["sum"]) if row else Head(0, BEGINNING)


def add(found: sqlite3.Connection, change: dict[str, Any]) -> None:
    """Adds a change to the chain: its moment, badge, what and row, and the texts as it was and as it is. Its number is one more than
    the last, if it has none."""
    head, salt = head_of(found), secrets.token_hex(16)
    record = {"change": head.change + 1, **change, "salt": salt, "digest": hashed(salt, change["old"], change["new"])}
    record["sum"] = sum_after(head.sum, record)
    names = ("change", "moment", "badge", "what", "row", "old", "new", "salt", "digest", "sum")
    found.execute(KEPT, [record[name] for name in names])


def drop_texts(found: sqlite3.Connection, what: str, row: str) -> None:
    """Drops the texts of all changes of a row, with their salts."""
    found.execute("UPDATE changes SET old = NULL, new = NULL, salt = NULL WHERE what = ? AND row = ?", (what, row))


def faults_of(found: sqlite3.Connection) -> Iterator[str]:
    """The changes that do not follow from the one before, or whose texts are others than they were."""
    before = BEGINNING
    for row in found.execute("SELECT * FROM changes ORDER BY change"):
        if row["sum"] != sum_after(before, row):
            yield f"change {row['change']} does not follow from the one before"
        if row["salt"] is not None and row["digest"] != hashed(row["salt"], row["old"], row["new"]):
            yield f"change {row['change']} has other texts than it was made with"
        before = row["sum"]


def has(found: sqlite3.Connection, head: Head) -> bool:
    """Whether a chain goes on from this change."""
    if head.change == 0:
        return True
    return found.execute("SELECT 1 FROM changes WHERE change = ? AND sum = ?", head).fetchone() is not None
