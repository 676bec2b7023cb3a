"""Notes on entries and cash lines: the purpose of an entry, the reason of a correction or of a difference. They are added, and never
changed or removed.

A row is named by its branch, the bank's day and its number there, as numbers begin anew each year, and days go on.
"""
import sqlite3
from collections.abc import Iterable, Mapping, Sequence
from typing import NamedTuple

from ..policy import Kind, may
from ..procedures import PROCEDURES
from .books import Entry, spans_of
from .copies import Copies, Copy
from .languages import Term
from .register import MOST, require_number, require_text
from .store import Refused, changing, now

ROWS = {"entry": "entries", "line": "lines"}
KINDS = ("purpose", "reason", "difference")
MOST_TEXT = 200
# As many entries as the parts of one transfer have.
MOST_AT_ONCE = 200
# How many days a branch can be ahead of the newest copy.
MOST_AHEAD = 31


class Place(NamedTuple):
    """A day of a branch, and which of its rows a note is of: entry or line."""

    branch: int
    day: int
    row: str = "entry"


class Note(NamedTuple):
    """What somebody wrote of a row."""

    note: int
    moment: int
    badge: str
    branch: int
    day: int
    row: str
    number: int
    kind: str
    text: str
    # Missing in a note of an earlier version.
    user: int | None = None

    def writer(self, badges: Mapping[str, int]) -> int | None:
        """Whose note it is; of one that does not say so, who has its badge by this list, if anybody."""
        return self.user or badges.get(self.badge)


def works_at(copy: Copy, user: int, branch: int, moment: int) -> bool:
    """Whether the policy lets a user do or see anything at a branch."""
    return any(may(copy.policy, user, name, [(Kind.BRANCH, branch)], moment) for name in PROCEDURES)


def open_day(copy: Copy, branch: int) -> int:
    """The day of a branch that was open when the copy was made."""
    row = copy.row("SELECT day FROM branches WHERE branch = ?", branch)
    if row is None:
        raise Refused("There is no branch {branch}", branch=branch)
    return int(row["day"])


def require_rows(copies: list[Copy], place: Place, numbers: Sequence[int]) -> None:
    """Refuses rows of a day that is in the copies, if they are not there. Those of the open day come with a later copy."""
    last = open_day(copies[-1], place.branch)
    if not 1 <= place.day <= last + MOST_AHEAD:
        raise Refused("Branch {branch} has days 1 to {last}, by the newest copy", branch=place.branch, last=last)
    span = next((it for it in spans_of(copies, place.branch) if it.first <= place.day <= it.last), None)
    if place.day >= last or span is None:
        return
    query = f"SELECT 1 FROM {ROWS[place.row]} WHERE branch = ? AND number = ? AND day = ?"
    for number in numbers:
        if span.copy.row(query, place.branch, number, place.day) is None:
            raise Refused("Branch {branch} has no {row} {number} on day {day}",
                          branch=place.branch, row=Term(place.row), number=number, day=place.day)  # fmt: skip


def add(
    found: sqlite3.Connection, copies: list[Copy], who: tuple[str, int], place: Place, numbers: Sequence[int],
    kind: str, text: str
) -> int:  # fmt: skip
    """Keeps a note, by a badge and its user, on each of these rows of a place, all or none; how many are new. The same
    of the same user is kept once."""
    if place.row not in ROWS or kind not in KINDS:
        raise Refused("row is {rows}, and kind is {kinds}", rows=" or ".join(ROWS), kinds=list(KINDS))
    if not 1 <= len(numbers) <= MOST_AT_ONCE:
        raise Refused("A note is on 1 to {most} rows", most=MOST_AT_ONCE)
    for number in numbers:
        require_number("number", number, MOST)
    require_text("text", text, MOST_TEXT, least=1)
    if "\n" in text:
        raise Refused("text is one line")
    require_rows(copies, place, numbers)
    before = found.total_changes
    with changing(found):
        found.executemany(
            "INSERT INTO notes (moment, badge, user, branch, day, row, number, kind, text) "
            "SELECT ?1, ?2, ?3, ?4, ?5, ?6, ?7, ?8, ?9 WHERE NOT EXISTS (SELECT 1 FROM notes "
            "WHERE (badge, user, branch, day, row, number, kind, text) = (?2, ?3, ?4, ?5, ?6, ?7, ?8, ?9))",
            [(now(), *who, *place, number, kind, text.strip()) for number in numbers],
        )
    return found.total_changes - before


def of_day(found: sqlite3.Connection, branch: int, day: int) -> list[Note]:
    """All notes on the rows of a day, in the order in which they were written."""
    return [Note(*it) for it in found.execute("SELECT * FROM notes WHERE branch = ? AND day = ? ORDER BY note", (branch, day))]


def of_row(found: sqlite3.Connection, place: Place, number: int) -> list[Note]:
    """All notes on one row, in the order in which they were written."""
    query = "SELECT * FROM notes WHERE branch = ? AND day = ? AND row = ? AND number = ? ORDER BY note"
    return [Note(*it) for it in found.execute(query, (*place, number))]


def purposes(found: sqlite3.Connection, copies: Copies, entries: Iterable[Entry]) -> dict[tuple[int, int, int], str]:
    """The purpose of each entry that has one, by branch, day and number: the last that whoever made the entry wrote."""
    badges, texts = copies.badges(), dict[tuple[int, int, int], str]()
    for entry in entries:
        for note in of_row(found, Place(entry.branch, entry.day), entry.number):
            if note.kind == "purpose" and note.writer(badges) == entry.user:
                texts[entry.branch, entry.day, entry.number] = note.text
    return texts
