"""Notes beside the rows of a day: the purposes, reasons and differences that were written, and the rows that lack one."""
import sqlite3
from collections.abc import Iterator
from typing import NamedTuple

from . import notes
from .books import CORRECTION, DIFFERENCE, CashLine, Entry
from .copies import Copy
from .notes import Note

LACKS = """
SELECT branch, day, 'correction' AS what, number, partner, user_no, delta AS amount FROM entries
    WHERE undoes != 0 AND (partner = 0 OR partner > number)
UNION ALL SELECT branch, day, 'difference', number, 0, user_no, amount FROM lines WHERE form = 5 AND amount != 0
ORDER BY 1, 2, 3, 4
"""


class Notes(NamedTuple):
    """The notes on the rows of a day, by what row it is."""

    found: dict[tuple[str, int], list[Note]]

    def on(self, row: str, number: int) -> list[Note]:
        """Those on an entry, or on a cash line."""
        return self.found.get((row, number), [])

    def has(self, row: str, number: int, kind: str) -> bool:
        """Whether a row has a note of a kind."""
        return any(it.kind == kind for it in self.on(row, number))

    def lacks(self, entries: list[Entry], lines: list[CashLine]) -> list[tuple[str, int]]:
        """The corrections and differences of a day without a reason; of the two legs of a correction one is enough."""
        corrections = [it for it in entries if it.form == CORRECTION]
        found = [("correction", it.number) for it in corrections
                 if (it.partner == 0 or it.partner > it.number)
                 and not any(self.has("entry", leg, "reason") for leg in (it.number, it.partner))]  # fmt: skip
        return found + [("difference", it.number) for it in lines
                        if it.form == DIFFERENCE and it.amount and not self.has("line", it.number, "difference")]  # fmt: skip


def of_day(found: sqlite3.Connection, branch: int, day: int) -> Notes:
    """The notes on the rows of a day."""
    by_row = dict[tuple[str, int], list[Note]]()
    for it in notes.of_day(found, branch, day):
        by_row.setdefault((it.row, it.number), []).append(it)
    return Notes(by_row)


def missing(found: sqlite3.Connection, copy: Copy) -> Iterator[tuple[object, ...]]:
    """The corrections and differences of a copy's closed days without a reason."""
    open_days = {it["branch"]: it["day"] for it in copy.rows("SELECT branch, day FROM branches")}
    kept = {(it["branch"], it["day"], it["row"], it["number"], it["kind"]) for it in found.execute("SELECT * FROM notes")}
    for branch, day, what, number, partner, user, amount in copy.rows(LACKS):
        row, kind = ("entry", "reason") if what == "correction" else ("line", "difference")
        has = any((branch, day, row, it, kind) in kept for it in (number, partner) if it)
        if day < open_days[branch] and not has:
            yield branch, day, what, number, user, amount
