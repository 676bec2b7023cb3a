"""Why each transfer of a run was made: the service of runs hands this to the office, as the office reads nothing of runs.

A transfer has the slip of its run and line, and the bank keeps with a slip the reply that names the entries. A file of the bank has the slips
of the years before, too, so the first file that has a slip has its entries.
"""
import json
import sqlite3
from collections.abc import Sequence
from pathlib import Path
from typing import NamedTuple

from ..files import write_whole
from .copies import Copies, Copy
from .languages import Sentence, from_kept
from .settings import Settings

Key = tuple[str, int, int]


class Reason(NamedTuple):
    """Of which kind of run a transfer is, the run's period, and its line's own text."""

    kind: str
    first: str
    last: str
    why: Sentence | str
    # Which account gives, which takes, and the amount; nothing in a file of an earlier version.
    moved: tuple[int, ...] = ()

    def explains(self, account: int, delta: int) -> bool:
        """Whether a leg of this transfer is of such an amount at such an account."""
        return not self.moved or (account, delta) in ((self.moved[0], -self.moved[2]), (self.moved[1], self.moved[2]))


def hand(found: sqlite3.Connection, settings: Settings) -> None:
    """Writes the reasons of all transfers that were carried out, or may be by now, if there is a folder for them. The
    file gets its name once it is whole, and keeps the number of a user whose badge has left the list."""
    if not settings.reasons.parent.is_dir():
        return
    rows = found.execute(
        "SELECT slip, kind, first, last, why, source, target, amount FROM run_lines JOIN runs USING (run) "
        "WHERE run_lines.state = 'done' OR (run_lines.state, runs.state) = ('waiting', 'approved') ORDER BY slip"
    )
    user = Copies(settings.copies).user_of(settings.badge) or handed(settings.reasons)[0]
    record = {"user": user, "lines": [list(it) for it in rows]}
    write_whole(settings.reasons, json.dumps(record, ensure_ascii=False), 0o640)


def handed(file: Path) -> tuple[int | None, dict[int, Reason]]:
    """The number of the service's user, and the reason of each slip; none where nothing was handed yet."""
    try:
        record = json.loads(file.read_text(encoding="utf-8"))
    except FileNotFoundError:
        return None, {}
    lines = ((slip, Reason(kind, first, last, from_kept(why), tuple(moved)))
             for slip, kind, first, last, why, *moved in record["lines"])  # fmt: skip
    return record["user"], dict(lines)


def of_entries(copies: Sequence[Copy], settings: Settings) -> dict[Key, Reason]:
    """The reason of each entry that a run made, by file, branch and number."""
    user, reasons = handed(settings.reasons)
    found, seen = dict[Key, Reason](), set[int]()
    for copy in copies if user is not None else ():
        for row in copy.rows("SELECT slip, reply FROM slips WHERE user_no = ? AND form = 2", user):
            slip = int(row["slip"])
            if slip in seen or slip not in reasons:
                continue
            seen.add(slip)
            reply = json.loads(row["reply"])
            for name in ("first", "second"):
                found[copy.name, int(reply["branch"]), int(reply[name])] = reasons[slip]
    return found
