"""Joins what a bank's file has with the audit trail of its front, both ways. The package has it as bank-audit.

    bank-audit [--before FILE] [--from MOMENT] [--until MOMENT] [--entries] BANK BADGES TRAIL...
    bank-audit --night

BANK is a file of the bank that nobody serves, BADGES the list of badges, TRAIL the files of audit.log, packed or not. FILE is an earlier
file of the same bank, or that of the year before: what it has is left out. A moment is in seconds since 1970; the first, if not
given, is when FILE ends, or else when BANK begins; the last when BANK was copied, if it is a copy of a night and is not FILE.

It prints what no line explains, and lines that were answered 200 and left nothing; with --entries each entry with its request, too.
With --night it does so of each copy that was checked since the last such run. The exit status is 1 if something is printed but
entries.
"""
import argparse
import sqlite3
from collections.abc import Iterable, Iterator
from pathlib import Path
from typing import NamedTuple

from .. import bank_file
from ..bank_file import checked, moment_of
from ..files import lines_of, logs_of, users_of, write_whole
from ..places import BADGES, COPIES, LOGS, SEALS

SQL = Path(__file__).resolve().parent / "audit.sql"
# Which copy was joined last, and the badges that were in the list then: one that was taken off since has lines all the same.
STATE, KNOWN = SEALS / "joined", SEALS / "badges.csv"
MOST_LINES = 200
LAST = 99_999_999_999.0


class Given(NamedTuple):
    """What is joined: the bank's file, an earlier one, and between which moments."""

    bank: Path
    before: Path | None
    first: float | None = None
    last: float = LAST


def attach(found: sqlite3.Connection, given: Given) -> None:
    """Attaches both files; one without a row, if there is none before."""
    bank_file.attach(found, "bank", given.bank)
    if given.before:
        bank_file.attach(found, "before", given.before)
        return
    found.execute("ATTACH ':memory:' AS before")
    for (name,) in found.execute("SELECT name FROM bank.sqlite_master WHERE type = 'table'").fetchall():
        found.execute(f"CREATE TABLE before.{name} AS SELECT * FROM bank.{name} WHERE 0")


def statements(text: str) -> Iterator[str]:
    """The statements of a text of SQL."""
    begun = ""
    for line in text.splitlines(keepends=True):
        begun += line
        if sqlite3.complete_statement(begun):
            yield begun
            begun = ""


def first_moments(found: sqlite3.Connection, given: Given) -> tuple[float, float]:
    """From when on a line may be of the period, and from when on it surely is. The bank's moments are whole seconds: what came within the
    second of FILE's last may be in either file."""
    made = moment_of(given.before) if given.before else None
    if given.first is not None or made is not None:
        first = given.first if given.first is not None else made or 0.0
        return first, first
    which, name = ("max", "before") if given.before else ("min", "bank")
    text = f"SELECT {which}(moment) FROM (SELECT moment FROM {name}.entries UNION ALL SELECT moment FROM {name}.lines)"
    moment = float(found.execute(text).fetchone()[0] or 0)
    return (moment, moment + 1) if given.before else (moment - 1, moment - 1)


def keep_known() -> None:
    """Keeps the badges of the list, with those that were in it before."""
    known = {**(users_of(KNOWN) if KNOWN.exists() else {}), **users_of(BADGES)}
    write_whole(KNOWN, "".join(f"{badge},{user}\n" for badge, user in [("badge", "user"), *known.items()]), 0o600)


def prepare(found: sqlite3.Connection, given: Given, badges: Path, trail: Iterable[Path]) -> None:
    """Makes the tables that audit.sql reads."""
    attach(found, given)
    found.execute("CREATE TABLE line (line)")
    found.executemany("INSERT INTO line VALUES (?)", ((it.rstrip("\n"),) for it in lines_of(trail)))
    found.execute("CREATE TABLE badges (badge, user)")
    found.executemany("INSERT INTO badges VALUES (?, ?)", users_of(badges).items())
    period = (*first_moments(found, given), given.last, given.before is not None)
    found.execute("CREATE TABLE period AS SELECT ? AS first, ? AS surely_from, ? AS last, ? AS has_before", period)


def findings(given: Given, badges: Path, trail: Iterable[Path], has_entries: bool = False) -> tuple[list[str], list[str]]:
    """The lines of entries, if they are asked for, and the lines of what is found."""
    found = sqlite3.connect(":memory:", uri=True)
    prepare(found, given, badges, trail)
    said = []
    for text in statements(SQL.read_text(encoding="utf-8")):
        rows = found.execute(text)
        said += [" ".join(map(str, row)) for row in rows] if rows.description else []
    entries = found.execute("SELECT * FROM entry_of_request") if has_entries else ()
    return [" ".join(map(str, row)) for row in entries], said


def say(lines: list[str]) -> int:
    """Prints what is found. The exit status."""
    for it in lines[:MOST_LINES]:
        print(it)
    if len(lines) > MOST_LINES:
        print("and", len(lines) - MOST_LINES, "more")
    return 1 if lines else 0


def nights() -> int:
    """Joins each copy that was checked since the last such run with the trail since the one before it."""
    copies = checked(COPIES)
    last = STATE.read_text(encoding="utf-8").strip() if STATE.exists() else ""
    begun = next((number for number, it in enumerate(copies) if it.name == last), max(len(copies) - 2, 0))
    status = 0
    keep_known()
    for before, now in zip(copies[begun:], copies[begun + 1 :]):
        made, until = moment_of(before / "bank") or 0.0, moment_of(now / "bank") or LAST
        trail = logs_of("audit", made) if LOGS.exists() else []
        status |= say(findings(Given(now / "bank", before / "bank", made, until), KNOWN, trail)[1])
    if copies:
        write_whole(STATE, copies[-1].name + "\n", 0o600)
    return status


def main() -> int:
    """Prints what is found."""
    reader = argparse.ArgumentParser(prog="bank-audit", description=__doc__, formatter_class=argparse.RawDescriptionHelpFormatter)
    reader.add_argument("--night", action="store_true", help="join what is new since the last such run")
    reader.add_argument("--before", metavar="FILE", type=Path, help="an earlier file of the bank, or that of the year before")
    reader.add_argument("--from", metavar="MOMENT", type=float, dest="first", help="lines from then on")
    reader.add_argument("--until", metavar="MOMENT", type=float, help="lines until then")
    reader.add_argument("--entries", action="store_true", help="each entry with its request, too")
    reader.add_argument("files", metavar="BANK BADGES TRAIL...", type=Path, nargs="*")
    given = reader.parse_args()
    if given.night != (not given.files) or 0 < len(given.files) < 3:
        reader.error("either --night, or BANK, BADGES and TRAIL are needed")
    if given.night:
        return nights()
    bank, badges, *trail = given.files
    until = None if given.before and given.before.samefile(bank) else moment_of(bank)
    entries, said = findings(Given(bank, given.before, given.first, given.until or until or LAST), badges, trail, given.entries)
    print("".join(f"{it}\n" for it in entries), end="")
    return say(said)
