"""Compares a copy of the bank with the one before it, and says what differs of that which never changes.

    compare-copies [BEFORE] NOW     each a folder with the file `bank`; without BEFORE only the slips of NOW are looked at

A row of the earlier copy has to be in the later one as it was, and no row may be added to a day that was closed; of accounts,
releases and the like that is so for the columns that never change. What a slip says has to be what its entry, account, release or
proof says. If BEFORE has a file `year`, the bank was carried forward after it, and NOW begins with its balances.

Each difference is a line of standard output. The exit status is 1 if there is one, and 2 if a file can't be read.
"""
import sqlite3
import sys
from collections.abc import Iterator
from pathlib import Path
from typing import Any, NamedTuple

from ..bank_file import attach, opened

MOST_LINES = 40
OPERATION = ", ".join(f"member{it}" for it in range(1, 9))


class Kept(NamedTuple):
    """A table's columns that never change, the key first; and what these were before a year was carried forward, if other ones, or
    none if its rows end with the year."""

    table: str
    key: int
    columns: str
    carried: str | None = ""
    has_days: bool = False


TABLES = (
    Kept("branches", 1, "branch, opening, cash", "branch, balance, vault"),
    Kept("tellers", 1, "teller, branch, opening", "teller, branch, balance"),
    Kept("accounts", 1, "account, home, floor, opening", "account, home, floor, balance"),
    Kept("entries", 2, "branch, number, day, account, turn, teller, delta, moment, user_no, form, partner, undoes, balance_after", None, True),
    Kept("lines", 2, "branch, number, day, place, amount, form, moment, user_no", None, True),
    Kept("proofs", 2, "branch, day, entries, balance, cash", has_days=True),
    Kept("releases", 2, f"user_no, number, giver, branch, day, form, {OPERATION}", has_days=True),
    Kept("slips", 2, f"user_no, slip, form, {OPERATION}, CAST(reply AS TEXT) AS reply"),
    Kept("users", 1, "user_no, name, officer"),
    Kept("members", 2, "set_no, place, kind, low, high"),
)
# What never goes back, with its table and key.
GROWING = (("bank", "id", "policy"), ("branches", "branch", "day"), ("users", "user_no", "session"), ("releases", "user_no, number", "used"))

# Slips that are new since the copy before; without one all, unless a year came before, whose proofs have more entries than are here.
NEW_SLIPS = "SELECT user_no, slip FROM main.slips EXCEPT SELECT user_no, slip FROM before.slips"
ALL_SLIPS = """SELECT user_no, slip FROM main.slips WHERE NOT EXISTS (SELECT 1 FROM main.proofs AS proof WHERE proof.entries >
    (SELECT count(*) FROM main.entries AS entry WHERE entry.branch = proof.branch AND entry.day <= proof.day))"""
# What slips say of entries: by the operation's members, and by the reply.
SAID = """CREATE TEMP TABLE said AS SELECT user_no, slip, form, member1 AS m1, member2 AS m2, member3 AS m3, member4 AS m4, member5 AS m5,
    member6 AS m6, member7 AS m7, member8 AS m8, CAST(reply AS TEXT) AS reply FROM main.slips JOIN new USING (user_no, slip)"""
ENTRY_SAID = """CREATE TEMP TABLE entry_said AS
    SELECT user_no, slip, reply ->> 'branch' AS branch, reply ->> 'entry' AS number, m1 AS account, m2 AS teller, m4 AS delta,
        0 AS undoes, reply ->> 'balance' AS balance FROM said WHERE form = 1
    UNION ALL SELECT user_no, slip, reply ->> 'branch', reply ->> 'first', m1, m3, -m5, 0, reply ->> 'source' FROM said WHERE form = 2
    UNION ALL SELECT user_no, slip, reply ->> 'branch', reply ->> 'second', m2, m3, m5, 0, reply ->> 'target' FROM said WHERE form = 2
    UNION ALL SELECT user_no, slip, reply ->> 'branch', reply ->> 'entry', m3, m5, -m6, m2, reply ->> 'balance' FROM said
        WHERE form = 3 AND m4 = 0
    UNION ALL SELECT user_no, slip, reply ->> 'branch', reply ->> 'first', m3, m5, -m6, m2, reply ->> 'source' FROM said
        WHERE form = 3 AND m4 != 0
    UNION ALL SELECT user_no, slip, reply ->> 'branch', reply ->> 'second', m4, m5, m6,
        (SELECT partner FROM main.entries WHERE branch = m1 AND number = m2), reply ->> 'target' FROM said WHERE form = 3 AND m4 != 0"""
# Of a release the form of its operation and the members of that follow the user for whom it is.
UNFULFILLED = (
    """SELECT said.user_no, slip, 'entry ' || said.branch || '/' || said.number FROM entry_said AS said LEFT JOIN main.entries AS entry
        ON entry.branch = said.branch AND entry.number = said.number
        WHERE (entry.user_no, entry.account, entry.teller, entry.delta, entry.undoes, entry.balance_after)
        IS NOT (said.user_no, said.account, said.teller, said.delta, said.undoes, said.balance)""",
    """SELECT user_no, slip, 'account ' || m1 FROM said WHERE form = 7
        AND NOT EXISTS (SELECT 1 FROM main.accounts WHERE (account, home, floor) = (m1, m2, m3))""",
    """SELECT user_no, slip, 'release ' || (reply ->> 'release') || ' of user ' || m1 FROM said WHERE form = 8
        AND NOT EXISTS (SELECT 1 FROM main.releases AS it WHERE (it.user_no, it.number, it.giver) = (m1, reply ->> 'release', said.user_no)
        AND (it.form, member1, member2, member3, member4, member5, member6) = (m2, m3, m4, m5, m6, m7, m8))""",
    """SELECT user_no, slip, 'proof of branch ' || m1 || ', day ' || (reply ->> 'closed') FROM said WHERE form = 13
        AND NOT EXISTS (SELECT 1 FROM main.proofs WHERE (branch, day, entries, balance, cash)
        = (m1, reply ->> 'closed', reply ->> 'entries', reply ->> 'balance', reply ->> 'cash'))""",
)


def named(columns: str, row: tuple[Any, ...]) -> list[str]:
    """The names of columns, each with its value in a row."""
    return [f"{name.split()[-1]} {value}" for name, value in zip(columns.split(", "), row)]


def changed(it: Kept, old: tuple[Any, ...], new: tuple[Any, ...] | None) -> str:
    """What is said of a row that is another now, or gone."""
    names, key = [name.split()[-1] for name in it.columns.split(", ")], ", ".join(named(it.columns, old[: it.key]))
    if new is None:
        return f"{it.table}: {key} is gone ({', '.join(named(it.columns, old)[it.key :])})"
    other = [f"{name} was {before!r} and is {now!r}" for name, before, now in zip(names, old, new) if before != now]
    return f"{it.table}: {key}: {', '.join(other)}"


def lost(bank: sqlite3.Connection, it: Kept, is_carried: bool) -> Iterator[str]:
    """Rows of the earlier copy that the later one has not, or otherwise."""
    before = it.carried if is_carried and it.carried != "" else it.columns
    if before is None:
        return
    keys = [name.split()[-1] for name in it.columns.split(", ")[: it.key]]
    now = f"SELECT {it.columns} FROM main.{it.table}"
    by_key = f"{now} WHERE ({', '.join(keys)}) = ({', '.join('?' * it.key)})"
    for old in bank.execute(f"SELECT {before} FROM before.{it.table} EXCEPT {now} ORDER BY {', '.join(map(str, range(1, it.key + 1)))}"):
        yield changed(it, old, bank.execute(by_key, old[: it.key]).fetchone())


def added(bank: sqlite3.Connection, it: Kept, is_carried: bool) -> Iterator[str]:
    """Rows of days that were closed already, which the earlier copy has not. (Numbers begin anew in a year.)"""
    keys = ", ".join(it.columns.split(", ")[: it.key])
    known = "" if is_carried and it.carried is None else f"AND ({keys}) NOT IN (SELECT {keys} FROM before.{it.table})"
    text = f"""SELECT {it.columns} FROM main.{it.table} AS it
        WHERE day < (SELECT day FROM before.branches WHERE branch = it.branch) {known} ORDER BY {keys}"""
    for row in bank.execute(text) if it.has_days else ():
        yield f"{it.table}: {', '.join(named(it.columns, row[: it.key]))} was added to a closed day ({', '.join(named(it.columns, row)[it.key :])})"


def gone_back(bank: sqlite3.Connection) -> Iterator[str]:
    """Numbers that never go back, and did."""
    for table, key, column in GROWING:
        keys = ", ".join(f"it.{name}" for name in key.split(", "))
        for *names, old, new in bank.execute(f"SELECT {keys}, old.{column}, it.{column} FROM main.{table} AS it JOIN before.{table} AS old "
                                             f"USING ({key}) WHERE it.{column} < old.{column}"):
            yield f"{table}: {', '.join(named(key, tuple(names)))}: {column} was {old} and is {new}"


def unfulfilled(bank: sqlite3.Connection, slips: str) -> Iterator[str]:
    """Slips that say something else than what they made."""
    bank.execute(f"CREATE TEMP TABLE new AS {slips}")
    bank.execute(SAID)
    bank.execute(ENTRY_SAID)
    for text in UNFULFILLED:
        for user, slip, what in bank.execute(text):
            yield f"slips: slip {slip} of user {user} does not agree with {what}"


def differences(before: Path | None, now: Path) -> Iterator[list[str]]:
    """What differs, table by table."""
    bank = opened(now / "bank")
    if before is None:
        yield list(unfulfilled(bank, ALL_SLIPS))
        return
    attach(bank, "before", before / "bank")
    is_carried = (before / "year").exists()
    for it in TABLES:
        yield [*lost(bank, it, is_carried), *added(bank, it, is_carried)]
    yield list(gone_back(bank))
    yield list(unfulfilled(bank, NEW_SLIPS))


def main() -> int:
    """Prints what differs of two copies."""
    *before, now = map(Path, sys.argv[1:])
    status = 0
    try:
        for lines in differences(before[0] if before else None, now):
            status = 1 if lines else status
            print("".join(f"{it}\n" for it in lines[:MOST_LINES]), end="")
            if len(lines) > MOST_LINES:
                print(f"{lines[0].partition(':')[0]}: and {len(lines) - MOST_LINES} more")
    except sqlite3.Error as error:
        print(error, file=sys.stderr)
        return 2
    return status
