"""The rows that a bank of the reference model has in each table of docs/TABLES.md, and those that a file has, by
Python's sqlite3."""
import contextlib
import os
import shutil
import sqlite3
import time
from collections.abc import Mapping

from faults.earlier_files import VERSION
from model.bank import KINDS, Bank, Release
from sample_file import ENDINGS
from simulation.ledger import NUMBER_OF, Ledger, LongBank, Row, form_of, line_row, members_of, slip_row

# The rows of each table.
Tables = dict[str, list[Row]]

TABLES = (
    "bank users sets members relations grants certifiers branches tellers accounts entries lines proofs releases slips slip_counts"
).split()


def rows_by_branch(kept: Mapping[int, list[Row]], more: list[Row]) -> list[Row]:
    """Rows that are kept by their branches, in order, with some more."""
    rows = [row for branch in sorted(kept) for row in kept[branch]]
    return sorted([*rows, *more]) if more else rows


def entry_rows(bank: Bank, ledger: Ledger) -> list[Row]:
    """The rows of entries: those of the ledger, and those that the bank adds to it."""
    more: list[Row] = []
    balances: dict[int, int] = {}
    for it in bank.entries:
        before = balances.get(it.account, bank.accounts[it.account][1] + ledger.of_account[it.account])
        balances[it.account] = before + it.delta
        more.append((*it[:9], form_of(it), it.partner, it.undoes, balances[it.account]))
    return rows_by_branch(ledger.entry_rows, more)


def line_rows(bank: Bank, ledger: Ledger) -> list[Row]:
    """The rows of cash lines."""
    return rows_by_branch(ledger.line_rows, [line_row(it) for it in bank.lines])


def slip_rows(bank: Bank, ledger: Ledger) -> list[Row]:
    """The rows of slips."""
    more = [slip_row(user, number, slip) for (user, number), slip in bank.slips.items()]
    return sorted([*ledger.slip_rows.values(), *more])


def branch_row(bank: Bank, branch: int) -> Row:
    """The row of a branch."""
    opening, cash = bank.branches[branch]
    kept = (bank.branch_balance(branch), bank.cash(branch, 0), bank.entry_count(branch), bank.line_count(branch))
    homes = sum(home == branch for home, _, _ in bank.accounts.values())
    totals = (bank.history(branch), bank.drawers_total(branch), bank.lines_total(branch, "entry"), bank.lines_total(branch, "difference"))
    return (branch, opening, cash, bank.days[branch], *kept, homes, *totals)


def release_row(bank: Bank, key: tuple[int, int], release: Release) -> Row:
    """The row of a release."""
    operation, kind = release.operation, release.operation["procedure"]
    members = members_of(kind, operation)
    return (*key, release.giver, operation["branch"], release.day, NUMBER_OF[kind], *members, int(key in bank.used))


def user_row(bank: Bank, user: int) -> Row:
    """The row of a user."""
    of_releases = sum(who == user for who, _ in bank.releases)
    flags = (int(user in bank.officers), int(user in bank.suspended))
    return (user, bank.users[user], *flags, bank.sessions[user], int(user in bank.open), of_releases)


def rows_of_bank(bank: LongBank) -> Tables:
    """The rows of each table of a bank over a ledger, in the order of their keys."""
    return rows_over(bank, bank.ledger)


def rows_over(bank: Bank, ledger: Ledger) -> Tables:
    """The rows of each table of a bank, whose entries, cash lines and slips come after those of a ledger."""
    placed = ((number, *it) for number, found in bank.sets.items() for it in enumerate(found, 1))
    members = [(number, place, KINDS.index(kind) + 1, low, high) for number, place, (kind, low, high) in placed]
    return {
        "bank": [(1, VERSION, bank.version)],
        "users": [user_row(bank, it) for it in sorted(bank.users)],
        "sets": [(it,) for it in sorted(bank.sets)],
        "members": sorted(members),
        "relations": sorted((NUMBER_OF[what], number, by) for (what, number), by in bank.relations.items()),
        "grants": sorted((user, NUMBER_OF[what], number, *it) for (user, what, number), it in bank.triples.items()),
        "certifiers": sorted((user, NUMBER_OF[what]) for user, what in bank.certifiers),
        "branches": [branch_row(bank, it) for it in sorted(bank.branches)],
        "tellers": [teller_row(bank, it) for it in sorted(bank.tellers)],
        "accounts": [account_row(bank, it) for it in sorted(bank.accounts)],
        "entries": entry_rows(bank, ledger),
        "lines": line_rows(bank, ledger),
        "proofs": sorted(tuple(it) for it in bank.proofs),
        "releases": sorted(release_row(bank, key, it) for key, it in bank.releases.items()),
        "slips": slip_rows(bank, ledger),
        "slip_counts": [(it, bank.slip_count(it)) for it in sorted(bank.users)],
    }


def teller_row(bank: Bank, teller: int) -> Row:
    """The row of a teller."""
    branch, opening = bank.tellers[teller]
    return (teller, branch, opening, bank.teller_balance(teller), bank.cash(branch, teller), bank.holder(teller) or 0)


def account_row(bank: Bank, account: int) -> Row:
    """The row of an account."""
    home, opening, floor = bank.accounts[account]
    return (account, home, opening, floor, bank.balance(account), bank.turn_count(account))


# For how many nanoseconds the time of a file's last change may stay the same over further changes.
TICK = 20_000_000


def changes_of(file: str) -> list[tuple[int, int]]:
    """When a file and its log were last changed, and how long they are; none of one that is not there."""
    found = []
    for it in ENDINGS:
        with contextlib.suppress(FileNotFoundError):
            found.append(os.stat(file + it))
    return [(it.st_mtime_ns, it.st_size) for it in found]


def copy_together(file: str, copy: str) -> None:
    """Copies a file and its log as they are at one time: a program that ends may just take the log into the file."""
    while True:
        before = changes_of(file)
        left = max(it for it, _ in before) + TICK - time.time_ns()
        if left > 0:
            # (no longer than that: the clock may have been set back since)
            time.sleep(min(left, TICK) / 1e9)
        for ending in ("", "-wal", "-shm"):
            if os.path.exists(copy + ending):
                os.remove(copy + ending)
        for ending in ENDINGS:
            with contextlib.suppress(FileNotFoundError):
                shutil.copyfile(file + ending, copy + ending)
        if changes_of(file) == before:
            return


def rows_of_file(file: str, room: str) -> Tables:
    """The rows of each table in a file and its log, of which a copy is read."""
    copy = os.path.join(room, "read")
    copy_together(file, copy)
    connection = sqlite3.connect(copy)
    try:
        names = {it for it, in connection.execute("SELECT name FROM sqlite_schema WHERE type = 'table' AND name NOT LIKE 'sqlite_%'")}
        rows = {it: connection.execute(f"SELECT * FROM {it}").fetchall() for it in names}
    finally:
        connection.close()
    return {it: sorted(found) for it, found in rows.items()}


def first_difference(found: Tables, wanted: Tables) -> str | None:
    """The first table and row that differ, as text, or None."""
    for name in sorted({*found, *wanted}, key=lambda it: (TABLES.index(it) if it in TABLES else len(TABLES), it)):
        if found.get(name) != wanted.get(name):
            have, due = found.get(name), wanted.get(name)
            if have is None or due is None:
                return f"the table {name} is {'not ' if have is None else ''}there"
            more = [it for it in have if it not in set(due)][:3]
            less = [it for it in due if it not in set(have)][:3]
            return f"{name} has {more} and not {less}; {len(have)} rows, due are {len(due)}"
    return None
