"""A bank's file as the pages describe it, made without the program: what the service reads, for tests of its parts."""
import datetime
import sqlite3
import time
from pathlib import Path

MEMBERS = ", ".join(f"member{it} INTEGER NOT NULL DEFAULT 0" for it in range(1, 9))
TABLES = f"""
CREATE TABLE bank (id INTEGER PRIMARY KEY, version INTEGER NOT NULL, policy INTEGER NOT NULL) STRICT;
CREATE TABLE users (user_no INTEGER PRIMARY KEY, name TEXT NOT NULL, officer INTEGER NOT NULL, suspended INTEGER NOT NULL,
    session INTEGER NOT NULL, is_on INTEGER NOT NULL, releases INTEGER NOT NULL) STRICT;
CREATE TABLE members (set_no INTEGER NOT NULL, place INTEGER NOT NULL, kind INTEGER NOT NULL, low INTEGER NOT NULL,
    high INTEGER NOT NULL, PRIMARY KEY (set_no, place)) STRICT;
CREATE TABLE grants (user_no INTEGER NOT NULL, procedure INTEGER NOT NULL, set_no INTEGER NOT NULL, ceiling INTEGER NOT NULL,
    first_at INTEGER NOT NULL, last_at INTEGER NOT NULL, PRIMARY KEY (user_no, procedure, set_no)) STRICT;
CREATE TABLE sets (set_no INTEGER PRIMARY KEY) STRICT;
CREATE TABLE relations (procedure INTEGER NOT NULL, set_no INTEGER NOT NULL, by_user INTEGER NOT NULL, PRIMARY KEY (procedure, set_no)) STRICT;
CREATE TABLE certifiers (user_no INTEGER NOT NULL, procedure INTEGER NOT NULL, PRIMARY KEY (user_no, procedure)) STRICT;
CREATE TABLE branches (branch INTEGER PRIMARY KEY, opening INTEGER NOT NULL, cash INTEGER NOT NULL, day INTEGER NOT NULL,
    balance INTEGER NOT NULL, vault INTEGER NOT NULL, entries INTEGER NOT NULL, lines INTEGER NOT NULL, accounts INTEGER NOT NULL,
    history INTEGER NOT NULL, drawers INTEGER NOT NULL, cash_entries INTEGER NOT NULL, differences INTEGER NOT NULL) STRICT;
CREATE TABLE accounts (account INTEGER PRIMARY KEY, home INTEGER NOT NULL, opening INTEGER NOT NULL, floor INTEGER NOT NULL,
    balance INTEGER NOT NULL, turns INTEGER NOT NULL) STRICT;
CREATE TABLE tellers (teller INTEGER PRIMARY KEY, branch INTEGER NOT NULL, opening INTEGER NOT NULL, balance INTEGER NOT NULL,
    cash INTEGER NOT NULL, holder INTEGER NOT NULL) STRICT;
CREATE TABLE entries (branch INTEGER NOT NULL, number INTEGER NOT NULL, account INTEGER NOT NULL, turn INTEGER NOT NULL,
    teller INTEGER NOT NULL, delta INTEGER NOT NULL, moment INTEGER NOT NULL, day INTEGER NOT NULL, user_no INTEGER NOT NULL,
    form INTEGER NOT NULL, partner INTEGER NOT NULL, undoes INTEGER NOT NULL, balance_after INTEGER NOT NULL,
    PRIMARY KEY (branch, number), UNIQUE (account, turn)) STRICT;
CREATE TABLE lines (branch INTEGER NOT NULL, number INTEGER NOT NULL, place INTEGER NOT NULL, amount INTEGER NOT NULL,
    form INTEGER NOT NULL, moment INTEGER NOT NULL, day INTEGER NOT NULL, user_no INTEGER NOT NULL,
    PRIMARY KEY (branch, number)) STRICT;
CREATE TABLE proofs (branch INTEGER NOT NULL, day INTEGER NOT NULL, entries INTEGER NOT NULL, balance INTEGER NOT NULL,
    cash INTEGER NOT NULL, PRIMARY KEY (branch, day)) STRICT;
CREATE TABLE releases (user_no INTEGER NOT NULL, number INTEGER NOT NULL, giver INTEGER NOT NULL, branch INTEGER NOT NULL,
    day INTEGER NOT NULL, form INTEGER NOT NULL, {MEMBERS}, used INTEGER NOT NULL,
    PRIMARY KEY (user_no, number)) STRICT;
CREATE TABLE slips (user_no INTEGER NOT NULL, slip INTEGER NOT NULL, form INTEGER NOT NULL DEFAULT 1, {MEMBERS},
    reply BLOB NOT NULL DEFAULT x'', PRIMARY KEY (user_no, slip)) STRICT;
"""
# Accounts by their branch: three each, and one that pays interest.
BRANCHES = {1: (101, 102, 103, 900), 2: (201, 202, 203)}
TELLERS = {11: 1, 12: 1, 90: 1, 21: 2}
OPENING, VAULT = 50_000, 1_000_000


class BankFile:
    """A bank that is written row by row. Nobody asks it for rights; what it is given has to be allowed."""

    def __init__(self, file: Path, before: "BankFile | None" = None) -> None:
        """A new file; one that goes on from a year that was closed has its balances, its days and its proofs."""
        self.bank = sqlite3.connect(file, isolation_level=None)
        self.bank.executescript("PRAGMA synchronous = OFF; PRAGMA journal_mode = OFF;" + TABLES)
        self.file, self.moment = file, int(time.time())
        openings = dict(before.bank.execute("SELECT account, balance FROM accounts")) if before else {}
        self.put("bank", (1, 3, 0))
        self.put("tellers", *((teller, branch, 0, 0, 0, 0) for teller, branch in TELLERS.items()))
        for branch, accounts in BRANCHES.items():
            own = {it: openings.get(it, OPENING) for it in accounts}
            total = sum(own.values())
            self.put("branches", (branch, total, VAULT, 1, total, VAULT, 0, 0, len(own), 0, 0, 0, 0))
            self.put("accounts", *((it, branch, cents, 0, cents, 0) for it, cents in own.items()))
        if before:
            ends = before.bank.execute("SELECT branch, day, vault FROM branches")
            self.bank.executemany("UPDATE branches SET day = ?2, cash = ?3, vault = ?3 WHERE branch = ?1", ends)
            self.put("proofs", *before.bank.execute("SELECT * FROM proofs"))

    def at(self, year: int, month: int, day: int, hour: int = 12) -> None:
        """Has what follows made at this time of the machine's clock."""
        self.moment = int(datetime.datetime(year, month, day, hour).timestamp())

    def put(self, table: str, *rows: tuple[object, ...]) -> None:
        """Rows of a table."""
        for row in rows:
            self.bank.execute(f"INSERT INTO {table} VALUES ({', '.join('?' * len(row))})", row)

    def one(self, text: str, *given: object) -> int:
        """One number of a SELECT."""
        number: int = self.bank.execute(text, given).fetchone()[0]
        return number

    def grant(
        self, user: int, procedures: list[int], ranges: list[tuple[int, int, int]], ceiling: int = 999_999,
        first: int = 0, last: int = 99_999_999_999
    ) -> None:  # fmt: skip
        """A user, a set of these ranges, and triples of the user for procedures on it, valid from the first moment to the last."""
        self.bank.execute("INSERT OR IGNORE INTO users VALUES (?, 'U', 0, 0, 1, 1, 0)", (user,))
        number = self.one("SELECT coalesce(max(set_no), 0) + 1 FROM members")
        self.put("members", *((number, place, *it) for place, it in enumerate(ranges, 1)))
        self.put("grants", *((user, it, number, ceiling, first, last) for it in procedures))

    def of_branch(self, column: str, branch: int) -> int:
        """A number of a branch's row."""
        return self.one(f"SELECT {column} FROM branches WHERE branch = ?", branch)

    def entry(
        self, branch: int, account: int, teller: int, delta: int, form: int, partner: int = 0, undoes: int = 0, user: int = 7
    ) -> int:
        """An entry; its number."""
        self.bank.execute("UPDATE accounts SET balance = balance + ?, turns = turns + 1 WHERE account = ?", (delta, account))
        self.bank.execute(
            "UPDATE branches SET balance = balance + ?, history = history + ?, entries = entries + 1 WHERE branch = ?",
            (delta, delta, branch))
        number, day = self.of_branch("entries", branch), self.of_branch("day", branch)
        turn, balance = self.bank.execute("SELECT turns, balance FROM accounts WHERE account = ?", (account,)).fetchone()
        row = (branch, number, account, turn, teller, delta, self.moment, day, user, form, partner, undoes, balance)
        self.put("entries", row)
        return number

    def line(self, branch: int, place: int, amount: int, form: int, user: int = 7) -> int:
        """A cash line; its number."""
        kept = {1: "cash_entries", 5: "differences"}.get(form)
        columns = ["drawers" if place else "vault", *([kept] if kept else [])]
        changes = ", ".join(f"{it} = {it} + {amount}" for it in columns)
        self.bank.execute(f"UPDATE branches SET {changes}, lines = lines + 1 WHERE branch = ?", (branch,))
        number, day = self.of_branch("lines", branch), self.of_branch("day", branch)
        self.put("lines", (branch, number, place, amount, form, self.moment, day, user))
        return number

    def post(self, branch: int, account: int, delta: int, teller: int = 11, undoes: int = 0, user: int = 7) -> int:
        """A post, or the correction of one."""
        number = self.entry(branch, account, teller, delta, 3 if undoes else 1, undoes=undoes, user=user)
        self.line(branch, teller, delta, 1, user)
        return number

    def transfer(self, branch: int, source: int, target: int, amount: int, teller: int = 11, user: int = 7) -> int:
        """A transfer; the number of its first leg."""
        first = self.of_branch("entries", branch) + 1
        self.entry(branch, source, teller, -amount, 2, partner=first + 1, user=user)
        self.entry(branch, target, teller, amount, 2, partner=first, user=user)
        return first

    def move(self, branch: int, source: int, target: int, amount: int, form: int = 4) -> None:
        """Cash from one place to another."""
        self.line(branch, source, -amount, form)
        self.line(branch, target, amount, form)

    def drawer_off(self, branch: int, teller: int, counted: int) -> None:
        """A drawer is counted and put off."""
        due = self.one("SELECT coalesce(sum(amount), 0) FROM lines WHERE branch = ? AND place = ?", branch, teller)
        self.line(branch, teller, counted - due, 5)
        self.move(branch, teller, 0, counted, 3)

    def close_day(self, branch: int) -> None:
        """Writes the proof of the day."""
        columns = "branch, day, entries, balance, vault"
        self.bank.execute(f"INSERT INTO proofs SELECT {columns} FROM branches WHERE branch = ?", (branch,))
        self.bank.execute("UPDATE branches SET day = day + 1 WHERE branch = ?", (branch,))
