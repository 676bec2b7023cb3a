"""Statements on paper: with the letterhead, the owner's address, a number, both balances, and each entry by its name, in the language of
the account's owner."""
import datetime
import sqlite3
from collections.abc import Iterator, Mapping, Sequence
from contextlib import ExitStack
from pathlib import Path
from typing import NamedTuple

from . import notes, reasons, register
from .books import CORRECTION, LEG
from .copies import PRESENT, Copies, Copy
from .languages import Language, Term, language_of
from .periods import require_period
from .reasons import Key, Reason
from .register import Holder
from .settings import Settings
from .statements import Line, Statement, chain_of, within

NO_PURPOSES: Mapping[tuple[int, int, int], str] = {}


class PaperLine(NamedTuple):
    """An entry on a statement: when it was made, from when it is valued, what it is, what somebody wrote of it, and the amounts."""

    date: datetime.date
    value: datetime.date
    what: str
    purpose: str
    entry: str
    amount: int
    balance: int


class Paper(NamedTuple):
    """The statement of an account as it is printed. `owners` may be empty, and the first of them gets it."""

    account: int
    branch: int
    number: str
    owners: list[Holder]
    language: Language
    statement: Statement
    lines: list[PaperLine]

    def total(self, sign: int) -> int:
        """The sum of what came (1), or of what went (-1)."""
        return sum(it.amount for it in self.lines if it.amount * sign > 0)

    def addressee(self) -> Holder | None:
        """Who gets it."""
        return self.owners[0] if self.owners else None


class Source(NamedTuple):
    """What papers are made of: the files of all years, the register, the reasons of runs' transfers, and the settings."""

    copies: Copies
    opened: Sequence[Copy]
    register: sqlite3.Connection
    reasons: Mapping[Key, Reason]
    settings: Settings


def number_of(first: datetime.date, last: datetime.date) -> str:
    """The number of a statement, by its period: of a year, of a month, or of any days. So the same period has the same number."""
    after = last + datetime.timedelta(1)
    if (first.month, first.day, after.month, after.day) == (1, 1, 1, 1) and after.year == first.year + 1:
        return str(first.year)
    if first.day == 1 and after.day == 1 and (after - first).days <= 31:
        return f"{first:%Y/%m}"
    return f"{first:%Y%m%d}-{last:%Y%m%d}"


def folder_of(settings: Settings, first: datetime.date, last: datetime.date) -> Path:
    """Where the papers of a period are kept."""
    return settings.file.with_name("papers") / number_of(first, last).replace("/", "-")


def begun(text: str) -> str:
    """A text with a capital letter."""
    return text[:1].upper() + text[1:]


def what_of(line: Line, reason: Reason | None, language: Language) -> str:
    """What an entry is called for a customer."""
    entry = line.entry
    if reason is not None:
        return begun(language.written(reason.why))
    words = [begun(language.written(Term(entry.what())))]
    if entry.form == LEG and entry.other:
        words.append(language.say("with account {account}", account=entry.other))
    if entry.form == CORRECTION:
        words.append(language.say("of entry {entry}", entry=entry.undoes))
    elif entry.undone_by:
        words.append(language.say("corrected by entry {entry}", entry=entry.undone_by))
    return ", ".join(words)


def language_for(owners: Sequence[Holder], settings: Settings) -> Language:
    """The language of papers for these owners: the first one's, else that of the letterhead."""
    return language_of((owners[0].language if owners else "") or settings.letterhead.language)


def line_of(line: Line, source: Source, purposes: Mapping[tuple[int, int, int], str], language: Language) -> PaperLine:
    """An entry as a statement has it. What a run booked is valued at the last day of its period."""
    entry = line.entry
    reason = source.reasons.get((line.copy, entry.branch, entry.number))
    date = datetime.date.fromtimestamp(entry.moment)
    return PaperLine(
        date,
        datetime.date.fromisoformat(reason.last) if reason else date,
        what_of(line, reason, language),
        purposes.get((entry.branch, entry.day, entry.number), ""),
        f"{entry.branch}/{entry.number}" + (f"/{line.copy}" if line.copy != PRESENT else ""),
        entry.delta,
        entry.balance_after,
    )


def paper_of(source: Source, account: int, first: datetime.date, last: datetime.date, wanted: Language | None = None) -> Paper:
    """The statement of an account between two dates, which the bank has lived; in its first owner's language, if no other is wanted."""
    require_period(list(source.opened), first, last)
    chain = chain_of(list(source.opened), account)
    statement = within(chain, account, first, last)
    owners = [it for it, may in register.holders_of(source.register, account) if may == "owns"]
    language = wanted or language_for(owners, source.settings)
    purposes = notes.purposes(source.register, source.copies, [it.entry for it in statement.lines]) if statement.lines else NO_PURPOSES
    lines = [line_of(it, source, purposes, language) for it in statement.lines]
    home = source.opened[-1].row("SELECT home FROM accounts WHERE account = ?", account)
    return Paper(account, home["home"] if home else 0, number_of(first, last), owners, language, statement, lines)


def accounts_of(copy: Copy, branch: int) -> list[int]:
    """The accounts of a branch."""
    return [int(it["account"]) for it in copy.rows("SELECT account FROM accounts WHERE home = ? ORDER BY account", branch)]


def papers_of(source: Source, branch: int, first: datetime.date, last: datetime.date) -> Iterator[Paper]:
    """The statements of all accounts of a branch that have an owner, one after the other."""
    for account in accounts_of(source.opened[-1], branch):
        paper = paper_of(source, account, first, last)
        if paper.owners:
            yield paper


def source_of(stack: ExitStack, settings: Settings, found: sqlite3.Connection) -> Source:
    """What papers are made of, open as long as the stack is."""
    copies = Copies(settings.copies)
    opened = [stack.enter_context(it) for it in copies.all()]
    return Source(copies, opened, found, reasons.of_entries(opened, settings), settings)
