"""The statement of an account over all years: the files of closed years and the present one, joined by the account's balances."""
import datetime
from contextlib import ExitStack
from typing import NamedTuple

from .books import ENTRIES, Entry
from .copies import Copies, Copy
from .periods import begins, require_period
from .store import Refused


class Line(NamedTuple):
    """An entry in a statement, and the file that has it."""

    copy: str
    entry: Entry


class Statement(NamedTuple):
    """What an account did from one date to another, both included."""

    account: int
    first: datetime.date
    last: datetime.date
    opening: int
    lines: list[Line]
    closing: int
    until: int


class Chain(NamedTuple):
    """All entries of an account over all files, and the balance before the first of them."""

    opening: int
    lines: list[Line]
    until: int


def date_of(text: str) -> datetime.date:
    """A date that was typed, of a year that a bank can have."""
    date = datetime.date.fromisoformat(text)
    if not 1970 <= date.year <= 2999:
        raise ValueError(f"{date} is of no year of a bank")
    return date


def chain_of(copies: list[Copy], account: int) -> Chain:
    """The entries of an account in the order of its turns, year by year. A balance that does not follow is refused."""
    opening: int | None = None
    balance, lines, until = 0, list[Line](), 0
    for copy in copies:
        until = copy.made
        found = copy.row("SELECT opening FROM accounts WHERE account = ?", account)
        if found is None:
            continue
        if opening is None:
            opening = balance = found["opening"]
        if found["opening"] != balance:
            raise Refused("Account {account} begins {name} with {opening} cents, and ended the year before with {balance}",
                          account=account, name=copy.name, opening=found["opening"], balance=balance)  # fmt: skip
        for row in copy.rows(f"{ENTRIES} WHERE it.account = ? ORDER BY it.turn", account):
            entry = Entry(*row)
            balance += entry.delta
            if entry.balance_after != balance:
                raise Refused("Account {account}, {name}, turn {turn}: {after} cents after it, and not {balance}",
                              account=account, name=copy.name, turn=entry.turn, after=entry.balance_after,
                              balance=balance)  # fmt: skip
            lines.append(Line(copy.name, entry))
    if opening is None:
        raise Refused("There is no account {account} in the copies", account=account)
    return Chain(opening, lines, until)


def within(chain: Chain, account: int, first: datetime.date, last: datetime.date) -> Statement:
    """The part of a chain between two dates. A clock that was set back moves no line: they stay in the order of the turns."""
    if first > last:
        raise Refused("{first} is after {last}", first=first, last=last)
    start, end = begins(first), begins(last + datetime.timedelta(1))
    moments = [it.entry.moment for it in chain.lines]
    low = next((at for at, moment in enumerate(moments) if moment >= start), len(moments))
    high = next((at for at in range(len(moments), 0, -1) if moments[at - 1] < end), 0)
    shown = chain.lines[low : max(low, high)]
    opening = chain.lines[low - 1].entry.balance_after if low else chain.opening
    return Statement(account, first, last, opening, shown, shown[-1].entry.balance_after if shown else opening, chain.until)


def statement(copies: Copies, account: int, first: datetime.date, last: datetime.date) -> Statement:
    """The statement of an account between two dates, which the bank has lived."""
    with ExitStack() as stack:
        opened = [stack.enter_context(it) for it in copies.all()]
        require_period(opened, first, last)
        found = within(chain_of(opened, account), account, first, last)
    return found
