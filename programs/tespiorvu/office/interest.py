"""What a run pays or takes: interest on each day's closing balance, and fees.

Interest of a period is the sum over its days of the balance at the day's end, where that is above zero, times the rate of a year,
divided by 365; it is rounded once, per account and run, to the nearest whole cent, and up at one half.
"""
import datetime
from collections.abc import Iterator
from decimal import Decimal
from typing import NamedTuple

from .copies import Copy
from .languages import Sentence
from .money import half_up, parts_of, units
from .periods import begins
from .settings import Scheme
from .statements import Chain, chain_of

MILLION = 1_000_000
DAYS_PER_YEAR = 365


class Transfer(NamedTuple):
    """One transfer of a run, or one part of an amount above what an entry can move."""

    account: int
    part: int
    parts: int
    source: int
    target: int
    amount: int
    why: Sentence


def dates_of(first: datetime.date, last: datetime.date) -> Iterator[datetime.date]:
    """All days of a period."""
    for day in range((last - first).days + 1):
        yield first + datetime.timedelta(day)


def closing_balances(chain: Chain, first: datetime.date, last: datetime.date) -> list[int]:
    """The balance of an account at the end of each day: after the last entry, by its turn, that was made by then."""
    balances, at, balance = list[int](), 0, chain.opening
    for date in dates_of(first, last):
        end = begins(date + datetime.timedelta(1))
        while at < len(chain.lines) and chain.lines[at].entry.moment < end:
            balance = chain.lines[at].entry.balance_after
            at += 1
        balances.append(balance)
    return balances


def interest_of(balances: list[int], millionths: int) -> int:
    """The cents of interest on these closing balances."""
    return half_up(sum(it for it in balances if it > 0) * millionths, MILLION * DAYS_PER_YEAR)


def in_parts(account: int, source: int, target: int, cents: int, why: Sentence) -> list[Transfer]:
    """An amount as transfers, each of which one entry can move."""
    parts = parts_of(cents)
    return [Transfer(account, number, len(parts), source, target, amount, why) for number, amount in enumerate(parts, 1)]


def transfers_of(copies: list[Copy], scheme: Scheme, first: datetime.date, last: datetime.date) -> list[Transfer]:
    """The transfers of one scheme: between each account of its branch and the account that is kept for this."""
    found: list[Transfer] = []
    query = "SELECT account FROM accounts WHERE home = ? AND account BETWEEN ? AND ? AND account != ? ORDER BY account"
    for row in copies[-1].rows(query, scheme.branch, scheme.low, scheme.high, scheme.account):
        account = int(row["account"])
        if scheme.kind == "fee":
            why = Sentence("fee of {amount}", amount=units(scheme.cents))
            found += in_parts(account, account, scheme.account, scheme.cents, why)
            continue
        cents = interest_of(closing_balances(chain_of(copies, account), first, last), scheme.millionths)
        rate = Decimal(scheme.millionths) / 10_000
        why = Sentence("interest of {amount} at {rate} %", amount=units(cents), rate=rate)
        found += in_parts(account, scheme.account, account, cents, why)
    return found
