"""Periods of days that a bank has lived: from the day of its first entry or cash line to the last that is over by its newest copy."""
import datetime
import time

from .copies import Copy
from .store import Refused

MOST_DAYS = 3_660
DAY = datetime.timedelta(1)


def begins(date: datetime.date) -> int:
    """The moment at which a date begins by the machine's clock."""
    return int(time.mktime((date.year, date.month, date.day, 0, 0, 0, 0, 0, -1)))


def first_date(copies: list[Copy]) -> datetime.date | None:
    """The date of the first entry or cash line of all branches; none if the bank has none yet."""
    for copy in copies:
        moments = [
            it["moment"]
            for table in ("entries", "lines")
            for it in copy.rows(f"SELECT moment FROM branches JOIN {table} USING (branch) WHERE {table}.number = 1")
        ]
        if moments:
            return datetime.date.fromtimestamp(min(moments))
    return None


def last_date(copies: list[Copy]) -> datetime.date:
    """The last date that is over by the newest copy."""
    return datetime.date.fromtimestamp(copies[-1].made) - DAY


def require_period(copies: list[Copy], first: datetime.date, last: datetime.date) -> None:
    """Refuses a period that the bank has not lived, or that is too long."""
    if first > last:
        raise Refused("{first} is after {last}", first=first, last=last)
    if (last - first).days >= MOST_DAYS:
        raise Refused("{first} to {last} is no period: at most {most} days", first=first, last=last, most=MOST_DAYS)
    begun, over = first_date(copies), last_date(copies)
    if begun is None:
        raise Refused("The bank has no entry and no cash line yet, by its newest copy")
    if first < begun:
        raise Refused("The bank's first day is {begun}: a period begins then, or later", begun=begun)
    if last > over:
        made = datetime.datetime.fromtimestamp(copies[-1].made)
        raise Refused("{last} is not over by the newest copy, of {made}: a period ends on {over}, or before",
                      last=last, made=made, over=over)  # fmt: skip


def usual_period(copies: list[Copy]) -> tuple[datetime.date, datetime.date]:
    """From the first of January, or the bank's first day, to the last day that is over."""
    last, begun = last_date(copies), first_date(copies)
    first = datetime.date(last.year, 1, 1)
    return max(first, begun) if begun else first, last
