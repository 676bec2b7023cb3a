"""Forgets a holder: once the term after their last account is over, their name, address, document and note are dropped, also from the
changes. Their number stays, and which accounts were theirs when.
"""
import datetime
import sqlite3

from . import chain
from .register import Holder, accounts_of, holder_of
from .store import Refused, changing, note_change, now


def forgotten(number: int, since: str) -> Holder:
    """What stays of a holder."""
    return Holder(number, f"Holder {number}", since=since)


def last_change(found: sqlite3.Connection, number: int) -> int:
    """The moment of the last change of a holder or of an account of theirs."""
    row = found.execute(
        "SELECT max(moment) AS moment FROM changes WHERE what = 'holder' AND row = ? OR what = 'holding' AND row LIKE ?",
        (str(number), f"% {number}"),
    ).fetchone()
    return int(row["moment"] or 0)


def ends(found: sqlite3.Connection, number: int, years: int) -> datetime.date:
    """The date on which the term of a holder without an account is over."""
    last = datetime.date.fromtimestamp(last_change(found, number))
    return datetime.date(last.year + years, last.month, min(last.day, 28))


def due(found: sqlite3.Connection, years: int) -> list[Holder]:
    """The holders whose term is over, and who are not forgotten yet."""
    rows = found.execute("SELECT * FROM holders WHERE holder NOT IN (SELECT holder FROM holdings) ORDER BY holder").fetchall()
    today = datetime.date.fromtimestamp(now())
    return [
        it
        for it in (Holder(*row) for row in rows)
        if it != forgotten(it.holder, it.since) and ends(found, it.holder, years) <= today
    ]


def drop(found: sqlite3.Connection, badge: str, it: Holder) -> None:
    """Drops all of a holder but the number, also from the changes, within the transaction that is open."""
    stays = forgotten(it.holder, it.since)
    columns = ", ".join(f"{name} = ?" for name in Holder._fields[1:])
    found.execute(f"UPDATE holders SET {columns} WHERE holder = ?", (*stays[1:], it.holder))
    found.execute("DELETE FROM name_words WHERE holder = ?", (it.holder,))
    chain.drop_texts(found, "holder", str(it.holder))
    note_change(found, badge, "holder", str(it.holder), None, stays._asdict())


def forget(found: sqlite3.Connection, badge: str, number: int, years: int) -> None:
    """Drops what is known of a holder, but for the number."""
    with changing(found):
        it = holder_of(found, number)
        if it is None:
            raise Refused("There is no holder {number}", number=number)
        if own := accounts_of(found, number):
            raise Refused("Holder {number} has account {account}: say first that it is no longer theirs",
                          number=number, account=own[0].account)  # fmt: skip
        if (date := ends(found, number, years)) > datetime.date.fromtimestamp(now()):
            raise Refused("Holder {number} is kept until {date}, {years} years after their last account",
                          number=number, date=date, years=years)  # fmt: skip
        drop(found, badge, it)
