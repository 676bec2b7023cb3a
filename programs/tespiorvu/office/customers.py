"""Customers as the counter sees them: who owns an account and who may act, and new ones, whom a teller proposes with an account and a
second person accepts. Until then their name bears a mark wherever it is shown.
"""
import sqlite3
from collections.abc import Iterable
from typing import Any, NamedTuple

from ..policy import Kind, may
from .copies import Copies, Copy
from .forgetting import drop
from .register import Holder, Holding, accounts_of, holder_of, holders_of, put_holder, put_holding, spaced
from .store import Refused, Taken, changing, now

# What is shown of each holder beside an account. What else the register has is for those who keep it.
SHOWN = ("holder", "name", "address", "born", "warning", "proposer")
# What a teller types of a new customer.
TYPED = ("name", "address", "born", "document")
# The procedures whose triples an account is opened, and a customer accepted by.
OPENS, ACCEPTS = "new-account", "release"


class Proposal(NamedTuple):
    """A new customer who waits for a second person, with the accounts that would be theirs."""

    holder: Holder
    accounts: list[int]


def shown(it: Holder) -> dict[str, Any]:
    """What the counter sees of a holder."""
    return {name: getattr(it, name) for name in SHOWN}


def facts_of(found: sqlite3.Connection, copy: Copy, user: int, account: int) -> dict[str, Any]:
    """Who holds an account, and how low it may be, for users to whom the bank shows its balance."""
    row = copy.row("SELECT floor FROM accounts WHERE account = ?", account)
    sees_balance = may(copy.policy, user, "balance", [(Kind.ACCOUNT, account)], now())
    holders = [{**shown(it), "may": role} for it, role in holders_of(found, account)]
    return {"holders": holders, "floor": row["floor"] if row and sees_balance else None}


def next_number(found: sqlite3.Connection) -> int:
    """The number after the greatest that a holder has."""
    return int(found.execute("SELECT coalesce(max(holder), 0) + 1 FROM holders").fetchone()[0])


def propose(found: sqlite3.Connection, copy: Copy, badge: str, user: int, account: int, texts: dict[str, str]) -> Holder:
    """Keeps a new customer as the owner of an account that the teller may open and that has no holder, as proposed by the teller. The
    same once more, as where no reply came, is kept once."""
    if not may(copy.policy, user, OPENS, [(Kind.ACCOUNT, account)], now()):
        raise Refused("The bank lets you open no account {account}", account=account)
    texts = {**texts, "name": spaced(texts["name"])}
    with changing(found):
        own = [it for it, _ in holders_of(found, account)]
        for it in own:
            if it.proposer == badge and all(getattr(it, name) == texts[name] for name in TYPED):
                return it
        if own:
            raise Taken("Account {account} has a holder", account=account)
        it = Holder(next_number(found), **texts, proposer=badge)
        put_holder(found, badge, it)
        put_holding(found, badge, Holding(account, it.holder, "owns"))
    return it


def proposals(found: sqlite3.Connection) -> Iterable[Proposal]:
    """All who wait for a second person, the first proposed first."""
    rows = found.execute("SELECT * FROM holders WHERE proposer != '' ORDER BY holder").fetchall()
    return [Proposal(Holder(*row), [one.account for one in accounts_of(found, row["holder"])]) for row in rows]


def may_accept(copy: Copy, copies: Copies, badge: str, user: int, is_keeper: bool, one: Proposal) -> bool:
    """Whether a user could accept a proposal: not whoever made it, also by another badge of theirs; and who keeps the register, or may
    release what is done on an account that would be theirs."""
    if badge == one.holder.proposer or user == copies.user_of(one.holder.proposer):
        return False
    return is_keeper or any(may(copy.policy, user, ACCEPTS, [(Kind.ACCOUNT, it)], now()) for it in one.accounts)


def proposal_of(found: sqlite3.Connection, number: int) -> Proposal:
    """A proposal, which has to wait."""
    it = holder_of(found, number)
    if it is None or not it.proposer:
        raise Taken("Customer {number} waits for nobody", number=number)
    return Proposal(it, [one.account for one in accounts_of(found, number)])


def accept(found: sqlite3.Connection, badge: str, number: int) -> Holder:
    """A second person has looked at a proposal: from now on the name bears no mark."""
    it = proposal_of(found, number).holder._replace(proposer="")
    put_holder(found, badge, it)
    return it


def withdraw(found: sqlite3.Connection, badge: str, number: int) -> None:
    """Takes a proposal back: the account has no holder, and of the customer their number stays alone."""
    one = proposal_of(found, number)
    for account in one.accounts:
        put_holding(found, badge, Holding(account, number, "none"))
    drop(found, badge, one.holder)
