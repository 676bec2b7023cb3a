"""The bank's policy and what it lets a user do: the rules for access, once for branch and office.

A policy is a dictionary of its rows, by what each is of: a user, whether one is suspended, a set, a relation, a triple, a certifier.
The bank itself is the judge. What is said here is for what looks at a copy of it, or at its log.
"""
import sqlite3
from collections.abc import Iterable, Iterator, Mapping
from enum import IntEnum
from typing import Any

from .procedures import NAMES

Key = tuple[Any, ...]
Policy = dict[Key, list[Any]]
# The members of an operation with its `procedure`; that of a release has an `operation` in it.
Operation = Mapping[str, Any]
# The last moment of a triple that is valid for ever.
FOREVER = 99_999_999_999


class Kind(IntEnum):
    """What an item of a set is."""

    ACCOUNT = 1
    TELLER = 2
    BRANCH = 3
    HISTORY = 4
    DRAWER = 5
    VAULT = 6


Item = tuple[Kind, int]

# What an operation touches: of its branch, and by its members. A drawer is touched with its teller, and one of number 0 is the vault.
OF_BRANCH, WITH_ENTRIES, WITH_CASH = [Kind.BRANCH], [Kind.BRANCH, Kind.HISTORY], [Kind.BRANCH, Kind.VAULT]
PROVED = ([Kind.BRANCH, Kind.HISTORY, Kind.VAULT],)
TELLER, ACCOUNT = (Kind.DRAWER, "teller"), (Kind.ACCOUNT, "account")
TOUCHES: dict[str, tuple[Any, ...]] = {
    "post": (WITH_ENTRIES, TELLER, ACCOUNT),
    "transfer": (WITH_ENTRIES, TELLER, (Kind.ACCOUNT, "source"), (Kind.ACCOUNT, "target")),
    "correct": (WITH_ENTRIES, TELLER, ACCOUNT, (Kind.ACCOUNT, "other")),
    "drawer-on": (WITH_CASH, TELLER),
    "drawer-off": (WITH_CASH, TELLER),
    "move-cash": (OF_BRANCH, (Kind.DRAWER, "source"), (Kind.DRAWER, "target")),
    "new-account": (OF_BRANCH, ACCOUNT),
    "balance": ([], ACCOUNT),
    "statement": ([], ACCOUNT),
    "accounts": ([],),
    "proof": PROVED,
    "close-day": PROVED,
}


def policy_of(bank: sqlite3.Connection) -> Policy:
    """The policy of a bank's file."""
    found: Policy = {}
    for user, name, officer, suspended in bank.execute("SELECT user_no, name, officer, suspended FROM users"):
        found["user", user] = [name, bool(officer)]
        if suspended:
            found["suspended", user] = [True]
    for number, kind, low, high in bank.execute("SELECT set_no, kind, low, high FROM members ORDER BY set_no, place"):
        found.setdefault(("set", number), []).append([kind, low, high])
    for procedure, number, user in bank.execute("SELECT procedure, set_no, by_user FROM relations"):
        found["relation", NAMES[procedure], number] = [user]
    for user, procedure, number, *limits in bank.execute("SELECT user_no, procedure, set_no, ceiling, first_at, last_at FROM grants"):
        found["triple", user, NAMES[procedure], number] = limits
    for user, procedure in bank.execute("SELECT user_no, procedure FROM certifiers"):
        found["certifier", user, NAMES[procedure]] = [True]
    return found


def put(policy: Policy, said: Mapping[Key, list[Any] | None]) -> None:
    """Has a policy say what was said of its rows."""
    for key, value in said.items():
        if value is None:
            policy.pop(key, None)
        else:
            policy[key] = value


def narrowed(policy: Policy, later: Policy) -> Policy:
    """What of a policy is left in a later one. Nothing begins by it: a triple has the lower limit and the shorter time of both."""
    found = policy | {key: value for key, value in later.items() if key[0] == "suspended"}
    for key, (limit, first, last) in ((key, value) for key, value in policy.items() if key[0] == "triple"):
        if key in later:
            own = later[key]
            found[key] = [min(limit, own[0]), max(first, own[1]), min(last, own[2])]
        else:
            del found[key]
    return found


def is_active(policy: Policy, user: int) -> bool:
    """Whether a user is there and not suspended."""
    return ("user", user) in policy and ("suspended", user) not in policy


def is_officer(policy: Policy, user: int) -> bool:
    """Whether a user is an officer, to whom the bank lists its policy."""
    return is_active(policy, user) and bool(policy["user", user][1])


def holds(policy: Policy, number: int, item: Item) -> bool:
    """Whether a set has an item."""
    kind, key = item
    return any(it == kind and low <= key <= high for it, low, high in policy.get(("set", number), []))


def sets_of(policy: Policy, user: int, procedure: str, moment: float, amount: int = 0) -> Iterator[int]:
    """The sets on which a user has a triple for a procedure that is valid at a moment, up to an amount."""
    for key, value in policy.items():
        if key[:3] == ("triple", user, procedure):
            limit, first, last = value
            if amount <= limit and first <= moment <= last:
                yield key[3]


def has_triple(policy: Policy, user: int, procedure: str, items: Iterable[Item], moment: float, amount: int = 0) -> bool:
    """Whether one triple of a user that is valid at a moment holds all items, up to an amount."""
    wanted = list(items)
    return any(all(holds(policy, it, item) for item in wanted) for it in sets_of(policy, user, procedure, moment, amount))


def may(policy: Policy, user: int, procedure: str, items: Iterable[Item], moment: float, amount: int = 0) -> bool:
    """Whether a user who is not suspended has such a triple."""
    return is_active(policy, user) and has_triple(policy, user, procedure, items, moment, amount)


def accounts_seen(policy: Policy, user: int, moment: int) -> list[tuple[int, int]]:
    """The ranges of accounts that the bank lists to a user, or whose balance or statement it shows to them."""
    names = ("accounts", "balance", "statement") if is_active(policy, user) else ()
    sets = {number for name in names for number in sets_of(policy, user, name, moment)}
    members = (member for number in sets for member in policy.get(("set", number), []))
    return sorted({(low, high) for kind, low, high in members if kind == Kind.ACCOUNT})


def sees_branch(policy: Policy, user: int, branch: int, moment: int) -> bool:
    """Whether the bank lists the proof of a branch to a user."""
    return may(policy, user, "proof", touched({"procedure": "proof", "branch": branch}), moment)


def touched(operation: Operation) -> list[Item]:
    """The items that an operation touches, as the bank's rules have them."""
    if operation["procedure"] == "release":
        return touched(operation["operation"])
    of_branch, *own = TOUCHES[operation["procedure"]]
    found = {(kind, operation["branch"]) for kind in of_branch}
    for kind, name in own:
        number = operation[name]
        if kind == Kind.DRAWER and not number:
            found.add((Kind.VAULT, operation["branch"]))
        elif kind == Kind.DRAWER:
            found |= {(Kind.TELLER, number), (Kind.DRAWER, number)}
        elif number:
            found.add((kind, number))
    return sorted(found)


def amount_of(operation: Operation) -> int:
    """The amount of an operation that a limit is compared with."""
    if operation["procedure"] == "release":
        return amount_of(operation["operation"])
    return abs(int(next((operation[it] for it in ("delta", "amount", "cash", "floor") if it in operation), 0)))
