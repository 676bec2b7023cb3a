"""An office, as one file describes it, and the opening lists of its bank."""
import os
import re
import tomllib
from collections import Counter
from collections.abc import Iterable, Iterator
from dataclasses import dataclass, field
from itertools import pairwise
from typing import Any, NamedTuple

from opening_lists.columns import CENTS, KEY, LISTS, MOST_USER, PROCEDURE, PROCEDURES, Column, whole, write_list
from opening_lists.pairs import APART, meeting
from opening_lists.spreadsheets import SheetRefused, cents_of, records_of

CASH, FLOOR = LISTS["branches"]["cash"], LISTS["accounts"]["floor"]
LIMIT, NAME = LISTS["triples"]["limit"], LISTS["users"]["name"]
# What is done on the set of a branch's own accounts and its day; all else is done on that of its counter.
OF_THE_BRANCH = ("new-account", "accounts", "proof", "close-day")
ROLES = ("teller", "supervisor", "office")
# Those of people.csv, of whom officers and certifiers have no triples.
OFFICES = ("officer", "certifier", *ROLES)
OF_ACCOUNTS, OF_PEOPLE = ("account", "balance", "floor"), ("badge", "name", "role", "branch", "drawer")
MOST_INTERVALS = 32


class Refused(Exception):
    """What is wrong with the file."""


class Account(NamedTuple):
    """An account at the opening."""

    number: int
    balance: int
    floor: int


@dataclass
class Branch:
    """A branch: its cash, the numbers that its accounts may have, the people by badge, the badges by which the office carries out its
    runs, with a drawer each, and the drawers with nobody yet."""

    number: int
    cash: int
    numbers: tuple[int, int]
    supervisors: list[str]
    tellers: dict[str, int]
    spare_drawers: list[int]
    accounts: list[Account]
    office: dict[str, int]

    def drawers(self) -> list[int]:
        """All its drawers, in order."""
        return sorted([*self.tellers.values(), *self.office.values(), *self.spare_drawers])

    def balance(self) -> int:
        """What its accounts have together."""
        return sum(it.balance for it in self.accounts)

    def may(self) -> Iterator[tuple[str, str]]:
        """Each badge that works here, with its role."""
        for role, badges in zip(ROLES, (self.tellers, self.supervisors, self.office)):
            for badge in badges:
                yield badge, role


@dataclass
class Office:
    """An office: who rules, what the roles may do up to which amount, the branches, names of people, and what must not meet in one
    hand, with the reason of each role or badge in whose it does."""

    officers: list[str]
    certifiers: list[str]
    limits: dict[str, dict[str, int]]
    serves_all: bool
    branches: list[Branch]
    names: dict[str, str]
    apart: tuple[tuple[str, str], ...] = APART
    together: dict[str, str] = field(default_factory=dict)

    def has(self) -> dict[str, set[str]]:
        """What each badge may do, wherever."""
        found: dict[str, set[str]] = {}
        for branch in self.branches:
            for badge, role in branch.may():
                found.setdefault(badge, set()).update(self.limits[role])
        return found

    def exceptions(self) -> list[str]:
        """What meets in one hand, each with its reason, or without one."""
        roles: dict[str, set[str]] = {}
        for branch in self.branches:
            for badge, role in branch.may():
                roles.setdefault(badge, set()).add(role)
        found = []
        for badge, one, other in meeting(self.has(), self.apart):
            own = [it for it in roles[badge] if {one, other} <= set(self.limits[it])]
            reason = self.together.get(badge) or next((self.together[it] for it in own if it in self.together), "")
            found.append(f"{badge} may {one} and {other}: {reason}")
        return found

    def users(self) -> dict[str, int]:
        """The user of each badge."""
        at_work = (it for branch in self.branches for it in [*branch.supervisors, *branch.tellers, *branch.office])
        badges = [*self.officers, *self.certifiers, *at_work]
        return {badge: number for number, badge in enumerate(dict.fromkeys(badges), 1)}


# ---- reading the file


def taken(table: dict, where: str, of: dict[str, type]) -> list[Any]:
    """The members of a table, each of which has to be there and of its type, and no other."""
    for name in table:
        if name not in of:
            raise Refused(f"{where}: {name} is not known: there may be {', '.join(of)}")
    for name, kind in of.items():
        # (true and false are whole numbers to Python)
        if name not in table or type(table[name]) is not kind:
            raise Refused(f"{where}: {name} is not there" if name not in table else f"{where}: {name} is no {kind.__name__}")
    return [table[name] for name in of]


def checked(column: Column, value: Any, where: str) -> Any:
    """A value that a column of the lists may have."""
    try:
        return column(str(value))
    except ValueError as why:
        raise Refused(f"{where}: {why}") from why


def read_badge(badge: Any) -> str:
    """A badge, which bank-certificates takes, too."""
    if type(badge) is not str or not re.fullmatch(r"(?!\.)[A-Za-z0-9._-]{1,64}", badge):
        raise Refused(f"badge {badge!r} is not 1 to 64 letters, digits, dots, underscores and hyphens, with no dot first")
    return badge


def read_limits(table: dict, role: str) -> dict[str, int]:
    """What a role may do, and up to which amount."""
    for name in table:
        checked(PROCEDURE, name, role)
    return {name: checked(LIMIT, limit, f"{role}: {name}") for name, limit in table.items()}


def read_numbers(numbers: list, where: str) -> tuple[int, int]:
    """The least and the greatest number that an account of a branch may have."""
    found = [checked(KEY, it, f"{where}: numbers") for it in numbers]
    if len(found) != 2 or found[0] > found[1]:
        raise Refused(f"{where}: numbers is [least, greatest] of its accounts, and not {numbers}")
    return found[0], found[1]


def read_accounts(rows: list, numbers: tuple[int, int], where: str) -> list[Account]:
    """The accounts of a branch."""
    found, columns = [], (whole(*numbers), CENTS, FLOOR)
    for row in rows:
        if type(row) is not list or len(row) != len(columns):
            raise Refused(f"{where}: an account is [number, balance, floor], and not {row}")
        found.append(Account(*(checked(column, value, f"{where}: account {row[0]}") for column, value in zip(columns, row))))
    return found


def read_sheet(folder: str, name: str, columns: tuple[str, ...]) -> list[tuple[str, list[str]]]:
    """The records of a sheet beside the file, each with its place."""
    try:
        return [(f"{name}, line {line}", fields) for line, fields in records_of(os.path.join(folder, name), columns)]
    except SheetRefused as why:
        raise Refused(f"{name}, {why}") from why
    except OSError as why:
        raise Refused(f"{name}: {why.strerror}") from why


def accounts_of_sheet(folder: str, name: str, numbers: tuple[int, int]) -> list[Account]:
    """The accounts of a branch in a sheet, whose amounts are of the currency, and not cents."""
    found = []
    for where, (number, balance, floor) in read_sheet(folder, name, OF_ACCOUNTS):
        try:
            row = number, cents_of(balance), cents_of(floor or "0")
        except SheetRefused as why:
            raise Refused(f"{where}: {why}") from why
        columns = (whole(*numbers), CENTS, FLOOR)
        found.append(Account(*(checked(column, value, f"{where}: {name}") for column, value, name in zip(columns, row, OF_ACCOUNTS))))
    return found


def read_branch(table: dict, folder: str) -> Branch:
    """A branch of the file. Its accounts may be in a sheet."""
    where = f"branch {table.get('number', '')}".strip()
    in_sheet = isinstance(table.get("accounts"), str)
    lists = dict.fromkeys(("numbers", "supervisors", "spare_drawers"), list)
    kinds = {"number": int, "cash": int, "tellers": dict, **lists, "accounts": str if in_sheet else list, "office": dict}
    number, cash, tellers, numbers, supervisors, spare, accounts, office = taken({"office": {}, **table}, where, kinds)
    known = read_numbers(numbers, where)
    return Branch(
        number=checked(KEY, number, where),
        cash=checked(CASH, cash, f"{where}: cash"),
        numbers=known,
        supervisors=[read_badge(it) for it in supervisors],
        tellers={read_badge(badge): checked(KEY, drawer, f"{where}: drawer of {badge}") for badge, drawer in tellers.items()},
        spare_drawers=[checked(KEY, it, f"{where}: spare drawer") for it in spare],
        accounts=accounts_of_sheet(folder, accounts, known) if in_sheet else read_accounts(accounts, known, where),
        office={read_badge(badge): checked(KEY, drawer, f"{where}: drawer of {badge}") for badge, drawer in office.items()},
    )


def add_person(office: Office, where: str, fields: list[str]) -> None:
    """Adds a person of a sheet. A teller, and the office's badge, have a branch and a drawer; a supervisor has a branch."""
    badge, name, role, number, drawer = fields
    read_badge(badge)
    if role not in OFFICES:
        raise Refused(f"{where}: role {role!r} is none of {', '.join(OFFICES)}")
    if name:
        office.names[badge] = checked(NAME, name, f"{where}: name (the office's sheet of users has names as they are written)")
    if role in ("officer", "certifier"):
        (office.officers if role == "officer" else office.certifiers).append(badge)
        return
    branch = next((it for it in office.branches if str(it.number) == number), None)
    if branch is None:
        raise Refused(f"{where}: there is no branch {number!r}")
    if role == "supervisor":
        branch.supervisors.append(badge)
        return
    (branch.tellers if role == "teller" else branch.office)[badge] = checked(KEY, drawer, f"{where}: drawer")


def read_pairs(rows: Any) -> tuple[tuple[str, str], ...]:
    """What must not meet in one hand."""
    for it in rows:
        if not isinstance(it, list) or len(it) != 2 or it[0] == it[1]:
            raise Refused(f"apart: a pair is as ['post', 'release'], and not {it}")
    return tuple((checked(PROCEDURE, one, "apart"), checked(PROCEDURE, other, "apart")) for one, other in rows)


def require_distinct(found: Iterable, what: str) -> None:
    """Refuses what stands twice."""
    for it, count in Counter(found).items():
        if count > 1:
            raise Refused(f"{what} {it} stands twice")


def require_people(office: Office) -> None:
    """Refuses people whom the lists would not allow."""
    badges = office.users()
    at_work = {badge for it in office.branches for badge, _ in it.may()}
    require_distinct([*office.officers, *office.certifiers, *at_work], "badge")
    for badge in badges:
        checked(NAME, office.names.get(badge, badge), f"the name of {badge}")
    for badge in office.names:
        if badge not in badges:
            raise Refused(f"names: {badge} is nobody's badge")
    if not office.certifiers:
        raise Refused("certifiers: there is none, and so nobody who certified what the roles may do")
    if len(badges) > MOST_USER:
        raise Refused(f"{len(badges)} users, and at most {MOST_USER} may be")


def require_apart(office: Office) -> None:
    """Refuses what meets in one hand without a reason, a reason of nothing, and the office's badge in a person's hand."""
    for branch in office.branches:
        for badge in branch.office:
            if any(badge in [*it.tellers, *it.supervisors] for it in office.branches):
                raise Refused(f"badge {badge} is the office's, and nobody else's")
    for name, reason in office.together.items():
        if name not in (*ROLES, *office.has()) or not isinstance(reason, str) or not reason.strip():
            raise Refused(f"together: {name} is a role or a badge, with a reason")
    lacking = [it.removesuffix(": ") for it in office.exceptions() if it.endswith(": ")]
    if lacking:
        raise Refused(f"{'; '.join(lacking)}: what must not meet in one hand: take one away, or give the reason under [together]")


def require_branches(office: Office) -> None:
    """Refuses branches that the lists would not allow, or that nothing could be done at."""
    branches = office.branches
    require_distinct((it.number for it in branches), "branch")
    require_distinct((drawer for it in branches for drawer in it.drawers()), "drawer")
    require_distinct((account.number for it in branches for account in it.accounts), "account")
    for one, other in pairwise(sorted(branches, key=lambda it: it.numbers)):
        if other.numbers[0] <= one.numbers[1]:
            raise Refused(f"branch {other.number}: its accounts have numbers of branch {one.number}, too")
    for it in branches:
        if not it.drawers():
            raise Refused(f"branch {it.number}: it has no drawer, and none can be made later")
        if len(counter_set(office, it)) > MOST_INTERVALS:
            raise Refused(f"branch {it.number}: its counter's set has too many intervals: number its drawers in a row")


def read_office(text: str, folder: str = "") -> Office:
    """The office that a file describes, with sheets in its folder."""
    try:
        table = tomllib.loads(text)
    except tomllib.TOMLDecodeError as why:
        raise Refused(str(why)) from why
    lists, tables = dict.fromkeys(("officers", "certifiers", "branch", "apart"), list), dict.fromkeys(("names", "together", *ROLES), dict)
    unsaid = {"names": {}, "together": {}, "office": {}, "people": "", "apart": [list(it) for it in APART]}
    found = taken({**unsaid, **table}, "the file", {**lists, "serves_all": bool, "people": str, **tables})
    officers, certifiers, branches, apart, serves_all, people, names, together, *limits = found
    office = Office(
        officers=[read_badge(it) for it in officers],
        certifiers=[read_badge(it) for it in certifiers],
        limits={role: read_limits(found, role) for role, found in zip(ROLES, limits)},
        serves_all=serves_all,
        branches=[read_branch(it, folder) for it in branches],
        names=names,
        apart=read_pairs(apart),
        together=together,
    )
    for where, fields in read_sheet(folder, people, OF_PEOPLE) if people else ():
        add_person(office, where, fields)
    require_people(office)
    require_branches(office)
    require_apart(office)
    return office


# ---- writing the lists


def in_a_row(numbers: list[int]) -> list[tuple[int, int]]:
    """Numbers in order as intervals."""
    found: list[tuple[int, int]] = []
    for it in numbers:
        low = found.pop()[0] if found and found[-1][1] + 1 == it else it
        found.append((low, it))
    return found


def own_set(branch: Branch) -> list[tuple[str, int, int]]:
    """The set of a branch's own accounts and its day."""
    return [("account", *branch.numbers), *((kind, branch.number, branch.number) for kind in ("branch", "history", "vault"))]


def counter_set(office: Office, branch: Branch) -> list[tuple[str, int, int]]:
    """The set of what is done at a branch's counter."""
    served = sorted(it.numbers for it in office.branches) if office.serves_all else [branch.numbers]
    drawers = in_a_row(branch.drawers())
    return [
        *(("account", *it) for it in served),
        *(("teller", *it) for it in drawers),
        *(("drawer", *it) for it in drawers),
        *((kind, branch.number, branch.number) for kind in ("branch", "history", "vault")),
    ]


def sets_of(office: Office) -> dict[int, list[tuple[str, int, int]]]:
    """The sets by number: of the first branch 1 and 2, of the next 3 and 4, and so on."""
    found = {}
    for place, branch in enumerate(office.branches):
        found[2 * place + 1], found[2 * place + 2] = own_set(branch), counter_set(office, branch)
    return found


def set_for(procedure: str, place: int) -> int:
    """The set on which a procedure is done at the branch of this place."""
    return 2 * place + (1 if procedure in OF_THE_BRANCH else 2)


def triples_of(office: Office) -> Iterator[tuple[int, str, int, int]]:
    """What each user may do. Who has both roles has the higher limit."""
    users = office.users()
    limits: dict[tuple[int, str, int], int] = {}
    for place, branch in enumerate(office.branches):
        for badge, role in branch.may():
            for procedure, limit in office.limits[role].items():
                key = (users[badge], procedure, set_for(procedure, place))
                limits[key] = max(limit, limits.get(key, 0))
    return ((*key, limit) for key, limit in sorted(limits.items()))


def rows_of(office: Office) -> dict[str, list[tuple]]:
    """The rows of each list. What a branch's accounts have together stands at its first drawer."""
    users, branches = office.users(), office.branches
    used = [it for it in PROCEDURES if any(it in limits for limits in office.limits.values())]
    certifiers = [users[it] for it in office.certifiers]
    return {
        "branches": [(it.number, it.balance(), it.cash) for it in branches],
        "tellers": [
            (drawer, it.number, it.balance() if drawer == it.drawers()[0] else 0) for it in branches for drawer in it.drawers()
        ],
        "accounts": [(it.number, branch.number, it.balance, it.floor) for branch in branches for it in branch.accounts],
        "users": [(number, office.names.get(badge, badge), int(badge in office.officers)) for badge, number in users.items()],
        "sets": [(number, *interval) for number, found in sets_of(office).items() for interval in found],
        "relations": [(it, set_for(it, place), certifiers[0]) for place in range(len(branches)) for it in used],
        "triples": list(triples_of(office)),
        "certifiers": [(user, it) for user in certifiers for it in PROCEDURES],
        "badges": list(users.items()),
    }


def write_office(office: Office, folder: str) -> str:
    """Writes the lists of an office into a folder that is not there yet, and returns what they have, in one line."""
    os.makedirs(folder)
    rows = rows_of(office)
    for name in LISTS:
        write_list(folder, name, rows[name])
    written = {"branches": "branches", "tellers": "drawers", "accounts": "accounts", "users": "users", "triples": "triples"}
    return ", ".join([*(f"{len(rows[it])} {what}" for it, what in written.items()), f"{len(sets_of(office))} sets"])
