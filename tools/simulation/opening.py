"""The opening of a bank, drawn by a seed: two to five branches, a dozen users and a policy, with numbers and amounts at
both ends of their ranges; and its badges."""
import csv
import os
from random import Random
from typing import NamedTuple

from model.bank import KINDS, MOST_CENTS, MOST_KEY, MOST_MOMENT, OF_SUPERVISORS_ALONE, OF_TELLERS, OPERATIONS
from model.bank import PROCEDURES, Interval, Triple
from model.pairs import write_lists
from simulation.ledger import LongBank

# The interval of the account numbers of each branch.
Ranges = dict[int, tuple[int, int]]

# The moment at which the first day begins, and how long a day is.
FIRST_MOMENT = 1_700_000_000
DAY = 86_400
EVERYTHING = 1
OF_SUPERVISORS = [*OF_SUPERVISORS_ALONE, "balance", "accounts", "statement"]
MOST_USER = 9_999
# The members that limits are of; the operations that come to an amount, and the most that one can come to.
AMOUNTS = ("delta", "amount", "cash", "floor")
LIMITED = {"release": 999_999} | {
    name: max(-form[0], form[1])
    for name, members in OPERATIONS.items()
    for member, form in members.items()
    if member in AMOUNTS and not isinstance(form, str)
}
NAMES = (
    *("Ann", "Bo", 'Cy, the "Younger"', "Dora of the far Hills", "Ed", "Flo-Marie O'Neill", "~"),
    *("Gus", "Hal", "Ida", "Jo", "Kit", "Lee", "Mia"),
)
BADGE_BYTES = "".join(chr(it) for it in range(0x21, 0x7F))
# Within how many days triples begin or end.
MOMENTS_WITHIN = 30
# So often an amount or a number that is drawn is one at an end of its range.
AT_AN_END = 0.15


class Staff(NamedTuple):
    """The users by what they do."""

    officers: list[int]
    certifiers: list[int]
    tellers: list[int]
    supervisors: list[int]

    def all(self) -> list[int]:
        return [*self.officers, *self.certifiers, *self.tellers, *self.supervisors]


class Opening(NamedTuple):
    """A bank as it opens, who does what there, and the badge of each user."""

    bank: LongBank
    staff: Staff
    badges: dict[int, str]
    ranges: Ranges


def numbers(rng: Random, count: int, most: int) -> list[int]:
    """So many numbers from 1 to this one, sometimes with those at the ends."""
    found: set[int] = set()
    if rng.random() < 0.5:
        found |= {1, most}
    while len(found) < count:
        found.add(rng.randint(1, most if rng.random() < AT_AN_END else min(most, 999)))
    return sorted(found)[:count] if rng.random() < 0.5 else sorted(found, reverse=True)[:count]


def staff_of(rng: Random) -> Staff:
    """A dozen users."""
    sizes = (rng.randint(1, 2), rng.randint(2, 3), rng.randint(4, 7), rng.randint(1, 2))
    drawn = numbers(rng, sum(sizes), MOST_USER)
    rng.shuffle(drawn)
    groups = []
    for size in sizes:
        groups.append(drawn[:size])
        drawn = drawn[size:]
    return Staff(*groups)


def badge(rng: Random, taken: set[str]) -> str:
    """A badge that nobody has; one is as long as one may be."""
    while True:
        size = rng.choice([1, 2, 6, 6, 6, 64])
        found = "".join(rng.choice(BADGE_BYTES) for _ in range(size))
        if found not in taken and '"' not in found and not found.startswith("#"):
            return found


def badges_of(rng: Random, users: list[int]) -> dict[int, str]:
    """The badge of each user."""
    found: dict[int, str] = {}
    for it in users:
        found[it] = badge(rng, set(found.values()))
    return found


def amount(rng: Random, most: int) -> int:
    """An amount that a place is opened with."""
    return rng.choice([0, most]) if rng.random() < AT_AN_END else rng.randint(0, min(most, 90_000_000))


def vault(rng: Random) -> int:
    """The cash that a vault is opened with; some is near the end of its range."""
    return MOST_CENTS - rng.randint(0, 2_000_000) if rng.random() < AT_AN_END else 100_000_000 + amount(rng, MOST_KEY)


def parts_of(rng: Random, total: int, names: list[int], most: int) -> dict[int, int]:
    """An amount of either sign for each name, none beyond this one, that come to this in all."""
    found: dict[int, int] = {}
    left = total
    for at, name in enumerate(names, 1):
        others = (len(names) - at) * most
        low, high = max(-most, left - others), min(most, left + others)
        drawn = left if at == len(names) else rng.randint(max(low, -50_000), max(min(high, 90_000_000), max(low, -50_000)))
        found[name] = min(max(drawn, low), high)
        left -= found[name]
    return found


def opened_books(bank: LongBank, rng: Random) -> Ranges:
    """Draws branches, tellers and accounts, and returns the interval of the account numbers of each branch."""
    branches = numbers(rng, rng.randint(2, 5), MOST_KEY)
    tellers = numbers(rng, len(branches) * rng.randint(2, 3), MOST_KEY)
    of_branch = {it: branches[at % len(branches)] for at, it in enumerate(tellers)}
    size = MOST_KEY // len(branches)
    ranges = {it: (at * size + 1, MOST_KEY if at + 1 == len(branches) else (at + 1) * size) for at, it in enumerate(branches)}
    accounts: dict[int, tuple[int, int, int]] = {}
    for branch, (low, high) in ranges.items():
        for number in {low, high, *(low + rng.randint(1, 60) for _ in range(rng.randint(3, 8)))}:
            floor = rng.choice([0, 0, 0, -50_000, -MOST_KEY])
            is_full = rng.random() < 0.05 and all(it[1] < MOST_CENTS for it in accounts.values())
            balance = MOST_CENTS if is_full else amount(rng, 999_999)
            accounts[number] = (branch, balance, floor)
    total = sum(balance for _, balance, _ in accounts.values())
    sums = parts_of(rng, total, branches, MOST_CENTS)
    openings: dict[int, int] = {}
    for branch, balance in sums.items():
        openings |= parts_of(rng, balance, [it for it in tellers if of_branch[it] == branch], MOST_CENTS)
    bank.accounts = dict(sorted(accounts.items()))
    bank.tellers = {it: (of_branch[it], openings[it]) for it in tellers}
    bank.branches = {it: (sums[it], vault(rng)) for it in branches}
    bank.days = dict.fromkeys(branches, 1)
    return ranges


def opened_sets(bank: LongBank, ranges: Ranges) -> tuple[dict[int, int], dict[int, int]]:
    """One set that holds everything, and for each branch one that holds it and one that holds its accounts."""
    bank.sets = {EVERYTHING: [(kind, 1, MOST_KEY) for kind in KINDS]}
    of_branch: dict[int, int] = {}
    of_accounts: dict[int, int] = {}
    for at, (branch, span) in enumerate(ranges.items(), 2):
        tellers = [it for it, (home, _) in bank.tellers.items() if home == branch]
        members: list[Interval] = [("account", *span), *((kind, it, it) for it in tellers for kind in ("teller", "drawer"))]
        bank.sets[at] = [*members, *((kind, branch, branch) for kind in ("branch", "history", "vault"))]
        bank.sets[at + 100] = [("account", span[0], span[0] + 30), ("account", span[0] + 20, span[1])]
        of_branch[branch], of_accounts[branch] = at, at + 100
    return of_branch, of_accounts


def limit(rng: Random, procedure: str) -> int:
    """The limit of a triple."""
    if procedure not in LIMITED:
        return 0
    return rng.choice([LIMITED[procedure]] * 3 + [MOST_KEY, 50_000])


def moments(rng: Random, is_widest: bool) -> tuple[int, int]:
    """From when to when a triple is valid."""
    if is_widest or rng.random() < 0.85:
        return (0, MOST_MOMENT)
    first = FIRST_MOMENT + rng.randint(-DAY, MOMENTS_WITHIN * DAY)
    return rng.choice([(0, first), (first, MOST_MOMENT), (first, first + rng.randint(0, 5 * DAY))])


def opened_policy(bank: LongBank, staff: Staff, ranges: Ranges, rng: Random, is_widest: bool) -> None:
    """Draws who may do what."""
    of_branch, of_accounts = opened_sets(bank, ranges)
    bank.officers = set(staff.officers)
    bank.certifiers = {(user, procedure) for user in staff.certifiers for procedure in PROCEDURES}
    by = staff.certifiers[0]
    of_all = [it for it in PROCEDURES if it in OF_SUPERVISORS or it == "post" or rng.random() < 0.3]
    bank.relations = {(procedure, number): by for procedure in PROCEDURES for number in of_branch.values()}
    bank.relations.update({(procedure, EVERYTHING): by for procedure in of_all})
    bank.relations.update({("accounts", it): by for it in of_accounts.values()})
    branches = list(of_branch)
    triples: dict[tuple[int, str, int], Triple] = {}
    for at, user in enumerate(staff.tellers):
        home = branches[at % len(branches)]
        for procedure in OF_TELLERS:
            number = of_accounts[home] if procedure == "accounts" else of_branch[home]
            triples[user, procedure, number] = Triple(limit(rng, procedure), *moments(rng, is_widest))
        if rng.random() < 0.5:
            triples[user, "post", EVERYTHING] = Triple(rng.choice([1_000, 999_999]), *moments(rng, is_widest))
    for user in staff.supervisors:
        for procedure in OF_SUPERVISORS:
            triples[user, procedure, EVERYTHING] = Triple(limit(rng, procedure), *moments(rng, is_widest))
    bank.triples = triples


def opening_of(rng: Random, is_widest: bool) -> Opening:
    """A bank as it opens. Each triple is valid at every moment where that is asked for."""
    bank, staff = LongBank(), staff_of(rng)
    names = [rng.choice(NAMES)[:20] for _ in staff.all()]
    bank.users = dict(sorted(zip(staff.all(), names)))
    bank.sessions, bank.open, bank.suspended = dict.fromkeys(bank.users, 0), set(), set()
    bank.lines, bank.entries, bank.slips, bank.releases = (), (), {}, {}
    ranges = opened_books(bank, rng)
    opened_policy(bank, staff, ranges, rng, is_widest)
    return Opening(bank, staff, badges_of(rng, staff.all()), ranges)


def write_badges(badges: dict[int, str], path: str) -> None:
    """Writes the list of badges."""
    with open(path, "w", encoding="ascii", newline="") as file:
        csv.writer(file, lineterminator="\n").writerows([("badge", "user"), *((name, user) for user, name in badges.items())])


def write_opening(opening: Opening, folder: str) -> None:
    """Writes the opening lists and the badges into a folder that is not there yet."""
    write_lists(opening.bank, folder)
    write_badges(opening.badges, os.path.join(folder, "badges.csv"))
