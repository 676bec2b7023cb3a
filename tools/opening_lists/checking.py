"""What is wrong with opening lists, by list and line: what `bank_cli init` refuses, of which it names a few faults alone, and
badges of no user."""
from collections import Counter

from opening_lists.columns import Lists, Record

# What no two records of a list share.
KEYS = {
    "branches": ("branch",),
    "tellers": ("teller",),
    "accounts": ("account",),
    "users": ("user",),
    "relations": ("procedure", "set"),
    "triples": ("user", "procedure", "set"),
    "certifiers": ("user", "procedure"),
    "badges": ("badge",),
}
# What has to stand in another list: a list and columns, the other list and its columns, and what is missing otherwise.
REFERENCES = (
    ("tellers", ("branch",), "branches", ("branch",), "no branch {}"),
    ("accounts", ("home",), "branches", ("branch",), "no branch {}"),
    ("relations", ("set",), "sets", ("set",), "no set {}"),
    ("relations", ("by",), "users", ("user",), "no user {}"),
    ("triples", ("user",), "users", ("user",), "no user {}"),
    ("triples", ("procedure", "set"), "relations", ("procedure", "set"), "{} is not certified on set {}"),
    ("certifiers", ("user",), "users", ("user",), "no user {}"),
    ("badges", ("user",), "users", ("user",), "no user {}"),
)
# How many records of a list may share this.
MOST = (
    ("sets", ("set",), 32),
    ("relations", ("procedure",), 1_000),
    ("triples", ("user",), 1_000),
    ("accounts", ("home",), 100_000),
)
MOST_SETS = 9_999


def find_repeats(lists: Lists) -> None:
    """Records that share what they may not, and too many that share something else."""
    for name, columns in KEYS.items():
        first: dict[tuple, Record] = {}
        for it in lists.records[name]:
            other = first.setdefault(it.of(*columns), it)
            if other is not it:
                lists.fault(name, it.line, f"{' '.join(map(str, it.of(*columns)))} stands on line {other.line}, too")
    for name, columns, most in MOST:
        found = Counter(it.of(*columns) for it in lists.records[name])
        lists.faults += [
            f"{name}.csv: {count} records of {columns[0]} {key[0]}, and at most {most} may be"
            for key, count in found.items()
            if count > most
        ]
    if len(lists.values("sets", "set")) > MOST_SETS:
        lists.faults.append(f"sets.csv: more than {MOST_SETS} sets")


def find_dangling(lists: Lists) -> None:
    """Records that name what is missing."""
    for name, columns, other, others, what in REFERENCES:
        there = lists.values(other, *others)
        for it in lists.records[name]:
            if it.of(*columns) not in there:
                lists.fault(name, it.line, what.format(*it.of(*columns)))


def find_bounds(lists: Lists) -> None:
    """Bounds that are the wrong way round, and accounts below their floors."""
    for name, low, high in (("sets", "low", "high"), ("accounts", "floor", "balance"), ("triples", "first", "last")):
        for it in lists.records[name]:
            if low in it.values and it.values[low] > it.values[high]:
                lists.fault(name, it.line, f"{low} {it.values[low]} is above {high} {it.values[high]}")


def find_duties(lists: Lists) -> None:
    """Officers who certify or have triples, and users who may do what they certify."""
    officers = {user for user, officer in lists.values("users", "user", "officer") if officer}
    for name, column in (("relations", "by"), ("triples", "user"), ("certifiers", "user")):
        for it in lists.records[name]:
            if it.values[column] in officers:
                lists.fault(name, it.line, f"user {it.values[column]} is an officer")
    certified = lists.values("certifiers", "user", "procedure") | lists.values("relations", "by", "procedure")
    for it in lists.records["triples"]:
        if it.of("user", "procedure") in certified:
            lists.fault(
                "triples", it.line, f"user {it.values['user']} certifies {it.values['procedure']}, and so may not do it"
            )


def find_sums(lists: Lists) -> None:
    """Branches whose tellers' balances do not add up, and all branches if all accounts do not."""
    shares: Counter[int] = Counter()
    for it in lists.records["tellers"]:
        shares[it.values["branch"]] += it.values["balance"]
    for it in lists.records["branches"]:
        if shares[it.values["branch"]] != it.values["balance"]:
            lists.fault(
                "branches", it.line, f"balance {it.values['balance']}, and its tellers have {shares[it.values['branch']]}"
            )
    branches, accounts = (sum(it.values["balance"] for it in lists.records[name]) for name in ("branches", "accounts"))
    if branches != accounts:
        lists.faults.append(f"all branches have {branches}, and all accounts {accounts}")


def find_faults(lists: Lists) -> list[str]:
    """All that is wrong with lists that were read. What can't be read is said first, and alone."""
    if not lists.faults:
        for find in (find_repeats, find_dangling, find_bounds, find_duties, find_sums):
            find(lists)
    return lists.faults
