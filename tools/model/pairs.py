"""Pairs of banks that are the same as far as the requests of one user touch them, and differ in all else.

A pair is made of opening lists and of requests by others. The user's triples reach branch 1 with its two tellers and a few
accounts; these, their row, the relations of the procedures that they ask for, the releases that they were given and the slips that they
have are the same in both banks, and so are their triples with their moments and those of who gave the releases. Other branches,
tellers, accounts, sets and users are there in one bank alone or with other numbers, and other users' triples, sessions,
histories, cash, days, releases and slips come to be others.
"""
import csv
import os
from collections.abc import Iterator, Sequence
from random import Random
from typing import NamedTuple

from model.answers import answer, is_allowed
from model.bank import (
    MOMENT,
    MOST_MOMENT,
    NAMES,
    OF_SUPERVISORS_ALONE,
    OF_TELLERS,
    PROCEDURES,
    RELEASABLE,
    Bank,
    Body,
    Interval,
    Triple,
    holds,
    touched,
    with_members,
    without_member,
)
from model.requests import DRAWN, Request, again, any_slip, spoiled

# By user, procedure and set; and the rows of an opening list, the heading first.
Triples = dict[tuple[int, str, int], Triple]
Rows = list[tuple[object, ...]]

# One set that holds everything, those of the user's triples, and one that holds nothing of these.
ALL, COUNTER, ONE, OTHER, LISTED, NEW_ACCOUNTS, ELSEWHERE = 1, 2, 3, 4, 5, 6, 9
# Numbers that are there in both banks, or in neither.
ACCOUNTS = [101, 102, 103]
TO_OPEN = (151, 160)
TELLERS = [11, 12]
PLACE = [("teller", 11, 12), ("branch", 1, 1), ("history", 1, 1), ("drawer", 11, 12), ("vault", 1, 1)]
SETS: dict[int, list[Interval]] = {
    ALL: [("account", 1, 999_999), ("teller", 1, 999), ("branch", 1, 99), ("history", 1, 99), ("drawer", 1, 999), ("vault", 1, 99)],
    COUNTER: [("account", 101, 103), *PLACE],
    ONE: [("account", 101, 101), *PLACE],
    OTHER: [("account", 102, 103), *PLACE],
    LISTED: [("account", 101, 102), ("account", 102, 103)],
    NEW_ACCOUNTS: [("account", *TO_OPEN), ("branch", 1, 1)],
    ELSEWHERE: [("account", 104, 499), ("teller", 21, 99), ("branch", 2, 9), ("history", 2, 9), ("drawer", 21, 99), ("vault", 2, 9)],
}
# Who certified what: on everything, so that it is the user's triples that deny, and on sets that others alone hold.
RELATIONS = {
    **{(procedure, number): 2 for procedure in PROCEDURES for number in (ALL, COUNTER, ELSEWHERE)},
    **{("transfer", number): 2 for number in (ONE, OTHER)},
    **{("accounts", number): 2 for number in (LISTED, ONE)},
    ("new-account", NEW_ACCOUNTS): 2,
}
OTHER_LIMITS = {"post": 40_000, "transfer": 20_000, "correct": 999_999, "drawer-on": 100_000}
LIMITS = {**dict.fromkeys(RELEASABLE, 50_000), **OTHER_LIMITS}
# The first and the last moments of triples by which something is asked for before the stream, and of all others.
AT_FIRST = [(0, MOST_MOMENT), (0, MOMENT), (MOMENT, 701), (699, 750), (MOMENT, 799)]
AT_ANY_TIME = [*AT_FIRST, (0, 699), (701, 750), (702, 702), (751, MOST_MOMENT)]
NEEDED_AT_FIRST = {"post", "drawer-on", "drawer-off", "release"}
# So often all of the user's triples are valid at each moment.
WIDEST = 0.2
OFFICER, CERTIFIER, SUPERVISOR = 1, 2, 9
# For whom the supervisor gives releases: how many each has is the same in both banks.
BENEFICIARIES = [7, 8]
STRANGER = 20
# What is asked for, and how many requests others have made before.
ASKED_BY_TELLERS = ["session", "end", *OF_TELLERS * 3, *["post", "transfer", "correct", "drawer-on"] * 4, *["use of a release", "slip again"] * 3, "proof", "new-account"]
ASKED_BY_SUPERVISOR = ["session", "end", *[*OF_SUPERVISORS_ALONE, "balance", "accounts", "slip again"] * 3, "post", "statement"]
WRITTEN_BY_SUPERVISORS = [it for it in OF_SUPERVISORS_ALONE if it != "proof"]
ASKED_BY_OTHERS = ["session", "end", *OF_TELLERS, *WRITTEN_BY_SUPERVISORS, "define-set", "grant", "revoke", "enrol", "suspend", "restore"]
REQUESTS_BEFORE = 60
# Requests of a kind are drawn until one is allowed: DRAWS of each kind at most, of KINDS_TRIED kinds. In a share ANY of all draws the
# first is sent as it is, and in a share of these its body is spoiled.
KINDS_TRIED = 4
DRAWS = 20
ANY = 0.4
SPOILED = 0.05


class Made(NamedTuple):
    """A bank of a pair: as it opens, the messages by which it came to what it is, and what that is."""

    opening: Bank
    before: list[bytes]
    bank: Bank


class Common(NamedTuple):
    """What both banks of a pair have: what accounts and tellers are opened with, and the vault of branch 1; how many other
    accounts have their home there; whether drawers are put off; what is posted first; and the triples of the user and of the
    supervisor."""

    balances: dict[int, int]
    cash: int
    homed: int
    is_put_off: bool
    posts: list[int]
    triples: Triples


def triples_of_tellers(user: int) -> Triples:
    """The triples of a teller at branch 1."""
    held = {(user, procedure, COUNTER): LIMITS.get(procedure, 0) for procedure in OF_TELLERS if procedure not in ("accounts", "transfer")}
    transfers = {(user, "transfer", number): 20_000 for number in (ONE, OTHER)}
    listed = {(user, "accounts", number): 0 for number in (LISTED, ONE)}
    return {key: Triple(limit) for key, limit in {**held, **transfers, **listed}.items()}


def triples_of_supervisor() -> Triples:
    on = {"new-account": NEW_ACCOUNTS, "accounts": LISTED}
    limits = {"new-account": 1_000, "release": 999_999}
    held = (*OF_SUPERVISORS_ALONE, "balance", "accounts")
    return {(SUPERVISOR, it, on.get(it, COUNTER)): Triple(limits.get(it, 0)) for it in held}


def with_moments(triples: Triples, rng: Random) -> Triples:
    """The same triples, some of which begin or end while the stream goes on."""
    if rng.random() < WIDEST:
        return triples
    moments = {key: rng.choice(AT_FIRST if key[1] in NEEDED_AT_FIRST else AT_ANY_TIME) for key in triples}
    return {key: Triple(triple.limit, *moments[key]) for key, triple in triples.items()}


def shared_out(rng: Random, total: int, names: list[int]) -> dict[int, int]:
    """An amount for each name that come to this in all."""
    parts = [rng.randint(0, 90_000) for _ in names[:-1]]
    return dict(zip(names, [*parts, total - sum(parts)]))


def opened(user: int, common: Common, rng: Random) -> Bank:
    """A bank that opens with what is common, and with what is drawn for it alone."""
    bank = Bank()
    bank.sessions, bank.open, bank.lines = {it: 0 for it in NAMES}, set(), []
    others = [it for it in NAMES if it not in (user, SUPERVISOR)]
    bank.users = {**NAMES, **{it: NAMES[it] + rng.choice(["", " B.", " of the Hills"]) for it in others}}
    bank.sets = {**SETS, **{rng.randint(30, 90): rng.choice(list(SETS.values())) for _ in range(rng.randint(0, 3))}}
    bank.relations = dict(RELATIONS)
    bank.triples = {**triples_of_tellers(7), **triples_of_tellers(8), **triples_of_supervisor()}
    of_others = [key for key in bank.triples if key[0] not in (user, SUPERVISOR)]
    for key in rng.sample(of_others, rng.randint(0, 2)):
        bank.triples[key] = Triple(rng.choice([1_000, 80_000]), *rng.choice(AT_FIRST))
    for other in {7, 8, SUPERVISOR} - {user, SUPERVISOR}:
        bank.triples.update({(other, procedure, ELSEWHERE): Triple(999_999) for procedure in OF_TELLERS})
    if user != SUPERVISOR:
        bank.triples.update({(SUPERVISOR, it, ELSEWHERE): Triple(999_999) for it in OF_SUPERVISORS_ALONE if it != "release"})
    bank.triples.update(common.triples)
    if rng.random() < 0.5:
        bank.users[STRANGER], bank.sessions[STRANGER] = "Ann", 0
        bank.officers = rng.choice([{OFFICER}, {OFFICER, STRANGER}])
    with_books(bank, common, rng)
    return bank


def with_books(bank: Bank, common: Common, rng: Random) -> None:
    """Opens branches, tellers and accounts: branch 1 with what is common, and others with what is drawn."""
    branches = rng.sample(range(2, 10), rng.randint(1, 3))
    tellers = {it: rng.choice(branches) for it in rng.sample(range(21, 40), rng.randint(1, 4))}
    others = {it: (branch, rng.randint(0, 90_000)) for it, branch in tellers.items()}
    bank.tellers = {**{it: (1, common.balances[it]) for it in TELLERS}, **others}
    bank.branches = {it: (sum(at for of, at in bank.tellers.values() if of == it), rng.randint(40_000, 90_000)) for it in branches}
    bank.branches = {1: (sum(common.balances[it] for it in TELLERS), common.cash), **bank.branches}
    bank.days = {it: 1 for it in bank.branches}
    # as many with their home at branch 1 in each bank
    untouched = rng.sample([*range(104, 151), *range(161, 200)], common.homed)
    elsewhere = rng.sample(range(200, 400), rng.randint(1, 4))
    homes = {**{it: 1 for it in untouched}, **{it: rng.choice(branches) for it in elsewhere}}
    total = sum(at for at, _ in bank.branches.values()) - sum(common.balances[it] for it in ACCOUNTS)
    drawn = {it: (homes[it], at, min(at, 0)) for it, at in shared_out(rng, total, list(homes)).items()}
    bank.accounts = {**{it: (1, common.balances[it], -500 if it == 103 else 0) for it in ACCOUNTS}, **drawn}


def asked(bank: Bank, sent: list[bytes], request: Request) -> Bank:
    """The bank after a request that has to be allowed, whose message is put to those that are sent."""
    bank, status, reply = answer(bank, request)
    if status != 200:
        raise ValueError(f"{request.message()!r} is answered {reply!r}")
    sent.append(request.message())
    return bank


def common_requests(user: int, common: Common) -> Iterator[tuple[int, str, Body, int]]:
    """What is asked for in both banks: drawers are put on at branch 1, entries are made and releases are given."""
    for it in NAMES:
        yield it, "session", {}, 0
    tellers = {7: 11, 8: 12}
    for it, teller in tellers.items():
        cash = 30_000 if it == user else 900
        yield it, "drawer-on", {"branch": 1, "cash": cash, "teller": teller}, 0
        for account, delta in zip(ACCOUNTS, common.posts):
            yield it, "post", {"account": account, "branch": 1, "delta": delta, "teller": teller}, 0
        if user == SUPERVISOR and common.is_put_off:
            yield it, "drawer-off", {"branch": 1, "counted": cash, "teller": teller}, 0
    if user != SUPERVISOR:
        for delta in (50_001, 60_000):
            operation: Body = {"procedure": "post", "account": 101, "branch": 1, "delta": delta, "teller": tellers[user]}
            yield SUPERVISOR, "release", {"beneficiary": user, "operation": operation}, 0


def is_apart(user: int, request: Request) -> bool:
    """Whether a request by another changes nothing that the user's requests touch."""
    body = request.body
    if request.kind in ("session", "end", "define-set", "enrol"):
        return True
    if request.kind in ("grant", "revoke", "suspend", "restore"):
        return body["user"] not in (user, SUPERVISOR)
    if request.kind == "release":
        return body["beneficiary"] not in (BENEFICIARIES if user == SUPERVISOR else [user])
    of_user = [holds(SETS, number, [item]) for item in touched(request.kind, body) for number in (COUNTER, LISTED, NEW_ACCOUNTS)]
    return not any(of_user)


def by_another(bank: Bank, user: int, rng: Random) -> Request:
    """A request by another, as it is drawn first."""
    kind = rng.choice(ASKED_BY_OTHERS)
    who = rng.choice([it for it in NAMES if it != user])
    body: Body = {} if kind in ("session", "end") else DRAWN[kind](bank, who, rng)
    if kind == "new-account":
        body = with_members(body, {"account": rng.randint(400, 499), "branch": rng.choice(list(bank.branches))})
    return Request(bank, kind, who, body, slip=any_slip(bank, who, rng))


def made(user: int, common: Common, rng: Random) -> Made:
    """A bank of a pair."""
    opening = opened(user, common, rng)
    bank, before = opening, list[bytes]()
    for number, (who, kind, body, release) in enumerate(common_requests(user, common), 1):
        slip = number if who == user else 0
        bank = asked(bank, before, Request(bank, kind, who, body, release, slip=slip))
    for _ in range(rng.randint(REQUESTS_BEFORE // 3, REQUESTS_BEFORE)):
        drawn = (by_another(bank, user, rng) for _ in range(DRAWS))
        request = next((it for it in drawn if is_allowed(bank, it) and is_apart(user, it)), None)
        if request:
            bank = asked(bank, before, request)
    return Made(opening, before, bank)


def common_of(user: int, rng: Random) -> Common:
    """What both banks of a pair have whose requests are a user's."""
    balances = {it: rng.randint(0, 90_000) for it in [*ACCOUNTS, *TELLERS]}
    cash = rng.randint(0, 90_000) + 100_000
    homed, is_put_off = rng.randint(0, 4), rng.random() < 0.5
    posts = [rng.randint(0, 200) for _ in ACCOUNTS]
    own = triples_of_tellers(user) if user != SUPERVISOR else {}
    return Common(balances, cash, homed, is_put_off, posts, with_moments({**own, **triples_of_supervisor()}, rng))


def pair_of(rng: Random) -> tuple[int, list[Made]]:
    """A user, and two banks that differ in all that their requests don't touch."""
    user = rng.choice([7, 8, SUPERVISOR])
    common = common_of(user, rng)
    return user, [made(user, common, rng) for _ in range(2)]


def by_user(banks: Sequence[Bank], user: int, rng: Random, moment: int) -> Request:
    """A request of the user at a moment by what either bank has, most often one that is allowed."""
    kinds = rng.choices(ASKED_BY_SUPERVISOR if user == SUPERVISOR else ASKED_BY_TELLERS, k=KINDS_TRIED)
    if rng.random() < ANY:
        request = of_user(rng.choice(banks), kinds[0], user, rng, moment)
        request.session = max(request.session + rng.choice([0, 0, 0, 0, -1, 1]), 1)
        if request.body and rng.random() < SPOILED:
            request.body = spoiled(request.body, rng)
        return request
    requests = (of_user(rng.choice(banks), kind, user, rng, moment) for kind in kinds for _ in range(DRAWS))
    allowed = (it for it in requests if is_allowed(banks[0], it))
    return next(allowed, Request(banks[0], "session", user, {}, moment=moment))


def of_user(bank: Bank, kind: str, user: int, rng: Random, moment: int) -> Request:
    """A request of this kind at a moment, as it is drawn first."""
    given = [(number, it.operation) for (whom, number), it in bank.releases.items() if whom == user]
    if kind == "use of a release" and given:
        release, operation = rng.choice(given)
        use, named = without_member(operation, "procedure"), rng.choice([release, release, 7])
        return Request(bank, operation["procedure"], user, use, named, moment, any_slip(bank, user, rng))
    if kind == "slip again":
        return again(bank, user, rng, moment) or of_user(bank, "balance", user, rng, moment)
    kind = "balance" if kind == "use of a release" else kind
    body: Body = {} if kind in ("session", "end") else DRAWN[kind](bank, user, rng)
    if kind == "new-account" and rng.random() < 0.8:
        body = {"account": rng.randint(*TO_OPEN), "branch": 1, "floor": -rng.randint(0, 1_200)}
    if kind == "release":
        body = with_members(body, {"beneficiary": rng.choice(BENEFICIARIES)})
    return Request(bank, kind, user, body, moment=moment, slip=any_slip(bank, user, rng))


# ---- opening lists


def triple_rows(bank: Bank) -> Rows:
    """The triples, the heading first; in the form without moments where each is valid at all of them."""
    if all(it == Triple(it.limit) for it in bank.triples.values()):
        return [("user", "procedure", "set", "limit"), *((*key, it.limit) for key, it in bank.triples.items())]
    return [("user", "procedure", "set", "limit", "first", "last"), *((*key, *it) for key, it in bank.triples.items())]


def opening_rows(bank: Bank) -> Iterator[tuple[str, Rows]]:
    """The rows of each opening list, the heading first."""
    yield "users", [("user", "name", "officer"), *((it, name, int(it in bank.officers)) for it, name in bank.users.items())]
    yield "sets", [("set", "kind", "low", "high"), *((it, *member) for it, members in bank.sets.items() for member in members)]
    yield "relations", [("procedure", "set", "by"), *((*key, by) for key, by in bank.relations.items())]
    yield "triples", triple_rows(bank)
    yield "certifiers", [("user", "procedure"), *sorted(bank.certifiers)]
    yield "branches", [("branch", "balance", "cash"), *((it, *row) for it, row in bank.branches.items())]
    yield "tellers", [("teller", "branch", "balance"), *((it, *row) for it, row in bank.tellers.items())]
    yield "accounts", [("account", "home", "balance", "floor"), *((it, *row) for it, row in bank.accounts.items())]


def write_lists(bank: Bank, folder: str) -> None:
    """Writes the opening lists of a bank into a folder of their own."""
    os.mkdir(folder)
    for name, rows in opening_rows(bank):
        with open(os.path.join(folder, name + ".csv"), "w", encoding="ascii", newline="") as file:
            csv.writer(file, lineterminator="\n").writerows(rows)
