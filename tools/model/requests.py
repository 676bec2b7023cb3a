"""Requests to the bank of bank_model as a tool draws them: for each kind that has a body, one by what is there."""
import json
from collections.abc import Callable
from random import Random
from typing import cast

from model.bank import (
    BADGES,
    COMMANDS,
    KINDS,
    MOMENT,
    MOMENTS,
    MOST_KEY,
    MOST_MOMENT,
    OPERATIONS,
    PROCEDURES,
    RELEASABLE,
    Bank,
    Body,
    with_members,
)


# The moments near those of a stream at which a triple may begin, and at which it may end.
BEGINS = sorted({0, *(it + near for it in MOMENTS for near in (-1, 0, 1))})
ENDS = sorted({*(it + near for it in MOMENTS for near in (-1, 0, 1)), MOST_MOMENT})
# So often a grant has no moments, one of them alone, or the first above the last.
WITHOUT, ALONE, ABOVE = 0.4, 0.04, 0.04
# So often a request bears a slip, whatever it asks for, and so often of these one that its user has, whatever that was taken for.
BEARING, OLD = 0.5, 0.1


class Request:
    """A request of a kind by a user at a moment, in their session, which may name a release and bear a slip."""

    def __init__(
        self, bank: Bank, kind: str, user: int, body: Body, release: int = 0, moment: int = MOMENT, slip: int = 0
    ) -> None:
        self.kind = kind
        self.user = user
        self.session = bank.sessions[user]
        self.body = body
        self.release = release
        self.moment = moment
        self.slip = slip

    def target(self) -> str:
        """The method and the path that ask for it."""
        if self.kind == "listing":
            return "GET /policy"
        if self.kind in OPERATIONS:
            return "POST /do/" + self.kind
        return "POST /policy/" + self.kind if self.kind in COMMANDS else "POST /" + self.kind

    def message(self) -> bytes:
        """Its bytes."""
        body = json.dumps(self.body) if self.body else ""
        fields = [
            f"{self.target()} HTTP/1.1",
            "Host: bank",
            f"Bank-Badge: {BADGES[self.user]}",
            f"Bank-Session: {self.session}",
            *([f"Bank-Release: {self.release}"] if self.release else []),
            *([f"Bank-Slip: {self.slip}"] if self.slip else []),
            f"Content-Length: {len(body)}",
        ]
        return ("\r\n".join(fields) + "\r\n\r\n" + body).encode()


def slips_of(bank: Bank, user: int) -> list[int]:
    """The numbers of the slips that a user has."""
    return [number for who, number in bank.slips if who == user]


def any_slip(bank: Bank, user: int, rng: Random) -> int:
    """The number of a slip, most often one that the user has not, or 0 for none."""
    if rng.random() >= BEARING:
        return 0
    own = slips_of(bank, user)
    if own and rng.random() < OLD:
        return rng.choice(own)
    after_last = max((it for it in own if it < MOST_KEY), default=0) + 1
    return rng.choice([after_last, after_last, after_last, rng.randint(1, MOST_KEY), MOST_KEY])


def again(bank: Bank, user: int, rng: Random, moment: int = MOMENT) -> Request | None:
    """What a user has asked for with a slip once more, or none where they have no slip."""
    own = slips_of(bank, user)
    if not own:
        return None
    number = rng.choice(own)
    slip = bank.slips[user, number]
    release = rng.choice([0, 0, 1])
    return Request(bank, slip.kind, user, slip.body, release, moment, number)


def any_teller(bank: Bank, user: int, rng: Random) -> tuple[int, int]:
    """A teller whose drawer the user holds, or any, and its branch."""
    teller = rng.choice(bank.drawers_of(user) or list(bank.tellers))
    return teller, bank.branch_of(teller)


def post(bank: Bank, user: int, rng: Random) -> Body:
    teller, branch = any_teller(bank, user, rng)
    delta = rng.choice([0, 1, rng.randint(-900, 900), rng.randint(-20_000, 60_000)])
    return {"account": rng.choice(list(bank.accounts)), "branch": branch, "delta": delta, "teller": teller}


def transfer(bank: Bank, user: int, rng: Random) -> Body:
    teller, branch = any_teller(bank, user, rng)
    source, target = rng.sample(sorted(bank.accounts), 2)
    amount = rng.choice([1, rng.randint(1, 900), rng.randint(1, 30_000)])
    return {"amount": amount, "branch": branch, "source": source, "target": target, "teller": teller}


def correct(bank: Bank, user: int, rng: Random) -> Body:
    drawn = post(bank, user, rng)
    entries = [it for it in bank.entries_of(drawn["branch"]) if it.user != user and not it.is_correction]
    entries = [it for it in entries if not bank.is_undone(it)]
    if not entries:
        return with_members(drawn, {"entry": 1, "other": 0})
    entry = rng.choice(entries)
    other = bank.named_entry(entry.branch, entry.partner).account if entry.partner else 0
    return with_members(drawn, {"account": entry.account, "delta": entry.delta, "entry": entry.number, "other": other})


def drawer_on(bank: Bank, user: int, rng: Random) -> Body:
    teller = rng.choice([it for it in bank.tellers if not bank.holder(it)] or list(bank.tellers))
    return {"branch": bank.branch_of(teller), "cash": rng.randint(0, 30_000), "teller": teller}


def drawer_off(bank: Bank, user: int, rng: Random) -> Body:
    teller, branch = any_teller(bank, user, rng)
    counted = max(bank.cash(branch, teller) + rng.choice([0, 0, -100, 100]), 0)
    return {"branch": branch, "counted": counted, "teller": teller}


def move_cash(bank: Bank, user: int, rng: Random) -> Body:
    source = rng.choice([0, *bank.drawers_of(user)])
    branch = bank.branch_of(source) if source else 1
    target = rng.choice([it for it in [0, *bank.tellers] if it != source])
    return {"amount": rng.randint(1, 9_000), "branch": branch, "source": source, "target": target}


def new_account(bank: Bank, user: int, rng: Random) -> Body:
    return {"account": rng.randint(101, 130), "branch": rng.choice([1, 2]), "floor": rng.choice([0, 0, 0, -500])}


def release(bank: Bank, user: int, rng: Random) -> Body:
    procedure = rng.choice(sorted(RELEASABLE))
    beneficiary = rng.choice(bank.users_of(procedure) or [7])
    operation = with_members({"procedure": procedure}, DRAWN[procedure](bank, beneficiary, rng))
    if procedure == "post" and rng.random() < 0.5:
        operation["delta"] = rng.randint(50_001, 90_000)
    return {"beneficiary": beneficiary, "operation": operation}


def balance(bank: Bank, user: int, rng: Random) -> Body:
    return {"account": rng.choice(list(bank.accounts))}


def any_count(rng: Random) -> int:
    """How many lines are asked for."""
    return rng.choice([1, 2, rng.randint(1, 20), 1_000])


def statement(bank: Bank, user: int, rng: Random) -> Body:
    account = rng.choice(list(bank.accounts))
    start = rng.choice([1, rng.randint(1, len(bank.turns_of(account)) + 2)])
    return {"account": account, "count": any_count(rng), "start": start}


def accounts(bank: Bank, user: int, rng: Random) -> Body:
    return {"after": rng.choice([0, 0, rng.randint(100, 210)]), "count": any_count(rng)}


def proof(bank: Bank, user: int, rng: Random) -> Body:
    return {"branch": rng.choice(list(bank.branches))}


def close_day(bank: Bank, user: int, rng: Random) -> Body:
    return {"branch": rng.choice(list(bank.branches))}


def define_set(bank: Bank, user: int, rng: Random) -> Body:
    members = [(KINDS.index(kind) + 1, low, high) for kind, low, high in bank.sets[rng.choice([1, 2, 3])]]
    kept = rng.sample(members, rng.randint(1, len(members)))
    return {"set": rng.randint(5, 40), "members": [list(it) for it in (kept if rng.random() < 0.3 else members)]}


def certify(bank: Bank, user: int, rng: Random) -> Body:
    return {"procedure": rng.choice(PROCEDURES), "set": rng.choice(list(bank.sets))}


def withdraw(bank: Bank, user: int, rng: Random) -> Body:
    procedure, number = rng.choice(list(bank.relations) or [("post", 2)])
    return {"procedure": procedure, "set": number}


def moments(rng: Random) -> Body:
    """The members of a grant that say when the triple counts."""
    way = rng.random()
    if way < WITHOUT:
        return {}
    first, last = sorted([rng.choice(BEGINS), rng.choice(ENDS)])
    if way < WITHOUT + ALONE:
        alone: list[Body] = [{"first": first}, {"last": last}]
        return rng.choice(alone)
    return {"first": last + 1, "last": first} if way < WITHOUT + ALONE + ABOVE else {"first": first, "last": last}


def grant(bank: Bank, user: int, rng: Random) -> Body:
    limit = rng.choice([0, 1_000, 50_000, 999_999])
    drawn = with_members(withdraw(bank, user, rng), {"user": rng.choice([7, 8, 9, *sorted(bank.users)]), "limit": limit})
    return with_members(drawn, moments(rng))


def revoke(bank: Bank, user: int, rng: Random) -> Body:
    whom, procedure, number = rng.choice(list(bank.triples) or [(7, "post", 2)])
    return {"user": whom, "procedure": procedure, "set": number}


def appoint(bank: Bank, user: int, rng: Random) -> Body:
    return {"user": rng.choice(sorted(bank.users)), "procedure": rng.choice(PROCEDURES)}


def dismiss(bank: Bank, user: int, rng: Random) -> Body:
    whom, procedure = rng.choice(sorted(bank.certifiers) or [(2, "post")])
    return {"user": whom, "procedure": procedure}


def enrol(bank: Bank, user: int, rng: Random) -> Body:
    return {"user": rng.randint(10, 30), "name": rng.choice(["Ann", "Bo", "Ann of the far Hills"]), "officer": rng.random() < 0.2}


def suspend(bank: Bank, user: int, rng: Random) -> Body:
    return {"user": rng.choice(sorted(bank.users))}


def restore(bank: Bank, user: int, rng: Random) -> Body:
    return {"user": rng.choice(sorted(bank.suspended) or [7])}


DRAWN: dict[str, Callable[[Bank, int, Random], Body]] = {
    "post": post,
    "transfer": transfer,
    "correct": correct,
    "drawer-on": drawer_on,
    "drawer-off": drawer_off,
    "move-cash": move_cash,
    "new-account": new_account,
    "release": release,
    "balance": balance,
    "statement": statement,
    "accounts": accounts,
    "proof": proof,
    "close-day": close_day,
    "define-set": define_set,
    "certify": certify,
    "withdraw": withdraw,
    "grant": grant,
    "revoke": revoke,
    "appoint": appoint,
    "dismiss": dismiss,
    "enrol": enrol,
    "suspend": suspend,
    "restore": restore,
}


def spoiled_value(value: object, way: str, rng: Random) -> object:
    """A number moved far or a little, or as a text; or something else for what is no number."""
    if type(value) is not int:
        others: list[object] = [None, 1, "post ", []]
        return rng.choice(others)
    if way == "text":
        return str(value)
    edges = [-1_000_000, -999_999, -1, 0, 1, 9_999, 10_000, 999_999, 1_000_000, 999_999_999, 1_000_000_000]
    edges += [MOST_MOMENT, MOST_MOMENT + 1, 10**12]
    return rng.choice(edges) if way == "far" else value + rng.choice([-1, 1])


def spoiled(body: Body, rng: Random) -> Body:
    """A body with one of its numbers moved far, a little, or made none; or with a member less or one more. What it states, if
    anything, is to be looked at."""
    members: dict[str, object] = dict(body)
    name = rng.choice(sorted(members))
    way = rng.choice(["far", "near", "text", "less", "more"])
    if way == "less":
        del members[name]
    elif way == "more":
        members[rng.choice(["x", "user", "account"])] = 1
    else:
        members[name] = spoiled_value(members[name], way, rng)
    return cast(Body, members)
