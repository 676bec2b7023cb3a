"""What branch and office say of rights is what the bank does: over requests as the reference model draws them, by anyone."""
import json
import re
import sqlite3
import subprocess
from collections import Counter
from collections.abc import Callable, Iterator, Sequence
from contextlib import closing
from itertools import chain, count, groupby
from random import Random
from typing import Any, NamedTuple, cast

from branch.tests.branches import Files
from checks import require
from model.answers import answer, is_repeat
from model.bank import BADGES, COMMANDS, MOMENT, MOMENTS, PROCEDURES, Bank, Body
from model.requests import Request
from model.sending import WEIGHTS, drawn, of_kind
from sample_file import OPENED
from tespiorvu.branch.replay_policy import Command, said_by
from tespiorvu.policy import Item, Kind, Operation, Policy, amount_of, may, policy_of, put, touched
from tespiorvu.procedures import RELEASED

REQUESTS = 2_000
REPLY = re.compile(rb"HTTP/1\.1 (\d+) [^\r]*\r\n(?:[^\r]+\r\n)*Content-Length: (\d+)\r\n(?:[^\r]+\r\n)*\r\n")
# The rules before those on rights, of who asks and of slips; and those that may deny a request, by what `may` says of it: 0 is none.
BEFORE, OTHERS = (1, 22), (0, *range(6, 22))
ANSWERED = {"no set": (2, 3), "limit": (4,), "by release": (5, *OTHERS), "let": OTHERS}
MOST = 999_999
# A teller, a certifier, and the number of the first set of this test.
TOM, CORA, FIRST_SET = 8, 3, 900


class Drawn(NamedTuple):
    """A request, and whether it repeats by its slip one that was carried out."""

    request: Request
    is_again: bool


def by_anyone(bank: Bank, rng: Random, moment: int) -> Request:
    """A request by anyone, or one of the greatest amount that could be released."""
    if rng.random() < 0.4:
        request = of_kind(bank, rng.choice([*RELEASED]), rng, moment)
        most = {name: it for name, it in (("delta", -MOST), ("amount", MOST), ("cash", MOST)) if name in request.body}
        request.body = cast(Body, {**request.body, **most})
        request.release = rng.choice([0, 1, 2])
        return request
    request = of_kind(bank, rng.choices(list(WEIGHTS), list(WEIGHTS.values()))[0], rng, moment)
    request.user = rng.choice(list(BADGES))
    request.session = bank.sessions[request.user]
    return request


def at_the_edge(bank: Bank, rng: Random, name: str) -> Iterator[Request]:
    """An operation by a user who for a time has one triple for it alone: on what it touches, up to its amount; then on one item
    less, each of these in turn; then up to a cent less."""
    body = of_kind(bank, name, rng, MOMENT).body
    items, amount = touched({"procedure": name, **body}) or [(Kind.ACCOUNT, 1)], amount_of({"procedure": name, **body})
    others = [number for user, procedure, number in bank.triples if (user, procedure) == (TOM, name)]
    sets = count(FIRST_SET + 10 * PROCEDURES.index(name))

    def by_cora(command: str, **more: Any) -> Request:
        return Request(bank, command, CORA, cast(Body, more), 0, MOMENT)

    def asked_with(its: Sequence[Item], limit: int) -> Iterator[Request]:
        triple = {"user": TOM, "procedure": name, "set": next(sets)}
        members = [[int(kind), number, number] for kind, number in its]
        yield by_cora("define-set", set=triple["set"], members=members)
        yield by_cora("certify", procedure=name, set=triple["set"])
        yield by_cora("grant", **triple, limit=limit)
        yield Request(bank, name, TOM, body, 0, MOMENT)
        yield by_cora("revoke", **triple)

    yield from (by_cora("revoke", user=TOM, procedure=name, set=it) for it in others)
    yield from asked_with(items, amount)
    for it in items if len(items) > 1 else ():
        yield from asked_with([other for other in items if other != it], amount)
    if amount:
        yield from asked_with(items, amount - 1)
    yield from (by_cora("grant", user=TOM, procedure=name, set=it, limit=MOST) for it in others)


def requests(rng: Random) -> Iterator[Drawn]:
    """The requests, in the order of their moments: first those at an edge, then half mostly allowed, and half by anyone. The
    model goes on with each."""
    bank = Bank()
    edges = (request for name in PROCEDURES for request in at_the_edge(bank, rng, name))
    then = (drawn(bank, rng, moment) if rng.random() < 0.5 else by_anyone(bank, rng, moment)
            for moment in MOMENTS for _ in range(REQUESTS // len(MOMENTS)))
    for request in chain(edges, then):
        yield Drawn(request, is_repeat(bank, request))
        bank = answer(bank, request)[0]


def replies_in(wrote: bytes) -> Iterator[tuple[int, Any]]:
    """The status of each reply, and its object, or none of a report."""
    at = 0
    while found := REPLY.match(wrote, at):
        at = found.end() + int(found[2])
        text = wrote[found.end() : at]
        yield int(found[1]), json.loads(text) if text.startswith(b"{") else None
    require(at, len(wrote), "where the last reply ends")


def said_by_may(policy: Policy, request: Request) -> str:
    """What `may` says of an operation: a name of ANSWERED."""
    operation: Operation = {"procedure": request.kind, **cast(Operation, request.body)}
    asked = policy, request.user, request.kind, touched(operation), request.moment
    if not may(*asked):
        return "no set"
    if may(*asked, amount_of(operation)):
        return "let"
    return "by release" if request.release else "limit"


def rights_are_those_of_the_bank(files: Files) -> None:
    """The bank denies a drawn request by the rules on rights exactly if `may` says so, by the policy that its commands have left."""
    room, seen = files.folder("rights"), Counter[str]()
    room.mkdir()
    file, lists = room / "bank", files.top / "sample"

    def program(*words: object, given: bytes = b"") -> bytes:
        run = [files.top / "bank_cli", *map(str, words)]
        return subprocess.run(run, input=given, check=True, capture_output=True).stdout

    def run(moment: int, given: bytes) -> bytes:
        return program("run", file, "--badges", lists / "badges.csv", "--moment", moment, given=given)

    def policy_now() -> Policy:
        with closing(sqlite3.connect(file)) as found:
            return policy_of(found)

    program("init", file, lists, "--sums")
    run(0, OPENED)
    policy = policy_now()
    for moment, drawn_then in groupby(requests(Random(1)), lambda it: it.request.moment):
        part = list(drawn_then)
        wrote = run(moment, b"".join(it.request.message() for it in part))
        for (request, is_again), (status, said) in zip(part, replies_in(wrote), strict=True):
            rule = said["rule"] if status in (403, 409) else 0
            if request.kind in COMMANDS and status == 200:
                body = cast(dict[str, Any], request.body)
                put(policy, said_by(policy, Command(moment, "", request.user, request.kind, body, "")))
            if status == 422 or is_again or request.kind not in PROCEDURES:
                continue
            expected = said_by_may(policy, request)
            if ("suspended", request.user) in policy:
                require((rule, expected), (1, "no set"), f"{request.message()!r} of a user who is suspended")
            elif rule not in BEFORE:
                require(rule in ANSWERED[expected], True, f"{request.message()!r} is {expected} by `may`, and answered {said}")
                seen[expected] += 1
    require(policy_now(), policy, "the policy in the end")
    is_enough = min(seen[it] for it in ANSWERED) > 5 and seen.total() > REQUESTS / 2
    require(is_enough, True, f"requests by what `may` says: {seen}")


CHECKS: list[Callable[[Files], None]] = [rights_are_those_of_the_bank]
