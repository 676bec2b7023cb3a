"""The queue of requests that wait for a release, or for a colleague who makes a correction. The bank judges all that comes of it.

Before a supervisor's page asks the bank for a release, it claims the request, so that no second one does the same. A claim that
runs out without an answer leaves it unknown whether the bank gave a release, and the request says so from then on.
"""
import json
import sqlite3
from collections.abc import Sequence
from typing import Any, NamedTuple

from ..policy import Kind, Operation, amount_of, may, touched
from ..procedures import RELEASED
from .copies import Copy
from .languages import Count, Sentence, Term
from .register import require_text
from .store import Refused, Taken, changing, now

# For how long, in seconds, a request waits. A release is valid on one day of its branch only, so an old one would be of no use.
WAITS = 3_600
# For how long a request is one supervisor's alone.
CLAIMED = 60
MOST_REASON = 200
# As many parts as the teller's page makes of one amount.
MOST_OPERATIONS = 100
# How many of a user's wait at once. To take an amount back takes a correction for each of its parts, as each is of an entry.
MOST_WAITING = {"release": 5, "correct": MOST_OPERATIONS}
MOST_NUMBER = 999_999_999
WISHES = ("release", "correct")
# Members that are an amount, in which the parts of one may differ.
AMOUNTS = ("delta", "amount", "cash")
Numbers = Sequence[int | None]


class Ask(NamedTuple):
    """A request that waits or waited: the exact members of its operations, who asked, and what came of it. `numbers` are those of
    the releases, or of the entry that corrects; `lapsed` are the badges whose claim ran out without an answer."""

    ask: int
    moment: int
    badge: str
    user: int
    operations: list[Operation]
    wish: str
    state: str
    answered: int | None
    answerer: str | None
    numbers: list[int | None] | None
    reason: str
    claimer: str | None
    claim_ends: int | None
    lapsed: list[str]
    taken_back: bool


def made_of(row: sqlite3.Row, at: int) -> Ask:
    """A row of the table, as it is at a moment: a claim that runs out changes no row."""
    record: dict[str, Any] = {**dict(row), "taken_back": bool(row["taken_back"])}
    for name in ("operations", "numbers", "lapsed"):
        record[name] = json.loads(row[name]) if row[name] else None
    one = Ask(**record)
    if one.state != "waiting":
        return one
    if one.claimer is not None and one.claim_ends is not None:
        if one.claim_ends > at:
            return one._replace(state="claimed")
        one = one._replace(claimer=None, claim_ends=None, lapsed=[*(it for it in one.lapsed if it != one.claimer), one.claimer])
    return one._replace(state="withdrawn") if one.taken_back else one


def ask_of(found: sqlite3.Connection, number: int) -> Ask:
    """A request, which has to be there."""
    row = found.execute("SELECT * FROM asks WHERE ask = ?", (number,)).fetchone()
    if row is None:
        raise Refused("There is no request {number}", number=number)
    return made_of(row, now())


def waiting(found: sqlite3.Connection) -> list[Ask]:
    """All that wait, claimed or not, the oldest first."""
    at = now()
    rows = found.execute("SELECT * FROM asks WHERE state = 'waiting' AND moment > ? ORDER BY ask", (at - WAITS,))
    return [it for it in (made_of(row, at) for row in rows) if it.state in ("waiting", "claimed")]


def of_badge(found: sqlite3.Connection, badge: str) -> list[Ask]:
    """What a user asked for within the hour, the newest first."""
    at = now()
    rows = found.execute("SELECT * FROM asks WHERE badge = ? AND moment > ? ORDER BY ask DESC", (badge, at - WAITS))
    return [made_of(row, at) for row in rows]


def may_answer(copy: Copy, user: int, one: Ask) -> bool:
    """Whether a user could do all that is wished for. Nobody releases a request of their own, or corrects their own entry."""
    return one.user != user and all(could(copy, user, one.wish, it) for it in one.operations)


def could(copy: Copy, user: int, wish: str, operation: Operation) -> bool:
    """Whether the policy lets a user release an operation, or make a correction at a drawer of their own."""
    items = [it for it in touched(operation) if wish == "release" or it[0] not in (Kind.TELLER, Kind.DRAWER)]
    return may(copy.policy, user, wish, items, now(), amount_of(operation))


def for_user(found: sqlite3.Connection, copy: Copy, user: int) -> list[Ask]:
    """What waits that a user could answer."""
    return [it for it in waiting(found) if may_answer(copy, user, it)]


def without_amount(operation: Operation) -> Operation:
    """An operation as all parts of one amount have it."""
    way = int(operation.get("delta", 0)) < 0
    return {**{name: value for name, value in operation.items() if name not in AMOUNTS}, "way": way}


def require_operation(given: object) -> Operation:
    """An operation that can be released, with exactly its members."""
    if not isinstance(given, dict) or not isinstance(given.get("procedure"), str) or given["procedure"] not in RELEASED:
        raise Refused("procedure is one of {procedures}", procedures=list(RELEASED))
    members = RELEASED[given["procedure"]]
    if set(given) != {*members, "procedure"}:
        raise Refused("{procedure} has {members}", procedure=given["procedure"], members=sorted(members))
    for name, (least, most) in members.items():
        if type(given[name]) is not int or not least <= given[name] <= most:
            raise Refused("{name} is a whole number from {least} to {most}", name=name, least=least, most=most)
    return dict(given)


def require_operations(wish: object, given: Sequence[object]) -> list[Operation]:
    """The operations of one request: parts of one amount, so equal but for that; of a correction a single one."""
    if not 1 <= len(given) <= MOST_OPERATIONS:
        raise Refused("A request has 1 to {most} operations", most=MOST_OPERATIONS)
    operations = [require_operation(it) for it in given]
    if any(without_amount(it) != without_amount(operations[0]) for it in operations):
        raise Refused("The operations of a request are parts of one amount")
    if wish not in WISHES or wish == "correct" and (operations[0]["procedure"] != "correct" or len(operations) > 1):
        raise Refused("wish is release, or correct of one correction")
    return operations


def ask(found: sqlite3.Connection, badge: str, user: int, wish: object, given: Sequence[object]) -> Ask:
    """Puts a request into the queue."""
    operations = require_operations(wish, given)
    with changing(found):
        most = MOST_WAITING[str(wish)]
        if sum(it.badge == badge and it.wish == wish for it in waiting(found)) >= most:
            raise Refused("{most} of your requests wait already", most=most)
        number = found.execute(
            "INSERT INTO asks (moment, badge, user, operations, wish, state) VALUES (?, ?, ?, ?, ?, 'waiting') RETURNING ask",
            (now(), badge, user, json.dumps(operations, sort_keys=True), wish),
        ).fetchone()[0]
    return ask_of(found, number)


def stand(numbers: Numbers) -> Sentence | str:
    """That releases which were given stand at the bank, whatever became of the request."""
    given = [it for it in numbers if it is not None]
    return Sentence("; of yours the bank has {given}, good for today", given=given) if given else ""


def require_open(one: Ask, badge: str, numbers: Numbers = ()) -> None:
    """Refuses a request that is done, or that somebody else has claimed."""
    values = {"ask": one.ask, "state": Term(one.state), "stand": stand(numbers)}
    if one.state == "claimed" and one.claimer != badge:
        raise Taken("Request {ask} is claimed by {claimer}{stand}", claimer=one.claimer, **values)
    if one.state not in ("waiting", "claimed"):
        if one.answerer:
            raise Taken("Request {ask} is {state} by {answerer}{stand}", answerer=one.answerer, **values)
        raise Taken("Request {ask} is {state}{stand}", **values)


def claim(found: sqlite3.Connection, copy: Copy, badge: str, user: int, number: int, is_again: bool) -> Ask:
    """Gives a request to one supervisor alone, for as long as it takes to ask the bank. Where a claim ran out before, they have to
    know that a release may stand, and claim it again."""
    with changing(found):
        one = ask_of(found, number)
        require_open(one, badge)
        if one.state == "claimed":
            raise Taken("Request {number} is claimed by you, at another window", number=number)
        if one.moment + WAITS <= now():
            raise Taken("Request {number} waits no longer", number=number)
        if one.wish != "release" or not may_answer(copy, user, one):
            raise Refused("Request {number} waits for others", number=number)
        if one.lapsed and not is_again:
            raise Taken("{badges} claimed request {number} and did not answer: a release may stand",
                        badges=one.lapsed, number=number)  # fmt: skip
        found.execute(
            "UPDATE asks SET claimer = ?, claim_ends = ?, lapsed = ? WHERE ask = ?",
            (badge, now() + CLAIMED, json.dumps(one.lapsed), number),
        )
    return ask_of(found, number)


def leave(found: sqlite3.Connection, badge: str, number: int) -> Ask:
    """Gives a claimed request back to all, by who claimed it and has no release."""
    with changing(found):
        one = ask_of(found, number)
        if one.state != "claimed" or one.claimer != badge:
            raise Taken("Request {number} is not claimed by you", number=number)
        found.execute(
            "UPDATE asks SET claimer = NULL, claim_ends = NULL, state = ? WHERE ask = ?",
            ("withdrawn" if one.taken_back else "waiting", number),
        )
    return ask_of(found, number)


def require_numbers(one: Ask, numbers: Numbers) -> None:
    """Refuses an answer that does not fit the request."""
    if len(numbers) != (count := len(one.operations)):
        raise Refused("Request {ask} has {count} operations, and an answer as many numbers", ask=one.ask, count=count)
    if any(it is not None and not 1 <= it <= MOST_NUMBER for it in numbers):
        raise Refused("A release or an entry has a number from 1 to {most}", most=Count(MOST_NUMBER))


def answer(found: sqlite3.Connection, copy: Copy, badge: str, user: int, ask: int, numbers: Numbers, reason: str) -> Ask:
    """What the bank gave: the number of the release of each operation, or none, or of the entry that corrects; or a refusal with its
    reason. It comes from whoever claimed the request, also after the claim ran out, or from whoever could do it where nobody has."""
    require_text("reason", reason, MOST_REASON)
    with changing(found):
        one = ask_of(found, ask)
        require_numbers(one, numbers)
        late = found.execute("SELECT 1 FROM asks WHERE ask = ? AND state = 'waiting' AND claimer = ?", (ask, badge)).fetchone()
        if late is None:
            require_open(one, badge, numbers)
            if not may_answer(copy, user, one):
                raise Refused("Request {number} waits for others", number=ask)
        is_given = any(it is not None for it in numbers)
        found.execute(
            "UPDATE asks SET state = ?, answered = ?, answerer = ?, numbers = ?, reason = ?, lapsed = ?, claimer = NULL, "
            "claim_ends = NULL WHERE ask = ?",
            (
                "done" if is_given else "withdrawn" if one.taken_back else "refused",
                now(),
                badge,
                json.dumps(list(numbers)) if is_given else None,
                reason,
                json.dumps([it for it in one.lapsed if it != badge]),
                ask,
            ),
        )
    return ask_of(found, ask)


def withdraw(found: sqlite3.Connection, badge: str, number: int) -> Ask:
    """Takes back what one asked for oneself. While a supervisor has it, it waits for what comes of that."""
    with changing(found):
        one = ask_of(found, number)
        if one.badge != badge or one.state not in ("waiting", "claimed"):
            raise Refused("Request {number} is not yours, or waits no longer", number=number)
        if one.state == "claimed":
            found.execute("UPDATE asks SET taken_back = 1 WHERE ask = ?", (number,))
        else:
            found.execute("UPDATE asks SET state = 'withdrawn', answered = ? WHERE ask = ?", (now(), number))
    return ask_of(found, number)
