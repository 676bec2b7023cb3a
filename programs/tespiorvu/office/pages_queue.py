"""The queue of releases: its page, and what the teller's page asks and answers.

Below /office/api/, in this order, each with a JSON object; what is refused is 409 or 422, with a sentence in `office`:

- POST asks, by who asks: `wish`, release or correct; `operations`, 1 to 100, equal but for the amount, or `operation`. The request comes.
- POST asks/N/claim, by who could give it: nothing, or `again`, true, if `lapsed` is not empty. 200: theirs alone for 60 seconds. 409: somebody
  has it, or it is done, or it lapsed.
- POST asks/N/answer, by who claimed it: `releases`, a number or null for each operation, in order, and `reason`; of one operation also
  `number`. It is done if a release stands, else refused.
- POST asks/N/leave, by who claimed it, if the bank refused: it waits again.
- POST asks/N/withdraw, by who asked: withdrawn. While claimed it is `taken_back`, and withdrawn once the claim ends without a release.
- POST search, with `q`: names. GET queue: `waiting` and `mine`, of requests (asks.Ask, and `shown`).

`state` is waiting, claimed, done, refused or withdrawn; `operation` is the first of `operations`; `number` the first release, or the
correction's entry. `lapsed` has the badges whose claim ran out without an answer, as if a page did not learn what the bank did: a release
of theirs may stand.
"""
from collections.abc import Sequence
from typing import Any

from flask import Blueprint, Response, jsonify, render_template

from . import asks, pages_customers, register
from .asks import Ask
from .store import Refused
from .web import asked_object, desk

pages = Blueprint("queue", __name__)


def accounts_in(it: Ask) -> set[int]:
    """The accounts that a request names."""
    members = [
        one for one in it.operations if one["procedure"] != "move-cash"
    ]  # whose source and target are drawers, and no accounts
    return {int(one[name]) for one in members for name in ("account", "source", "target", "other") if one.get(name)}


def shown(it: Ask) -> dict[str, Any]:
    """A request as a page shows it: with the name of who asked, and those on accounts that the user may see."""
    here = desk()
    names = register.names_of_accounts(here.found, [one for one in sorted(accounts_in(it)) if here.sees_account(one)])
    who = register.names_of_users(here.found).get(it.user, it.badge)
    record = it._asdict()
    numbers = record.pop("numbers")
    return {
        **record,
        "operation": it.operations[0],
        "releases": numbers if it.wish == "release" else None,
        "number": next((one for one in numbers or [] if one is not None), None),
        "name": who,
        "names": {str(account): name for account, name in names.items() if name},
    }


def own_queue() -> dict[str, Any]:
    """What waits that the user could answer, what they asked for within the hour, and new customers of both kinds."""
    here = desk()
    return {
        **pages_customers.waiting(here),
        "waiting": [shown(it) for it in asks.for_user(here.found, here.copy, here.user)],
        "mine": [shown(it) for it in asks.of_badge(here.found, here.badge)],
    }


@pages.get("/queue")
def queue_page() -> str:
    """What waits for this user, and what they asked for."""
    return render_template("queue.html", **own_queue())


@pages.get("/api/queue")
def waiting_answer() -> Response:
    """What waits that the user could release, and what they asked for within the hour."""
    return jsonify(own_queue())


@pages.post("/api/asks")
def ask_answer() -> Response:
    """Puts a request into the queue: what is wished for, and the operations as the bank takes each in a release."""
    here, given = desk(), asked_object()
    operations = given.get("operations", [given["operation"]] if "operation" in given else [])
    if not isinstance(operations, list):
        raise Refused("operations is a list")
    return jsonify(shown(asks.ask(here.found, here.badge, here.user, given.get("wish"), operations)))


@pages.post("/api/asks/<number:ask>/claim")
def claim_answer(ask: int) -> Response:
    """Gives a request to this supervisor alone, before the bank is asked."""
    here, is_again = desk(), asked_object().get("again", False)
    return jsonify(shown(asks.claim(here.found, here.copy, here.badge, here.user, ask, is_again is True)))


@pages.post("/api/asks/<number:ask>/leave")
def leave_answer(ask: int) -> Response:
    """Gives a claimed request back."""
    return jsonify(shown(asks.leave(desk().found, desk().badge, ask)))


def require_answer(is_one: bool) -> None:
    """Refuses what is no answer."""
    if not is_one:
        raise Refused("An answer has releases, a list of numbers or null, or number, a number or null, and reason, a text")


def answered_numbers(given: dict[str, Any], operations: int) -> Sequence[int | None]:
    """The numbers of an answer; a single `null` refuses all of a request."""
    numbers: list[int | None] = given["releases"] if "releases" in given else [given.get("number", "")]
    require_answer(isinstance(numbers, list) and all(it is None or type(it) is int for it in numbers))
    return [None] * operations if numbers == [None] else numbers


@pages.post("/api/asks/<number:ask>/answer")
def answer_answer(ask: int) -> Response:
    """The numbers of the releases, or of the entry, that the bank gave, or none and a reason."""
    here, given = desk(), asked_object()
    reason = given.get("reason", "")
    require_answer(isinstance(reason, str))
    numbers = answered_numbers(given, len(asks.ask_of(here.found, ask).operations))
    return jsonify(shown(asks.answer(here.found, here.copy, here.badge, here.user, ask, numbers, reason)))


@pages.post("/api/asks/<number:number>/withdraw")
def withdraw_answer(number: int) -> Response:
    """Takes a request back."""
    return jsonify(shown(asks.withdraw(desk().found, desk().badge, number)))
