"""Requests of each kind to a bank in a file, and the replies of the reference model to them."""
from typing import NamedTuple

from model.answers import answer
from model.requests import Request

TESS, TOM, SUE = 7, 8, 9


class Asked(NamedTuple):
    """What a user asks for, by the number of a release or with a slip."""

    kind: str
    user: int
    body: dict
    release: int = 0
    slip: int = 0


class Kind(NamedTuple):
    """Requests of a kind, and those that come before them to the sample bank."""

    name: str
    before: list
    asked: list


POST = Asked("post", TESS, {"account": 101, "branch": 1, "delta": 2500, "teller": 11})
TRANSFER = Asked("transfer", TOM, {"amount": 20000, "branch": 1, "source": 101, "target": 102, "teller": 12})
ABOVE = {"account": 101, "branch": 1, "delta": 60000, "teller": 12}
RELEASE = Asked("release", SUE, {"beneficiary": TOM, "operation": {**ABOVE, "procedure": "post"}})
OFF = [
    Asked("drawer-off", TESS, {"branch": 1, "counted": 42500, "teller": 11}),
    Asked("drawer-off", TOM, {"branch": 1, "counted": 4900, "teller": 12}),
]
CLOSING = Asked("close-day", SUE, {"branch": 1})
STATEMENT = Asked("statement", TESS, {"account": 101, "count": 10, "start": 1})
SLIPPED = POST._replace(slip=5)

KINDS = (
    Kind("post", [], [POST]),
    Kind("transfer", [], [TRANSFER]),
    Kind("use of a release", [RELEASE], [Asked("post", TOM, ABOVE, release=1)]),
    Kind("closing", [POST, *OFF], [CLOSING]),
    Kind("statement", [POST, TRANSFER], [STATEMENT]),
    Kind("slip and its repeat", [], [SLIPPED, SLIPPED]),
    Kind("repeat of a slip", [SLIPPED], [SLIPPED]),
)
# A year of work that ends: with slips, a release that is used and one that is not, and no drawer held.
YEAR = [SLIPPED, TRANSFER, RELEASE, RELEASE, Asked("post", TOM, ABOVE, release=1), OFF[0], OFF[1]._replace(body={**OFF[1].body, "counted": 64900}), CLOSING]
SEVERAL = Kind("post, transfer and statement", [], [POST, TRANSFER, STATEMENT])


def answered(bank, asked):
    """The model after what is asked for, the bytes that ask for it, and the reply to each."""
    given, replies = b"", []
    for it in asked:
        request = Request(bank, *it[:4], slip=it.slip)
        bank, _, reply = answer(bank, request)
        given, replies = given + request.message(), [*replies, reply]
    return bank, given, replies
