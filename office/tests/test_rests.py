"""What is left of a run of which the bank refused a part."""
import json

from tespiorvu.office.rests import rests_of
from tespiorvu.office.runs import Line

REFUSED = json.dumps({"name": "floor", "rule": 11})


def line(number: int, account: int, part: int, parts: int, amount: int, state: str, reply: str = "") -> Line:
    """A transfer of run 1."""
    return Line(1, number, account, part, parts, account, 900, amount, 100_000 + number, "why", state, reply, 0)


def test_a_refused_part_is_named_with_what_is_left() -> None:
    lines = [
        line(1, 101, 1, 1, 250, "done"), line(2, 102, 1, 3, 999_999, "done"),
        line(3, 102, 2, 3, 999_999, "refused", REFUSED),
        line(4, 102, 3, 3, 500_002, "refused", "not sent after part 2"), line(5, 103, 1, 1, 250, "refused", REFUSED),
    ]
    assert [it.text for it in rests_of(lines)] == [
        "account 102: part 2 of 3 was refused (floor, rule 11); done 9,999.99 of 25,000.00, left 15,000.01",
        "account 103: it was refused (floor, rule 11); done 0.00 of 2.50, left 2.50"]
    assert rests_of([it._replace(state="done") for it in lines]) == []


def test_a_reply_that_is_none_of_a_rule_is_said_as_it_came() -> None:
    for reply in ("no words", '{"fault":"F2"}'):
        (rest,) = rests_of([line(1, 101, 1, 1, 250, "refused", reply)])
        assert rest.why == reply
