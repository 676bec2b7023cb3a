"""The queue: one supervisor claims a request before the bank is asked, parts are claimed at once, and what is taken back waits."""
import json
import threading
from typing import Any

import pytest
from tespiorvu.office import asks
from tespiorvu.office.store import now, opened
from office.tests.conftest import POST, Office, earlier_register

PARTS = [{**POST, "delta": delta} for delta in (999_999, 999_999, 500_002)]


@pytest.fixture(autouse=True)
def bank(office: Office) -> None:
    """A bank in which Sue and Sam may release up to the highest amount."""
    bank = office.bank()
    bank.bank.execute("UPDATE grants SET ceiling = 999999 WHERE procedure = 8")


def asked(office: Office, *operations: dict[str, Any]) -> int:
    """The number of a request of Tess for a release."""
    reply = office.api("tess", "asks", {"wish": "release", "operations": list(operations or [POST])})
    assert reply.status_code == 200, reply.json
    return int(reply.json["ask"])


def mine(office: Office, number: int) -> dict[str, Any]:
    """A request as Tess sees it."""
    found: dict[str, Any] = next(it for it in office.ask("tess", "/office/api/queue").json["mine"] if it["ask"] == number)
    return found


def later(monkeypatch: pytest.MonkeyPatch, seconds: int) -> None:
    """The office's clock is so much later from now on."""
    at = now() + seconds
    monkeypatch.setattr(asks, "now", lambda: at)


def test_of_two_supervisors_at_once_one_claims(office: Office) -> None:
    for _ in range(10):
        number, got, gate = asked(office), list[tuple[str, int, str]](), threading.Barrier(2)

        def claim(badge: str) -> None:
            gate.wait()
            reply = office.api(badge, f"asks/{number}/claim", {})
            got.append((badge, reply.status_code, reply.json.get("claimer") or reply.json["office"]))

        pair = [threading.Thread(target=claim, args=(badge,)) for badge in ("sue", "sam")]
        for one in pair:
            one.start()
        for one in pair:
            one.join()
        (first, *_), (_, status, said) = sorted(got, key=lambda it: it[1])
        assert (sorted(it[1] for it in got), status, said) == ([200, 409], 409, f"Request {number} is claimed by {first}")
        assert office.api(first, f"asks/{number}/answer", {"releases": [7]}).json["state"] == "done"
        assert office.api("sam", f"asks/{number}/claim", {}).status_code == 409


def test_a_claim_is_of_one_window_and_seen_by_all(office: Office) -> None:
    number = asked(office)
    for badge in ("tess", "tom"):
        assert office.api(badge, f"asks/{number}/claim", {}).status_code == 422
    begun = now()
    claimed = office.api("sue", f"asks/{number}/claim", {}).json
    assert (claimed["state"], claimed["claimer"]) == ("claimed", "sue")
    assert begun + 60 <= claimed["claim_ends"] <= now() + 60
    assert office.api("sue", f"asks/{number}/claim", {}).status_code == 409
    assert [(it["state"], it["claimer"]) for it in office.ask("sam", "/office/api/queue").json["waiting"]] == [("claimed", "sue")]
    assert "claimed by sue" in office.ask("tess", "/office/queue").text
    reply = office.api("sam", f"asks/{number}/answer", {"releases": [4]})
    assert (reply.status_code, reply.json["office"]) == (
        409, f"Request {number} is claimed by sue; of yours the bank has 4, good for today")


def test_what_is_taken_back_while_claimed_waits_for_the_outcome(office: Office) -> None:
    for answer, state, number in (([3], "done", 3), ([None], "withdrawn", None)):
        ask = asked(office)
        office.api("sue", f"asks/{ask}/claim", {})
        back = office.api("tess", f"asks/{ask}/withdraw", {})
        assert (back.status_code, back.json["state"], back.json["taken_back"]) == (200, "claimed", True)
        assert office.api("sue", f"asks/{ask}/answer", {"releases": answer}).status_code == 200
        assert (mine(office, ask)["state"], mine(office, ask)["number"], mine(office, ask)["taken_back"]) == (state, number, True)
    ask = asked(office)
    office.api("sue", f"asks/{ask}/claim", {})
    office.api("tess", f"asks/{ask}/withdraw", {})
    assert office.api("sue", f"asks/{ask}/leave", {}).json["state"] == "withdrawn"


def test_a_claim_that_runs_out_warns_the_next(office: Office, monkeypatch: pytest.MonkeyPatch) -> None:
    number = asked(office)
    office.api("sue", f"asks/{number}/claim", {})
    later(monkeypatch, 61)
    seen = office.ask("sam", "/office/api/queue").json["waiting"][0]
    assert (seen["state"], seen["claimer"], seen["lapsed"]) == ("waiting", None, ["sue"])
    assert "sue claimed it and did not answer: a release may stand" in office.ask("sam", "/office/queue").text
    refused = office.api("sam", f"asks/{number}/claim", {})
    assert (refused.status_code, refused.json["office"]) == (
        409, f"sue claimed request {number} and did not answer: a release may stand")
    assert office.api("sam", f"asks/{number}/claim", {"again": True}).json["state"] == "claimed"
    assert office.api("sue", f"asks/{number}/answer", {"releases": [5]}).status_code == 409
    assert office.api("sam", f"asks/{number}/answer", {"releases": [6]}).json["number"] == 6
    assert (mine(office, number)["lapsed"], mine(office, number)["answerer"]) == (["sue"], "sam")


def test_an_answer_after_the_claim_ran_out_is_taken(office: Office, monkeypatch: pytest.MonkeyPatch) -> None:
    number = asked(office)
    office.api("sue", f"asks/{number}/claim", {})
    office.api("tess", f"asks/{number}/withdraw", {})
    later(monkeypatch, 61)
    assert mine(office, number)["state"] == "withdrawn"
    assert office.ask("sam", "/office/api/queue").json["waiting"] == []
    assert office.api("sam", f"asks/{number}/claim", {"again": True}).status_code == 409
    assert office.api("sue", f"asks/{number}/answer", {"releases": [5]}).json["state"] == "done"
    assert (mine(office, number)["number"], mine(office, number)["lapsed"]) == (5, [])


def test_parts_are_claimed_at_once_and_the_answer_lists_which_stand(office: Office) -> None:
    number = asked(office, *PARTS)
    seen = office.ask("sue", "/office/api/queue").json["waiting"][0]
    assert (seen["operations"], seen["operation"], seen["releases"]) == (PARTS, PARTS[0], None)
    assert office.api("sue", f"asks/{number}/claim", {}).status_code == 200
    for wrong in ([1], [1, 2, 3, 4], ["1", 2, 3], [0, 1, 2], [True, 1, 2], 7, None):
        assert office.api("sue", f"asks/{number}/answer", {"releases": wrong}).status_code == 422, wrong
    got = office.api("sue", f"asks/{number}/answer", {"releases": [11, None, None], "reason": "limit"}).json
    assert (got["state"], got["releases"], got["number"], got["reason"]) == ("done", [11, None, None], 11, "limit")
    assert "none" in office.ask("tess", "/office/queue").text
    other = asked(office, *PARTS)
    assert office.api("sue", f"asks/{other}/answer", {"number": None, "reason": "No"}).json["state"] == "refused"


@pytest.mark.parametrize("name, value", [
    *(("operations", it) for it in (
        [], {}, PARTS * 34, [POST, {**POST, "account": 102}], [POST, {**POST, "delta": -1}],
        [POST, {"procedure": "transfer", "amount": 1, "branch": 1, "source": 101, "target": 102, "teller": 11}])),
    *(("operation", it) for it in (
        {}, [], "x", {"procedure": "close-day", "branch": 1}, {**POST, "delta": 1_000_000}, {**POST, "delta": 1.5},
        {**POST, "account": True}, {**POST, "more": 1}, {**POST, "procedure": ["post"]})),
])  # fmt: skip
def test_only_what_can_be_released_is_asked_for_in_equal_parts(office: Office, name: str, value: object) -> None:
    assert office.api("tess", "asks", {"wish": "release", name: value}).status_code == 422


def test_all_parts_have_to_be_allowed(office: Office) -> None:
    office.change("UPDATE grants SET ceiling = 600000 WHERE procedure = 8 AND user_no = 9")
    number = asked(office, *PARTS)
    assert [len(office.ask(badge, "/office/api/queue").json["waiting"]) for badge in ("sue", "sam")] == [0, 1]
    assert office.api("sue", f"asks/{number}/claim", {}).status_code == 422


def test_a_queue_of_an_earlier_version_is_taken_over(office: Office) -> None:
    with earlier_register(office.settings.file) as found:
        found.executemany(
            "INSERT INTO asks (moment, badge, user, operation, wish, state, number) VALUES (?, 'tess', 7, ?, 'release', ?, ?)",
            [(now(), json.dumps(POST), state, number) for state, number in (("waiting", None), ("done", 12))],
        )
    with opened(office.settings.file) as found:
        assert [(it.operations, it.state, it.numbers) for it in asks.of_badge(found, "tess")] == [
            ([POST], "done", [12]), ([POST], "waiting", None)]
    assert office.api("sue", "asks/1/claim", {}).json["state"] == "claimed"


def test_an_amount_of_many_parts_can_be_taken_back(office: Office) -> None:
    correction = {"procedure": "correct", "account": 101, "branch": 1, "delta": 999_999, "other": 0, "teller": 11}
    for entry in range(1, 101):
        reply = office.api("tess", "asks", {"wish": "correct", "operation": {**correction, "entry": entry}})
        assert reply.status_code == 200, reply.json
    assert office.api("tess", "asks", {"wish": "correct", "operation": {**correction, "entry": 101}}).status_code == 422
    for _ in range(5):
        asked(office)
    assert office.api("tess", "asks", {"wish": "release", "operations": [POST]}).status_code == 422
