"""What stands beside an account, and new customers: who proposes, who accepts, and the mark until then."""
from typing import Any

import pytest
from tespiorvu.office.register import Holder, Holding
from office.tests.conftest import EVERYTHING, Office

NEW: dict[str, Any] = {"account": 150, "name": "Jo Néw", "address": "Lane 1\nTown", "born": "1961-12-31", "document": "P 77"}


@pytest.fixture(autouse=True)
def bank(office: Office) -> None:
    """A bank in which Tess and Tom may open accounts, 102 may be overdrawn, and two customers have one name."""
    bank = office.bank()
    bank.bank.execute("UPDATE accounts SET floor = -30000 WHERE account = 102")
    for user in (7, 8, 9):
        bank.grant(user, [7], EVERYTHING, 0)
    bank.grant(11, [10], EVERYTHING, 0)
    warned = Holder(1, "Ann One", "Secret Street", "P 1", "For keepers", "", "1950-01-31", "de", "ESTATE: ask first")
    office.keep(warned, Holder(2, "Ann One", "Other Street", born="1990-01-31"))
    office.keep(Holding(101, 1, "owns"), Holding(102, 2, "owns"), Holding(101, 2, "acts"), Holding(201, 2, "owns"))


def proposed(office: Office, badge: str = "tess", **changed: Any) -> Any:
    """The reply to a proposal."""
    return office.api(badge, "customers", {**NEW, **changed})


def beside(office: Office, badge: str, account: int) -> Any:
    """What stands beside an account."""
    return office.ask(badge, f"/office/api/accounts?accounts={account}").json["accounts"].get(str(account))


def test_beside_an_account_is_who_owns_it_who_acts_and_a_warning(office: Office) -> None:
    ann, other = beside(office, "tess", 101)["holders"]
    assert (ann["may"], other["may"]) == ("owns", "acts")
    assert {**ann} == {
        "holder": 1, "name": "Ann One", "address": "Secret Street", "born": "1950-01-31", "warning": "ESTATE: ask first", "proposer": "",
        "may": "owns",
    }  # fmt: skip
    assert (beside(office, "tess", 102)["floor"], beside(office, "cai", 102)["floor"]) == (-30_000, None)
    assert beside(office, "tess", 201) is None
    assert beside(office, "tess", 199) == {"holders": [], "floor": None}


def test_namesakes_are_told_apart_and_all_accounts_of_one_are_shown(office: Office) -> None:
    found = office.api("tess", "search", {"q": "ann"}).json["holders"]
    assert [(it["address"], it["born"]) for it in found] == [("Secret Street", "1950-01-31"), ("Other Street", "1990-01-31")]
    of_102 = office.ask("tess", "/office/api/accounts/102/customers").json["holders"]
    assert [[it["account"] for it in one["accounts"]] for one in of_102] == [[101, 102]]
    assert [it["account"] for it in office.ask("sue", "/office/api/accounts/102/customers").json["holders"][0]["accounts"]] == [
        101, 102, 201]  # fmt: skip
    assert office.ask("tess", "/office/api/accounts/201/customers").status_code == 403


def test_a_new_customer_bears_a_mark_until_a_second_person_accepts(office: Office) -> None:
    number = proposed(office).json["holder"]
    assert (number, proposed(office).json["holder"]) == (3, 3)
    again = proposed(office, name=f" {NEW['name'].replace(' ', '  ')}").json
    assert (again["holder"], again["name"]) == (3, NEW["name"])
    assert office.ask("sue", "/office/api/names?accounts=150").json["accounts"]["150"] == ["Jo Néw (?)"]
    assert "Jo Néw (?)" in office.form("kim", "/office/", q="new").text
    assert "Proposed by tess" in office.ask("tess", f"/office/holders/{number}").text
    queue = office.ask("sue", "/office/api/queue").json
    assert [(it["name"], it["document"], it["accounts"], it["by"]) for it in queue["proposals"]] == [("Jo Néw", "P 77", [150], "tess")]
    assert [len(office.ask("tess", "/office/api/queue").json[it]) for it in ("proposals", "proposed")] == [0, 1]
    for badge in ("tess", "tom", "cai"):
        assert office.api(badge, f"customers/{number}/accept", {}).status_code == 403, badge
    assert office.api("sue", f"customers/{number}/accept", {}).status_code == 200
    assert office.api("sam", f"customers/{number}/accept", {}).status_code == 409
    assert office.ask("sue", "/office/api/names?accounts=150").json["accounts"]["150"] == ["Jo Néw"]
    with office.opened() as found:
        rows = found.execute("SELECT badge FROM changes WHERE what = 'holder' AND row = '3' ORDER BY change").fetchall()
    assert [it["badge"] for it in rows] == ["tess", "sue"]


def test_nobody_accepts_their_own_proposal_also_not_by_another_badge(office: Office) -> None:
    office.keep(Holder(7, "Own One", proposer="sam"), Holder(8, "Keeper's", proposer="kim"))
    office.keep(Holding(103, 7, "owns"), Holding(151, 8, "owns"))
    assert [office.api(badge, "customers/7/accept", {}).status_code for badge in ("sam", "sam2", "kim")] == [403, 403, 200]
    assert [office.form("kim", "/office/holders/8/accept").status_code, office.api("sue", "customers/8/accept", {}).status_code] == [403, 200]


@pytest.mark.parametrize("changed, status", [
    ({"account": 201}, 422), ({"account": 101}, 409), ({"name": " "}, 422), ({"born": "31.12.1961"}, 422), ({"address": 5}, 422),
    ({"account": "x"}, 422), ({"name": "a" * 201}, 422), ({"name": "Jo\nNew"}, 422)], ids=str)  # fmt: skip
def test_what_is_no_proposal_is_refused(office: Office, changed: dict[str, Any], status: int) -> None:
    assert proposed(office, "cai" if changed == {"account": 201} else "tess", **changed).status_code == status
    assert [it["name"] for it in office.api("kim", "search", {"q": "jo"}).json["holders"]] == []


def test_a_proposal_that_is_taken_back_leaves_no_text(office: Office) -> None:
    number = proposed(office).json["holder"]
    assert office.api("tom", f"customers/{number}/withdraw", {}).status_code == 403
    assert office.api("tess", f"customers/{number}/withdraw", {}).status_code == 200
    assert beside(office, "tess", 150)["holders"] == []
    with office.opened() as found:
        assert "Jo N" not in "\n".join(found.iterdump())
    assert proposed(office, name="Jo Right").json["holder"] == 4
