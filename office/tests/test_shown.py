"""Nobody is shown more than the bank shows them: by triples that are over or not yet, sets apart, accounts of other branches, and
forms of others."""
import re
import time

import pytest
from office.tests.bank_file import BankFile
from office.tests.conftest import Office
from tespiorvu.office.register import Holder, Holding

DAY, TESS = 86_400, 7
STATEMENT, ACCOUNTS, PROOF = 10, 11, 12
ACCOUNT, BRANCH, HISTORY, VAULT = 1, 3, 4, 6


@pytest.fixture
def bank(office: Office) -> BankFile:
    """A bank; Ann has an account at each of its branches, and Bea one at the second. Tess works at the first."""
    found = office.bank()
    office.keep(Holder(5, "Ann"), Holder(6, "Bea"))
    office.keep(Holding(101, 5, "owns"), Holding(202, 5, "owns"), Holding(201, 6, "owns"))
    return found


def accounts_found(office: Office, text: str) -> list[list[int]]:
    """The accounts that a search shows to Tess, of each holder that it finds."""
    found = office.api("tess", "search", {"q": text}).json["holders"]
    return [[one["account"] for one in it["accounts"]] for it in found]


@pytest.mark.parametrize("first, last, is_shown", [(-DAY, DAY, True), (-2 * DAY, -DAY, False), (DAY, 2 * DAY, False)])
def test_a_triple_shows_accounts_while_it_is_valid(office: Office, bank: BankFile, first: int, last: int, is_shown: bool) -> None:
    now = int(time.time())
    bank.grant(TESS, [STATEMENT, ACCOUNTS], [(ACCOUNT, 201, 201)], first=now + first, last=now + last)
    assert (office.ask("tess", "/office/accounts/201").status_code == 200) is is_shown
    assert accounts_found(office, "bea") == ([[201]] if is_shown else [])


def test_a_branch_is_shown_by_one_set_that_holds_all_of_it(office: Office, bank: BankFile) -> None:
    parts = [(BRANCH, 1, 1), (HISTORY, 1, 1)], [(VAULT, 1, 1)]
    for ranges, status in ((parts[0], 403), (parts[1], 403), (parts[0] + parts[1], 200)):
        bank.grant(TESS, [PROOF], ranges)
        assert office.ask("tess", "/office/days/1/1").status_code == status


def test_of_a_holder_the_accounts_of_other_branches_are_not_shown(office: Office, bank: BankFile) -> None:
    assert accounts_found(office, "ann") == [[101]]
    page = office.ask("tess", "/office/holders/5").text
    assert ("101" in page, "202" in page) == (True, False)
    assert "202" in office.ask("kim", "/office/holders/5").text


def test_a_form_that_all_may_send_bears_the_token_of_who_sends_it(office: Office, bank: BankFile) -> None:
    tokens = [re.search(r'name="token" value="([^"]+)"', office.ask(it, "/office/").text) for it in ("tess", "kim")]
    own, other = [it[1] for it in tokens if it]
    for token, status in ((own, 200), (other, 403)):
        assert office.ask("tess", "/office/", "POST", data={"q": "ann", "token": token}).status_code == status
