"""The pages: who sees what, guards against other sites, markup in names, and the queue."""
import datetime
import json
import os
import re
import subprocess
import time
from pathlib import Path

import pytest
from tespiorvu.office.register import Holder, Holding, User
from office.tests.conftest import POST, Office, make_program
from office.tests.odd_names import ODD_NAMES

# The day before, in which the bank lives.
LIVED = datetime.date.today() - datetime.timedelta(1)


@pytest.fixture(autouse=True)
def bank(office: Office) -> None:
    """A bank with a post at each branch; 101 is Ann's and 201 Bea's."""
    bank = office.bank()
    bank.at(*LIVED.timetuple()[:3])
    bank.post(1, 101, 700)
    bank.post(2, 201, 900, teller=21)
    office.keep(Holder(1, "Ann <b>One</b>", "Secret Street"), Holder(2, "Bea Two"), User("tess", 7, "Tess T."))
    office.keep(Holding(101, 1, "owns"), Holding(201, 2, "owns"))


def test_no_badge_gets_nothing(office: Office) -> None:
    assert office.app.test_client().get("/office/").status_code == 403
    assert office.ask("nobody", "/office/days").status_code == 403


def test_a_teller_sees_names_of_accounts_that_the_bank_shows_them(office: Office) -> None:
    assert office.ask("tess", "/office/api/names?accounts=101,201,999").json == {
        "accounts": {"101": ["Ann <b>One</b>"]}, "users": {"7": "Tess T."},
    }
    assert office.ask("sue", "/office/api/names?accounts=101,201").json["accounts"]["201"] == ["Bea Two"]
    assert [it["name"] for it in office.api("tess", "search", {"q": "bea"}).json["holders"]] == []
    assert [it["name"] for it in office.api("sue", "search", {"q": "bea"}).json["holders"]] == ["Bea Two"]
    for path, status in (("/office/accounts/101", 200), ("/office/accounts/201", 403), ("/office/holders/1", 200),
                         ("/office/holders/2", 403), ("/office/holders/9", 403), ("/office/sheets", 403),
                         ("/office/sheets/holders.csv", 403), ("/office/changes", 403), ("/office/days/1/1", 403),
                         ("/office/ledger/1/1.csv", 403), ("/office/runs", 403),
                         ("/office/statements?account=201&first=2026-01-01&last=2026-12-31", 403)):
        assert office.ask("tess", path).status_code == status, path
    assert office.ask("kim", f"/office/statements?account=101&first={LIVED}&last={LIVED}").status_code == 403
    assert "Secret Street" not in office.ask("tess", "/office/holders/1").text


def test_a_suspended_user_sees_nothing(office: Office) -> None:
    office.change("UPDATE users SET suspended = 1 WHERE user_no = 7")
    assert office.ask("tess", "/office/api/names?accounts=101").status_code == 403


def test_a_badge_that_is_off_the_list_gets_nothing(office: Office) -> None:
    assert office.ask("kim", "/office/sheets/holders.csv").status_code == 200
    badges = office.copies / "badges.csv"
    badges.write_text(badges.read_text().replace("kim,3\n", ""))
    for path in ("sheets/holders.csv", "users", "api/here", "changes"):
        assert office.ask("kim", f"/office/{path}").status_code == 403, path
    assert office.api("kim", "asks", {}).status_code == 403


def test_whether_a_holders_number_is_taken_is_not_told(office: Office) -> None:
    taken, free = (office.ask("tess", f"/office/holders/{number}") for number in (2, 99))
    assert (taken.status_code, taken.text) == (free.status_code, free.text)


@pytest.mark.parametrize("path, status", [
    (f"accounts/{1 << 63}", 404), (f"holders/{1 << 63}", 404), (f"changes?before={1 << 63}", 422), (f"changes?before={'9' * 5000}", 422),
    (f"statements?account={'9' * 5000}&first=2026-01-01&last=2026-01-31", 422), ("statements?account=101&first=2026-01-01&last=9999-12-31", 422),
    ("statements?account=101&first=0001-01-01&last=2026-01-31", 422), (f"days/1/{1 << 63}", 404)], ids=lambda it: str(it)[:60])  # fmt: skip
def test_odd_addresses_are_refused(office: Office, path: str, status: int) -> None:
    badge = "sue" if path.startswith(("statements", "days")) else "kim"
    assert office.ask(badge, f"/office/{path}").status_code == status


@pytest.mark.parametrize("path, body, status", [
    ("asks", "[" * 100_000 + "]" * 100_000, 422), ("asks", '{"wish": "release", "operation": {"procedure": []}}', 422),
    (f"asks/{1 << 63}/withdraw", "{}", 404), ("asks/1/answer", '{"number": null, "reason": "\\ud800"}', 422),
    ("asks", "7", 422), ("asks/1/answer", '{"number": 1' + "0" * 30 + "}", 422),
    ("search", json.dumps({"q": " ".join(f"aa{it}" for it in range(1000))}), 422)],
    ids=lambda it: str(it)[:60])  # fmt: skip
def test_odd_bodies_are_refused(office: Office, path: str, body: str, status: int) -> None:
    assert office.api("tess", "asks", {"wish": "release", "operation": POST}).status_code == 200
    reply = office.ask("sue", f"/office/api/{path}", "POST", data=body, headers={"Desk-Badge": "sue"})
    assert reply.status_code == status


def test_no_address_has_a_name(office: Office) -> None:
    assert "Bea" in office.form("sue", "/office/", q="bea").text
    assert "Bea" not in office.ask("sue", "/office/?q=bea").text
    assert office.ask("sue", "/office/api/search?q=bea").status_code == 405
    for wrong in ({}, {"q": 7}, {"q": ["bea"]}):
        assert office.api("sue", "search", wrong).status_code == 422


def test_a_search_finds_what_stands_after_many_that_are_not_shown(office: Office) -> None:
    office.keep(*(Holder(number, f"Zoe {number}") for number in range(100, 300)), Holding(101, 299, "acts"))
    assert [it["holder"] for it in office.api("tess", "search", {"q": "zoe"}).json["holders"]] == [299]
    assert len(office.api("kim", "search", {"q": "zoe"}).json["holders"]) == 50


def test_names_are_text_on_every_page(office: Office) -> None:
    for number, name in enumerate(ODD_NAMES, 10):
        office.keep(Holder(number, name), Holding(101, number, "owns"))
    for badge, path in (("sue", "/office/accounts/101"), ("sue", "/office/days/1/1"), ("kim", "/office/changes"),
                        ("sue", f"/office/statements?account=101&first={LIVED}&last={LIVED}")):
        text = office.ask(badge, path).text
        assert "&lt;script&gt;alert(1)&lt;/script&gt;" in text and "<script>alert" not in text and "<b>Bold" not in text, path
    found = office.form("kim", "/office/", q="scr").text
    assert "&lt;script&gt;alert(1)&lt;/script&gt;" in found and "<script>alert" not in found
    assert office.ask("sue", "/office/api/names?accounts=101").json["accounts"]["101"][1:] == ODD_NAMES


def test_forms_of_others_are_refused(office: Office) -> None:
    fields = {"badge": "tom", "user": "8", "name": "Tom"}
    token = re.search(r'name="token" value="([^"]+)"', office.ask("kim", "/office/users").text)
    assert token
    assert office.ask("kim", "/office/users", "POST", data=fields).status_code == 403
    assert office.ask("kim", "/office/users", "POST", data={**fields, "token": token[1] + "x"}).status_code == 403
    assert office.ask("tess", "/office/users", "POST", data={**fields, "token": token[1]}).status_code == 403
    assert office.ask("kim", "/office/users", "POST", data={**fields, "token": token[1]}).status_code == 303
    for headers in ({}, {"Desk-Badge": "sue"}):
        assert office.ask("tess", "/office/api/asks", "POST", headers=headers, json=POST).status_code == 403


def test_a_keeper_changes_a_holder_by_page(office: Office) -> None:
    assert office.form("kim", "/office/holders/5", name="Zoë", since="2026-01-31").status_code == 303
    assert office.form("kim", "/office/holders/5/accounts", account="102", may="acts").status_code == 303
    assert office.form("kim", "/office/holders/5/accounts", account="102x", may="acts").status_code == 422
    assert office.form("kim", "/office/holders/5", name="").status_code == 422
    assert "Zoë" in office.ask("sue", "/office/accounts/102").text
    assert (office.ask("kim", "/office/sheets/holdings.csv").text
            == "account,holder,may\r\n101,1,owns\r\n102,5,acts\r\n201,2,owns\r\n")


def test_a_day_book_and_its_exports(office: Office) -> None:
    page = office.ask("sue", "/office/days/1/1").text
    assert "It agrees with what the bank keeps of the day" in page and "Tess T. (7)" in page
    assert office.ask("sue", "/office/days/1/1.csv").text.splitlines()[1].startswith("entry,1,11,101,1,7.00,")
    rows = office.ask("sue", "/office/ledger/1/1.csv").text.splitlines()
    assert [it.split(",")[6:9] for it in rows[1:]] == [["customer 101", "", "7.00"], ["drawer 11", "7.00", ""]]
    assert office.ask("sue", "/office/ledger/1/1.xml").status_code == 200
    assert office.ask("sue", "/office/days/1/2").status_code == 422


def test_a_statement_of_a_day_that_is_not_over_has_no_closing_balance(office: Office) -> None:
    made = int((office.copies / "present").stat().st_mtime)
    today = datetime.date.fromtimestamp(made)
    asked = f"/office/statements?account=101&first={LIVED}&last={today}"
    refused = office.ask("sue", asked)
    assert refused.status_code == 422 and f"{today} is not over by the newest copy" in refused.text and "Closing balance" not in refused.text
    assert office.ask("sue", asked.replace("statements?", "statements.csv?")).status_code == 422
    os.utime(office.copies / "present", (made + 86_400,) * 2)
    page = office.ask("sue", asked).text
    assert f"<td>{today}</td><td></td><td>Closing balance</td>" in page and "is not over" not in page


def test_the_day_book_has_who_released(office: Office) -> None:
    office.change("INSERT INTO releases (user_no, number, giver, branch, day, form, used) VALUES (7, 1, 9, 1, 1, 1, 1), (7, 2, 9, 2, 1, 1, 0)")
    page = office.ask("sue", "/office/days/1/1").text
    assert "<td>1</td><td>9</td><td>Tess T. (7)</td><td>post</td><td>used</td>" in page and "not used" not in page


def test_a_copy_is_wished_for_once_an_hour_by_who_sees_a_branch(office: Office) -> None:
    wish = office.settings.file.with_name("wants-copy")
    assert office.form("sue", "/office/days").status_code == 422 and "Make a copy now" not in office.ask("sue", "/office/days").text
    present = office.copies / "present"
    os.utime(present, (present.stat().st_mtime - 3_601,) * 2)
    assert "Make a copy now" in office.ask("sue", "/office/days").text and "Make a copy now" not in office.ask("tess", "/office/days").text
    assert office.form("tess", "/office/days").status_code == 403 and not wish.exists()
    assert office.form("sue", "/office/days").status_code == 303 and wish.exists()


def test_the_night_comes_at_most_once_an_hour_whatever_asks(tmp_path: Path) -> None:
    script = Path(__file__).resolve().parent.parent / "units/hand-evening"
    last = tmp_path / "run/bank-office-evening/last"
    last.parent.mkdir(parents=True)
    make_program(tmp_path / "systemctl", f'echo "$@" >>{tmp_path}/asked')
    environment = {"BANK_ROOT": str(tmp_path), "PATH": f"{tmp_path}:{os.environ['PATH']}"}
    for age, count in ((0, 1), (0, 1), (3_700, 2)):
        if last.exists():
            os.utime(last, (time.time() - age,) * 2)
        subprocess.run([script], env=environment, check=True)
        assert (tmp_path / "asked").read_text() == "start --no-block bank-night.service\n" * count


def test_a_release_by_the_queue(office: Office) -> None:
    number = office.api("tess", "asks", {"wish": "release", "operation": POST}).json["ask"]
    seen = office.ask("sue", "/office/api/queue").json["waiting"]
    assert [(it["ask"], it["user"], it["name"], it["operation"], it["names"]) for it in seen] == [
        (number, 7, "Tess T.", POST, {"101": ["Ann <b>One</b>"]})]
    assert office.ask("tess", "/office/api/queue").json["waiting"] == [] == office.ask("tom", "/office/api/queue").json["waiting"]
    for badge in ("tess", "tom"):
        assert office.api(badge, f"asks/{number}/answer", {"number": 1}).status_code == 422
    assert office.api("sue", f"asks/{number}/answer", {"number": "1"}).status_code == 422
    assert office.api("sue", f"asks/{number}/answer", {"number": 1}).json["state"] == "done"
    assert office.api("sam", f"asks/{number}/answer", {"number": 2}).status_code == 409
    assert [(it["state"], it["number"]) for it in office.ask("tess", "/office/api/queue").json["mine"]] == [("done", 1)]
    assert "done: number 1" in office.ask("tess", "/office/queue").text


def test_an_ask_is_withdrawn_and_few_wait_at_once(office: Office) -> None:
    operation = {"procedure": "transfer", "amount": 100, "branch": 1, "source": 101, "target": 102, "teller": 11}
    body = {"wish": "release", "operation": operation}
    numbers = [office.api("tess", "asks", body).json["ask"] for _ in range(5)]
    assert office.api("tess", "asks", body).status_code == 422
    assert office.api("tom", f"asks/{numbers[0]}/withdraw", {}).status_code == 422
    assert office.api("tess", f"asks/{numbers[0]}/withdraw", {}).json["state"] == "withdrawn"
    assert office.api("sue", f"asks/{numbers[0]}/answer", {"number": 1}).status_code == 409
    assert office.api("sue", f"asks/{numbers[1]}/answer", {"number": None, "reason": "No passport"}).json["state"] == "refused"


def test_a_correction_waits_for_a_colleague(office: Office) -> None:
    operation = {"procedure": "correct", "account": 101, "branch": 1, "delta": 700, "entry": 1, "other": 0, "teller": 11}
    assert office.api("tess", "asks", {"wish": "correct", "operation": {**operation, "procedure": "post"}}).status_code == 422
    number = office.api("tess", "asks", {"wish": "correct", "operation": operation}).json["ask"]
    assert [len(office.ask(badge, "/office/api/queue").json["waiting"]) for badge in ("tess", "tom", "sue")] == [0, 1, 0]
    assert office.api("sue", f"asks/{number}/answer", {"number": 2}).status_code == 422
    assert office.api("tom", f"asks/{number}/answer", {"number": 2}).json["state"] == "done"


def test_the_front_names_each_path_that_the_tellers_page_asks(office: Office) -> None:
    front = Path(__file__).resolve().parent.parent / "front/services/office.conf"
    named = re.findall(r"^location (?:~|=) (\S+) \{", front.read_text(encoding="utf-8"), re.MULTILINE)
    paths = {re.sub(r"<number:\w+>", "7", it.rule) for it in office.app.url_map.iter_rules()}
    unknown = [it for it in paths if it.startswith("/office/api/") and not any(re.fullmatch(name, it) for name in named)]
    assert unknown == [] and not any(re.fullmatch(name, "/office/api/holders") for name in named)
