"""The policy's log, replayed night by night: it equals each night's copy, and what it lacks is said."""
import datetime
import json
import sqlite3
import time
from typing import Any

import pytest
from tespiorvu.office import policy_file, rights
from tespiorvu.office.commands import ENGLISH
from tespiorvu.office.policy_file import opened_policy
from tespiorvu.office.store import Refused
from tespiorvu.policy import policy_of
from office.tests.conftest import Office
from hypothesis import HealthCheck, given, settings, strategies
from office.tests.policy_bank import BEGUN, CARL, LIMIT, OLGA, TESS, PolicyBank, below_heading


@pytest.fixture
def bank(office: Office) -> PolicyBank:
    """The bank, with its first night taken."""
    bank = PolicyBank(office)
    assert bank.night().state == "begun"
    return bank


def known_at(bank: PolicyBank, moment: float) -> rights.Rights:
    """The rights at a moment."""
    with opened_policy(bank.office.settings) as found:
        return rights.rights_at(found, moment)


def require_replayed(night: policy_file.Night, version: int) -> None:
    """Passes if a night's copy is what the log gives, at this version."""
    assert (night.state, night.version, night.fault) == ("replayed", version, "")


def all_kinds(bank: PolicyBank) -> None:
    """A command of each kind, and refused ones between."""
    bank.command("carl", "define-set", set=50, members=[[1, 101, 103], [3, 1, 1]])
    bank.command("carl", "certify", procedure="balance", set=50)
    bank.command("carl", "grant", "403", "403", user=TESS, procedure="post", set=50, limit=7)
    bank.command("carl", "grant", user=TESS, procedure="balance", set=50, limit=0, first=5, last=BEGUN + 10**6)
    bank.command("olga", "enrol", user=30, name="Ida", officer=False)
    bank.command("olga", "appoint", user=30, procedure="post")
    bank.command("olga", "suspend", user=TESS)
    bank.command("olga", "restore", user=TESS)
    bank.command("olga", "dismiss", user=30, procedure="post")
    bank.command("cora", "withdraw", procedure="balance", set=50)
    bank.command("cora", "certify", procedure="balance", set=50)
    bank.command("carl", "revoke", user=TESS, procedure="post", set=1)
    bank.command("carl", "grant", user=TESS, procedure="post", set=1, limit=50_000)


def test_replay_equals_each_nights_copy(bank: PolicyBank) -> None:
    all_kinds(bank)
    require_replayed(bank.night(), 12)
    bank.command("olga", "suspend", user=30)
    require_replayed(bank.night(), 13)
    assert bank.night().state == "replayed"
    with opened_policy(bank.office.settings) as found:
        assert [it.version for it in rights.changes_of(found)] == list(range(1, 14))


STEPS = strategies.lists(strategies.tuples(strategies.sampled_from(["grant", "revoke", "withdraw", "certify", "suspend", "restore", "appoint", "dismiss"]),
                                           strategies.sampled_from([7, 8, 30, 31]), strategies.sampled_from(["post", "transfer"]),
                                           strategies.sampled_from([1, 2]), strategies.integers(0, 999)), max_size=25)  # fmt: skip


@settings(max_examples=10, suppress_health_check=[HealthCheck.function_scoped_fixture])
@given(STEPS)
def test_replay_of_any_commands_equals_the_copy(tmp_path_factory: pytest.TempPathFactory, steps: list[tuple[str, int, str, int, int]]) -> None:
    bank = PolicyBank(Office(tmp_path_factory.mktemp("office")))
    bank.night()
    for user in (30, 31):
        bank.command("olga", "enrol", user=user, name="X", officer=False)
    for name, user, procedure, number, limit in steps:
        body: dict[str, Any] = {"user": user, "procedure": procedure, "set": number}
        body = {it: body[it] for it in {"certify": ["procedure", "set"], "withdraw": ["procedure", "set"], "suspend": ["user"], "restore": ["user"],
                                        "appoint": ["user", "procedure"], "dismiss": ["user", "procedure"]}.get(name, body)}  # fmt: skip
        if name == "grant":
            body["limit"] = limit
        if would_do(bank, name, body):
            bank.command("olga" if name in ("suspend", "restore", "appoint", "dismiss") else "carl", name, **body)
    night = bank.night()
    assert (night.state, night.fault) == ("replayed", "")


def would_do(bank: PolicyBank, name: str, body: dict[str, Any]) -> bool:
    """Whether the bank's rules about what is there let a command be."""
    known = policy_of(bank.bank.bank)
    user, procedure, number = body.get("user"), body.get("procedure"), body.get("set")
    has = {"grant": ("triple", user, procedure, number) in known, "revoke": ("triple", user, procedure, number) in known,
           "withdraw": ("relation", procedure, number) in known, "certify": ("relation", procedure, number) in known,
           "suspend": ("suspended", user) in known, "restore": ("suspended", user) in known,
           "appoint": ("certifier", user, procedure) in known, "dismiss": ("certifier", user, procedure) in known}[name]  # fmt: skip
    is_certified = name != "grant" or ("relation", procedure, number) in known
    return is_certified and has == (name in ("revoke", "withdraw", "restore", "dismiss"))


def test_a_line_that_is_missing_is_said_in_red_and_the_next_night_goes_on(bank: PolicyBank) -> None:
    all_kinds(bank)
    lines = [it for it in bank.lines if "appoint" not in it]
    night = bank.night(lines)
    assert (night.state, "1 of 12 commands are missing" in ENGLISH.kept(night.fault)) == ("gap", True)
    page = below_heading(bank.office.ask("olga", "/office/rights/changes").text)
    assert 'class="fault"' in page and "1 of 12 commands are missing" in page
    bank.command("olga", "suspend", user=30)
    night = bank.night(lines + bank.lines[-1:])
    assert (night.state, night.version) == ("replayed", 13)
    assert "missing" in bank.office.ask("olga", "/office/rights/changes").text


def test_a_line_that_is_another_is_said_by_its_row(bank: PolicyBank) -> None:
    bank.command("carl", "revoke", user=TESS, procedure="post", set=1)
    bank.command("carl", "grant", user=TESS, procedure="post", set=1, limit=999_999)
    night = bank.night([it.replace("999999", "100000") for it in bank.lines])
    row = "triple 7 post 1: 999999, 0, 99999999999 in the copy, 100000, 0, 99999999999 by the log"
    assert (night.state, row in ENGLISH.kept(night.fault)) == ("gap", True), night.fault


def test_a_line_without_a_command_is_said(bank: PolicyBank) -> None:
    bank.command("olga", "suspend", user=TESS)
    extra = bank.line("carl", "grant", {"user": 8, "procedure": "release", "set": 1, "limit": 1}, "200", "200").replace('"request": "', '"request": "x')
    assert bank.night([*bank.lines, extra]).state != "replayed"


def test_a_command_whose_reply_was_lost_is_taken_if_the_copy_has_it(bank: PolicyBank) -> None:
    bank.command("olga", "suspend", "504", "200", user=TESS)
    bank.command("olga", "restore", "502", "-", user=8)  # not done
    bank.bank.bank.execute("UPDATE users SET suspended = 1 WHERE user_no = 8")
    bank.bank.bank.execute("UPDATE bank SET policy = policy + 1")
    bank.clock += 60
    bank.lines.append(bank.line("olga", "suspend", {"user": 8}, "499", "-"))  # done
    require_replayed(bank.night(), 2)
    assert "no reply came" in bank.office.ask("olga", "/office/rights/changes").text


def test_the_versions_say_on_which_side_of_a_copy_a_command_is(bank: PolicyBank) -> None:
    bank.command("olga", "suspend", user=8)
    bank.clock += 3599
    late = bank.line("olga", "restore", {"user": 8}, "200", "200")
    late = late.replace(f'"ended": {bank.clock + 0.25}', f'"ended": {bank.clock + 0.95}')  # a twentieth before the copy that lacks it
    bank.clock -= 3599
    require_replayed(bank.night([*bank.lines, late]), 1)
    bank.carry_out(OLGA, "restore", {"user": 8})
    bank.bank.bank.execute("UPDATE bank SET policy = policy + 1")
    require_replayed(bank.night([*bank.lines, late]), 2)


def test_what_the_first_copy_had_of_the_log_is_not_cut(bank: PolicyBank) -> None:
    bank.clock += 1
    own = bank.line("carl", "certify", {"procedure": "release", "set": 2}, "200", "200")  # written a second after the copy that has it
    bank.command("olga", "suspend", user=8)
    require_replayed(bank.night([own, *bank.lines]), 1)


def test_many_commands_without_a_reply_that_were_not_done_are_passed_over(bank: PolicyBank) -> None:
    bank.command("olga", "suspend", user=8)
    for _ in range(30):
        bank.command("carl", "revoke", "503", "503", user=TESS, procedure="post", set=1)
    require_replayed(bank.night(), 1)


def test_a_copy_of_the_log_is_made_also_before_the_first_night(office: Office) -> None:
    assert office.command("save", "policy") == 0
    folder = office.settings.file.with_name("policy-log")
    assert (folder.stat().st_mode & 0o777, len(list((folder / "saved").glob("2*Z")))) == (0o700, 1)


def test_after_a_restore_the_log_is_cut_at_the_copys_version_and_what_was_cut_is_listed(bank: PolicyBank) -> None:
    bank.command("carl", "revoke", user=8, procedure="post", set=2)
    bank.night()
    saved = sqlite3.connect(":memory:")
    bank.bank.bank.backup(saved)
    bank.command("olga", "suspend", user=8)
    bank.night()
    bank.command("olga", "enrol", user=44, name="Lost", officer=False)
    saved.backup(bank.bank.bank)
    bank.command("carl", "grant", user=8, procedure="post", set=2, limit=5)
    night = bank.night()
    is_said = "2 commands after it are cut" in ENGLISH.kept(night.fault)
    assert (night.state, night.version, is_said) == ("restored", 2, True), night.fault
    page = below_heading(bank.office.ask("olga", "/office/rights/changes").text)
    assert "enrol" in page and "suspend" in page and "Lost" in page
    assert ("suspended", 8) not in known_at(bank, bank.clock).policy
    assert known_at(bank, bank.clock).policy["triple", 8, "post", 2][0] == 5
    bank.command("olga", "suspend", user=8)
    assert bank.night().state == "replayed"
    assert bank.office.command("explain", str(night.night), "the disk failed") == 0
    assert "the disk failed" in bank.office.ask("olga", "/office/rights/changes").text


def test_a_year_that_is_closed_changes_nothing_of_the_log(bank: PolicyBank) -> None:
    all_kinds(bank)
    bank.bank.close_day(1)
    bank.bank.bank.execute("DELETE FROM entries")  # as in the next year's file
    assert bank.night().state == "replayed"


def test_the_command_takes_the_log_and_says_what_is_missing(bank: PolicyBank, capsys: pytest.CaptureFixture[str]) -> None:
    bank.command("olga", "suspend", user=8)
    bank.night()
    assert bank.office.command("take-policy") == 0
    assert "version 1, replayed" in capsys.readouterr().out
    bank.command("olga", "restore", user=8)
    bank.night(bank.lines[:-1])
    assert bank.office.command("take-policy") == 1
    assert "1 of 1 commands are missing" in capsys.readouterr().err


def test_lines_that_had_no_room_are_said_by_their_night(bank: PolicyBank) -> None:
    lost = '{"time":"2026-11-30T10:00:00+00:00","lost":3}'
    assert [bank.night([*bank.lines, lost]).lost, bank.night([*bank.lines, lost]).lost] == [3, 0]
    assert bank.office.ask("olga", "/office/rights/changes").text.count("3 lines had no room") == 1


def test_a_night_is_never_changed(bank: PolicyBank) -> None:
    with opened_policy(bank.office.settings) as found:
        for statement in ("UPDATE nights SET state = 'replayed'", "DELETE FROM nights"):
            with pytest.raises(Exception, match="a night is never"):
                found.execute(statement)


def test_rights_at_a_moment_have_who_granted(bank: PolicyBank) -> None:
    bank.clock += 86_400
    bank.command("carl", "revoke", user=TESS, procedure="post", set=1)
    bank.command("cora", "grant", user=TESS, procedure="post", set=1, limit=70_000)
    at = bank.clock + 1
    bank.clock += 86_400
    bank.command("carl", "revoke", user=TESS, procedure="post", set=1)
    bank.night()
    key = "triple", TESS, "post", 1
    assert (known_at(bank, BEGUN + 3700).policy[key][0], known_at(bank, at).policy[key][0], key in known_at(bank, bank.clock).policy) == (LIMIT, 70_000, False)
    known = known_at(bank, at)
    assert (known.since[key].badge, known.fault) == ("cora", "")
    with pytest.raises(Refused, match="begins later"):
        known_at(bank, BEGUN)


def test_a_night_of_this_second_is_shown(bank: PolicyBank) -> None:
    """A copy has its moment with a fraction; one that is later than the clock's whole second, even by much, has the rights of now."""
    bank.clock = int(time.time())
    bank.command("olga", "enrol", user=30, name="Ida", officer=False)
    bank.night()
    for path in ("rights", f"rights?at={datetime.date.today() + datetime.timedelta(1)}", "reviews"):
        assert "Ida" in bank.office.ask("olga", f"/office/{path}").text, path


def test_rights_in_a_gap_are_said_not_to_be_known(bank: PolicyBank) -> None:
    bank.command("olga", "suspend", user=8)
    at = bank.clock + 1
    bank.night([])
    assert "1 of 1 commands are missing" in ENGLISH.kept(known_at(bank, at).fault)
    assert known_at(bank, bank.clock).fault == ""


def test_a_limit_raised_used_and_put_back_is_a_red_row(bank: PolicyBank) -> None:
    bank.post(90_000)
    bank.command("carl", "grant", user=8, procedure="release", set=2, limit=5)
    bank.night()
    page = below_heading(bank.office.ask("olga", "/office/rights/changes").text)
    assert 'class="fault"' not in page and 'class="differs"' not in page
    bank.raise_and_use()
    bank.night()
    page = below_heading(bank.office.ask("olga", "/office/rights/changes").text)
    red = [it for it in page.split("<tr") if it.startswith(' class="fault"')]
    assert len(red) == 2 and all("9,000.00 is above the limit before or after" in it and "carl" in it for it in red)
    assert "10.00" not in red[0]


def test_what_was_put_back_unused_or_by_a_release_is_no_red_row(bank: PolicyBank) -> None:
    bank.raise_and_use(amount=40_000)
    bank.night()
    assert 'class="fault"' in below_heading(bank.office.ask("olga", "/office/rights/changes").text)  # there was no right at all between the two
    bank.bank.put("releases", (7, 1, 9, 1, bank.bank.of_branch("day", 1), 1, 101, 11, 1, 40_000, 0, 0, 0, 0, 1))
    page = below_heading(bank.office.ask("olga", "/office/rights/changes").text)
    assert 'class="fault"' not in page and 'class="differs"' in page


def test_a_right_that_ends_by_itself_within_a_day_is_a_red_row_if_it_was_used(bank: PolicyBank) -> None:
    bank.command("carl", "define-set", set=60, members=[[1, 101, 101], [2, 11, 11], [3, 1, 1], [4, 1, 1], [5, 11, 11]])
    bank.command("carl", "certify", procedure="post", set=60)
    bank.command("carl", "grant", user=TESS, procedure="post", set=60, limit=999_999, first=0, last=bank.clock + 3600)
    bank.night()
    assert "ends by itself" in bank.office.ask("olga", "/office/rights/changes").text
    bank.clock -= 3600
    bank.post(500_000)
    page = below_heading(bank.office.ask("olga", "/office/rights/changes").text)
    assert "5,000.00 is above the limit" in page


def test_pages_are_for_officers_and_auditors(bank: PolicyBank) -> None:
    for path in ("rights", "rights/changes", "controls", "reviews"):
        assert [bank.office.ask(badge, f"/office/{path}").status_code for badge in ("olga", "kim", "tess", "sue")] == [200, 403, 403, 403], path
    assert json.dumps(CARL) in bank.office.ask("olga", "/office/rights").text
