"""Interest, fees and runs: to the cent, in parts, once each, approved by two."""
import datetime
import json
from fractions import Fraction
from typing import Any

import pytest
from office.tests.bank_file import BankFile
from tespiorvu.office import carry, interest, reasons, register, runs
from tespiorvu.office.copies import Copies
from tespiorvu.office.languages import language_of
from tespiorvu.office.money import MOST_PER_ENTRY, half_up, millionths_of, parts_of
from tespiorvu.office.store import Refused
from office.tests.conftest import EVERYTHING, Office, earlier_register
from hypothesis import given, strategies

FIRST, LAST = datetime.date(2026, 1, 1), datetime.date(2026, 1, 31)


@given(strategies.lists(strategies.integers(-(10**12), 10**12), max_size=400), strategies.integers(0, 10**6))
def test_interest_is_rounded_once_to_the_nearest_cent(balances: list[int], millionths: int) -> None:
    exact = Fraction(sum(max(it, 0) for it in balances) * millionths, 365 * 10**6)
    found = interest.interest_of(balances, millionths)
    assert exact - Fraction(1, 2) < found <= exact + Fraction(1, 2)


@given(strategies.integers(0, 10**9))
def test_parts_add_up_and_each_can_be_moved(cents: int) -> None:
    parts = parts_of(cents)
    assert sum(parts) == cents and all(1 <= it <= MOST_PER_ENTRY for it in parts)
    assert all(it == MOST_PER_ENTRY for it in parts[:-1])


@given(strategies.integers(0, 10**6), strategies.integers(1, 1000))
def test_half_up(number: int, divisor: int) -> None:
    assert half_up(number, divisor) == int(Fraction(number, divisor) + Fraction(1, 2))


def test_rates_have_four_places() -> None:
    assert (millionths_of("1.25"), millionths_of("0"), millionths_of("0.0001")) == (12_500, 0, 1)
    for wrong in ("-1", "101", "0.00001", "NaN"):
        with pytest.raises(ValueError):
            millionths_of(wrong)


@pytest.fixture(autouse=True)
def banked(office: Office) -> BankFile:
    """A bank that begins with the year, and in which 101 grows by 100.00 in the middle of January."""
    bank = office.bank()
    bank.at(2026, 1, 1, 8)
    bank.move(1, 0, 11, 0, 2)
    bank.grant(50, [2, 4, 5], EVERYTHING)
    bank.at(2026, 1, 16)
    bank.post(1, 101, 10_000)
    return bank


def proposed(
    office: Office, kind: str = "interest", badge: str = "kim", last: datetime.date = LAST, first: datetime.date = FIRST
) -> int:
    """A run of branch 1."""
    with office.opened_runs() as found:
        return runs.propose(found, Copies(office.copies), office.settings, badge, "office", kind, 1, first, last)


def test_interest_is_of_each_days_closing_balance(office: Office) -> None:
    run = proposed(office)
    with office.opened_runs() as found:
        lines = {it.account: it for it in runs.lines_of(found, run)}
    # 15 days of 500.00 and 16 of 600.00 at 1.25 percent.
    assert lines[101].amount == half_up((15 * 50_000 + 16 * 60_000) * 12_500, 365 * 10**6) == 59
    assert (lines[101].source, lines[101].target, lines[101].slip, set(lines)) == (900, 101, 100_001, {101, 102, 103})


def test_a_period_is_run_once_and_only_when_it_is_over(office: Office) -> None:
    proposed(office)
    with pytest.raises(Refused, match="has interest from 2026-01-01"):
        proposed(office)
    assert proposed(office, "fee") == 2
    with pytest.raises(Refused, match="is not over by the newest copy"):
        proposed(office, "fee", last=datetime.date.today())
    with pytest.raises(Refused, match="first day is 2026-01-01"):
        proposed(office, "fee", first=FIRST - datetime.timedelta(1))


def test_a_run_never_gets_a_number_whose_slips_the_bank_has(office: Office) -> None:
    office.change("INSERT INTO slips (user_no, slip) VALUES (50, 700012)")
    assert proposed(office) == 8


def test_two_persons_approve_and_not_who_proposed(office: Office) -> None:
    run = proposed(office, badge="sue")
    with office.opened_runs() as found:
        for badge, user, why in (("sue", 9, "Who proposed"), ("kim", 3, "approve no runs")):
            with pytest.raises(Refused, match=why):
                runs.approve(found, office.settings, badge, user, run)
        assert not runs.approve(found, office.settings, "sam", 10, run)
        with pytest.raises(Refused, match="You have approved"):
            runs.approve(found, office.settings, "sam", 10, run)
        with pytest.raises(Refused, match="is proposed"):
            carry.carry_out(found, FakeBank(), run)


# The member by which the drawer of a run has its cash, of which there is none.
CASH_OF = {"drawer-on": "cash", "drawer-off": "counted"}


class FakeBank:
    """A bank that takes each slip once. It stops after n transfers, and refuses those to some accounts."""

    def __init__(self, stops_after: int = 10**9, refuses: frozenset[int] = frozenset()) -> None:
        self.taken: dict[int, dict[str, int]] = {}
        self.asked: list[str] = []
        self.stops_after, self.refuses = stops_after, refuses

    def ask(self, name: str, body: dict[str, int], slip: int = 0) -> carry.Reply:
        self.asked.append(name)
        if name != "transfer":
            assert body == {"branch": 1, "teller": 90, CASH_OF[name]: 0}
            return carry.Reply(200, {})
        if body["target"] in self.refuses:
            return carry.Reply(409, {"name": "floor", "rule": 11})
        assert self.taken.setdefault(slip, body) == body
        if len(self.taken) >= self.stops_after:
            raise carry.Unanswered("stopped")
        return carry.Reply(200, {"first": slip})


def approved(office: Office, kind: str = "interest") -> int:
    """A run that two have approved."""
    run = proposed(office, kind)
    with office.opened_runs() as found:
        assert [runs.approve(found, office.settings, *who, run) for who in (("sue", 9), ("sam", 10))] == [False, True]
    return run


def carried(office: Office, bank: Any, run: int) -> tuple[int, int]:
    with office.opened_runs() as found:
        return carry.carry_out(found, bank, run)


def test_a_run_that_is_cut_acts_once(office: Office) -> None:
    run = approved(office)
    bank = FakeBank(stops_after=2)
    with pytest.raises(carry.Unanswered):
        carried(office, bank, run)
    bank.stops_after = 10**9
    assert carried(office, bank, run) == (3, 0)
    assert sorted(bank.taken) == [100_001, 100_002, 100_003]
    with pytest.raises(Refused, match="is carried out"):
        carried(office, bank, run)


def test_the_office_has_each_transfer_before_it_is_sent(office: Office, monkeypatch: pytest.MonkeyPatch) -> None:
    approved(office)
    proposed(office, "fee")
    monkeypatch.setattr(carry, "Bank", lambda settings: FakeBank(stops_after=1))
    assert office.command("carry-out") == 3
    (office.copies / "badges.csv").write_text("badge,user\n")
    for _ in range(2):
        user, handed = reasons.handed(office.settings.reasons)
        assert (user, [*handed], office.command("save", "runs")) == (50, [100_001, 100_002, 100_003], 0)


def test_a_large_amount_goes_in_parts_and_stops_where_one_is_refused(office: Office, banked: BankFile) -> None:
    banked.post(1, 101, 4_800_000_000)
    run = approved(office)
    with office.opened_runs() as found:
        lines = [it for it in runs.lines_of(found, run) if it.account == 101]
        assert [it.amount for it in lines] == [999_999, 999_999, sum(it.amount for it in lines) - 1_999_998] and len(lines) == 3
    bank = FakeBank(refuses=frozenset({101}))
    assert carried(office, bank, run) == (2, 3)
    with office.opened_runs() as found:
        replies = [language_of("en").kept(it.reply) for it in runs.lines_of(found, run) if it.account == 101]
        assert replies[1:] == ["not sent after part 1"] * 2
        runs.try_refused_again(found, office.settings, "sue", run)
    bank.refuses = frozenset()
    assert carried(office, bank, run) == (5, 0)
    assert sum(it["amount"] for it in bank.taken.values() if it["target"] == 101) == sum(it.amount for it in lines)


def test_a_run_of_which_nothing_was_carried_out_is_withdrawn_and_its_period_proposed_anew(office: Office) -> None:
    run = approved(office)
    assert carried(office, FakeBank(refuses=frozenset({101, 102, 103})), run) == (0, 3)
    assert "Withdraw" in office.ask("sue", f"/office/runs/{run}").text
    with office.opened_runs() as found, pytest.raises(Refused, match="approve no runs"):
        runs.withdraw(found, office.settings, "kim", run)
    assert office.form("sue", f"/office/runs/{run}/withdraw").status_code == 303
    again = approved(office)
    assert (again, carried(office, FakeBank(), again)) == (run + 1, (3, 0))
    with office.opened_runs() as found:
        with pytest.raises(Refused, match="may be done"):
            runs.withdraw(found, office.settings, "sue", again)
        with pytest.raises(Refused, match="is not carried out"):
            runs.try_refused_again(found, office.settings, "sue", run)


def test_a_run_of_which_a_transfer_was_sent_is_not_withdrawn(office: Office) -> None:
    run, other = approved(office), approved(office, "fee")
    bank = FakeBank(stops_after=1)
    with pytest.raises(carry.Unanswered):
        carried(office, bank, run)
    assert "Withdraw" not in office.ask("sue", f"/office/runs/{run}").text
    with office.opened_runs() as found:
        assert runs.next_waiting(found, run) == runs.lines_of(found, run)[0]
        with pytest.raises(Refused, match="may be done"):
            runs.withdraw(found, office.settings, "sue", run)
        runs.withdraw(found, office.settings, "sue", other)
        with pytest.raises(Refused, match="is withdrawn"):
            runs.note_begun(found, other)
        with pytest.raises(Refused, match="is withdrawn"):
            carry.carry_out(found, bank, other)
    bank.stops_after = 10**9
    assert carried(office, bank, run) == (3, 0)


def test_a_run_that_is_withdrawn_while_its_drawer_is_put_on_sends_nothing(office: Office) -> None:
    run = approved(office)

    class Slow(FakeBank):
        def ask(self, name: str, body: dict[str, int], slip: int = 0) -> carry.Reply:
            if name == "drawer-on":
                with office.opened_runs() as found:
                    runs.withdraw(found, office.settings, "sue", run)
            return super().ask(name, body, slip)

    bank = Slow()
    with pytest.raises(Refused, match="is withdrawn"):
        carried(office, bank, run)
    assert bank.taken == {}


@pytest.mark.parametrize("text, why", [
    ("UPDATE tellers SET branch = 2 WHERE teller = 90", "teller 90 is of branch 2"),
    ("DELETE FROM tellers WHERE teller = 90", "teller 90 is of no branch"),
    ("DELETE FROM accounts WHERE account = 900", "there is no account 900"),
    ("DELETE FROM grants WHERE user_no = 50 AND procedure = 2", "no triple for transfer on .*account 101"),
    ("DELETE FROM grants WHERE user_no = 50 AND procedure = 4", "no triple for drawer-on on teller 90"),
    ("UPDATE grants SET ceiling = 1 WHERE user_no = 50 AND procedure = 2", "no triple for transfer"),
    ("UPDATE users SET suspended = 1 WHERE user_no = 50", "no triple for drawer-on"),
])  # fmt: skip
def test_a_run_that_the_bank_would_refuse_is_not_proposed(office: Office, text: str, why: str) -> None:
    office.change(text)
    with pytest.raises(Refused, match=why):
        proposed(office)


def test_fees_go_the_other_way(office: Office) -> None:
    run = proposed(office, "fee")
    with office.opened_runs() as found:
        assert [(it.source, it.target, it.amount) for it in runs.lines_of(found, run)] == [
            (it, 900, 250) for it in (101, 102, 103)]


@pytest.mark.parametrize("status, body, decided", [
    (200, {"first": 1}, True), (409, {"name": "floor", "rule": 11}, True), (503, {"fault": "F1"}, False),
    (503, {"fault": "F3"}, False), (503, {"fault": "F2"}, True), (502, {"front": "no reply"}, False),
    (429, {"front": "too many"}, False), (422, {"fault": "M6"}, True),
])  # fmt: skip
def test_only_the_bank_decides(status: int, body: dict[str, object], decided: bool) -> None:
    assert carry.decides(carry.Reply(status, body)) is decided


def test_two_badges_of_one_user_are_one_person(office: Office) -> None:
    first, second = proposed(office, badge="sue"), proposed(office, "fee", badge="sam2")
    statuses = [office.form(badge, f"/office/runs/{first}/approve").status_code for badge in ("sam", "sam2", "carl")]
    assert statuses == [303, 422, 303]
    assert office.form("sam", f"/office/runs/{second}/approve").status_code == 422
    with office.opened_runs() as found:
        assert [runs.run_of(found, it)["state"] for it in (first, second)] == ["approved", "proposed"]


def test_approvers_see_names_of_their_triples_alone(office: Office) -> None:
    run = proposed(office)
    office.keep(register.Holder(1, "Ann One"), register.Holding(101, 1, "owns"))
    for badge, is_shown in (("sue", True), ("carl", False)):
        page = office.ask(badge, f"/office/runs/{run}")
        assert (page.status_code, "Ann One" in page.text) == (200, is_shown), badge


def test_a_run_is_shown_without_names_where_the_register_can_not_be_read(office: Office) -> None:
    run = proposed(office)
    office.settings.file.unlink(missing_ok=True)
    assert "Run 1: interest" in office.ask("sue", f"/office/runs/{run}").text
    assert not office.settings.file.exists()


def test_the_office_has_no_page_of_runs_and_no_row_of_them(office: Office) -> None:
    run = proposed(office)
    for path in ("/office/runs", f"/office/runs/{run}", f"/office/runs/{run}/approve"):
        assert office.app.test_client().get(path, headers={"Bank-Badge": "sue"}).status_code == 404, path
    assert office.runs_app.test_client().get("/office/users", headers={"Bank-Badge": "sue"}).status_code == 404
    with office.opened() as found:
        tables = {it["name"] for it in found.execute("SELECT name FROM sqlite_master WHERE type = 'table'")}
    assert tables & {"runs", "run_lines", "approvals"} == set()


def test_runs_of_an_earlier_register_are_taken_over_once(office: Office) -> None:
    office.settings.file.unlink(missing_ok=True)
    with earlier_register(office.settings.file) as found:
        found.execute("INSERT INTO runs VALUES (3, 'fee', 1, 90, '2026-01-01', '2026-01-31', 5, 'kim', '6', 'approved')")
        found.execute("INSERT INTO runs VALUES (4, 'fee', 1, 90, '2026-02-01', '2026-02-28', 5, '(command)', '6', 'proposed')")
        found.execute("INSERT INTO run_lines VALUES (3, 1, 101, 1, 1, 101, 900, 250, 300001, 'fee', 'done', '{}', 7)")
        found.execute("INSERT INTO run_lines VALUES (3, 2, 102, 1, 1, 102, 900, 250, 300002, 'fee', 'waiting', '', NULL)")
        found.executemany("INSERT INTO approvals VALUES (3, ?, 8)", [("sue",), ("gone",)])
    assert office.command("save", "runs") == 0
    with office.opened_runs() as found:
        assert [(it["badge"], it["user"]) for it in runs.approvals_of(found, 3)] == [("gone", None), ("sue", 9)]
        assert [(it["run"], it["user"], it["state"]) for it in found.execute("SELECT * FROM runs ORDER BY run")] == [
            (3, 3, "approved"), (4, None, "proposed")]
    bank = FakeBank()
    assert (carried(office, bank, 3), sorted(bank.taken)) == ((2, 0), [300_002])
    with office.opened() as found:  # what is changed there later is not taken again
        found.execute("UPDATE runs SET state = 'approved'")
    with office.opened_runs() as found:
        assert [it["state"] for it in found.execute("SELECT * FROM runs ORDER BY run")] == ["carried out", "proposed"]


def test_a_change_of_a_run_that_is_taken_away_shows(office: Office, capsys: pytest.CaptureFixture[str]) -> None:
    run = approved(office)
    assert office.command("save", "runs") == 0
    assert "3 changes, sum " in capsys.readouterr().out
    with office.opened_runs() as found:
        assert [json.loads(it["new"]).get("approved by") for it in found.execute("SELECT * FROM changes ORDER BY change")] == [None, "sue", "sam"]
        found.execute("DROP TRIGGER changes_are_kept")
        found.execute("DELETE FROM changes WHERE change = 2")
        assert runs.run_of(found, run)["state"] == "approved"
    assert office.command("save", "runs") == 1
    assert "change 3 does not follow from the one before" in capsys.readouterr().err
