"""Controls: each finds its planted case, and an honest month names nothing."""
import random
import re
import subprocess
from collections.abc import Callable
from dataclasses import replace
from pathlib import Path

import pytest
from tespiorvu.office import apart, cards, controls, reviews, runs
from tespiorvu.office.letterhead import Letterhead
from tespiorvu.procedures import NUMBERS
from tespiorvu.office.settings import read_settings
from tespiorvu.office.store import Refused
from tespiorvu.office.web_runs import make_runs_app
from office.tests.conftest import EVERYTHING, Office
from office.tests.policy_bank import CARL, LIMIT, TESS, PolicyBank, below_heading

CARDS = "badge,serial,valid,first,last\ntess,0A,1,1700000000,1700000900\ntom,0B,1,0,0\nsue,0C,0,5,6\n"


def honest_month(office: Office) -> PolicyBank:
    """An honest month: tellers post, correct and count, a supervisor releases, a certifier changes a limit for good."""
    bank = PolicyBank(office)
    bank.bank.bank.execute("DELETE FROM grants WHERE procedure IN (1, 2, 3) AND user_no IN (9, 10)")
    bank.night()
    chance = random.Random(4)
    for day in range(20):
        live_day(bank, chance, is_odd=day % 5 == 0)
        bank.clock = max(bank.clock, 0) + 82_800 - bank.clock % 1
    bank.command("carl", "revoke", user=8, procedure="transfer", set=2)
    bank.command("carl", "grant", user=8, procedure="transfer", set=2, limit=LIMIT // 2)
    bank.night()
    (office.settings.trail / "cards.csv").write_text(CARDS)
    return bank


@pytest.fixture
def bank(office: Office) -> PolicyBank:
    """A bank after an honest month."""
    return honest_month(office)


def live_day(bank: PolicyBank, chance: random.Random, is_odd: bool) -> None:
    """A day of the branch."""
    for _ in range(6):
        bank.post(round(10 ** chance.uniform(2, 4.5)) + chance.randrange(1, 99), chance.choice([101, 102, 103]), chance.choice([TESS, 8]))
    if is_odd:
        wrong = bank.post(777)
        bank.later()
        note(bank, "entry", bank.bank.post(1, 101, -777, undoes=wrong, user=8), "reason")
        note(bank, "line", bank.bank.line(1, 11, -5, 5), "difference")
    bank.bank.close_day(1)


def note(bank: PolicyBank, row: str, number: int, kind: str) -> None:
    """A note on a row of the open day."""
    bank.office.note(row, number, kind, day=bank.bank.of_branch("day", 1))


def found_by(bank: PolicyBank) -> dict[str, int]:
    """How many rows each control has, if it has any."""
    return {it.name: len(it.rows) for it in controls.controls_of(bank.office.settings) if it.rows}


def late_correction(bank: PolicyBank) -> None:
    """An entry is corrected two days later."""
    wrong = bank.post(400)
    bank.later(2 * 86_400)
    note(bank, "entry", bank.bank.post(1, 101, -400, undoes=wrong, user=8), "reason")


def three_corrections(bank: PolicyBank) -> None:
    """A colleague corrects three entries of one user on a day."""
    for it in range(3):
        note(bank, "entry", bank.bank.post(1, 101, -5, undoes=bank.post(5), user=8), "reason")


def woken(bank: PolicyBank) -> None:
    """An account that had no entry for half a year is drawn on."""
    bank.bank.bank.execute("UPDATE entries SET moment = moment - 200 * 86400 WHERE number = 1")
    bank.bank.bank.execute("DELETE FROM entries WHERE account = 900")
    bank.post(-5, 900)


def differences(bank: PolicyBank) -> None:
    """A drawer lacks a hundred."""
    note(bank, "line", bank.bank.line(1, 11, -10_000, 5), "difference")


def posts(*amounts: int) -> Callable[[PolicyBank], None]:
    """Posts of these amounts."""

    def plant(bank: PolicyBank) -> None:
        for it in amounts:
            bank.post(it)

    return plant


def round_sums(bank: PolicyBank) -> None:
    """Of all posts of Tess the amounts are whole hundreds."""
    bank.bank.bank.execute("UPDATE entries SET delta = 20000 WHERE user_no = 7 AND form = 1")


def two_posts(seconds: int) -> Callable[[PolicyBank], None]:
    """Two posts of one day with so much time between them by the clock, which may be set back."""

    def plant(bank: PolicyBank) -> None:
        bank.post(5)
        bank.clock += seconds
        bank.post(5)

    return plant


def in_one_hand(bank: PolicyBank) -> None:
    """A teller gets the right to release."""
    bank.command("carl", "grant", user=TESS, procedure="release", set=2, limit=5)
    bank.night()


def no_reason(bank: PolicyBank) -> None:
    """A correction and a difference without a reason, on a day that is closed."""
    bank.bank.post(1, 101, -5, undoes=bank.post(5), user=8)
    bank.bank.line(1, 11, -5, 5)
    bank.bank.close_day(1)


def second_card(bank: PolicyBank) -> None:
    """Tess has a second card."""
    (bank.office.settings.trail / "cards.csv").write_text(CARDS + "tess,0D,1,1700000500,1700000600\n")


def gap(bank: PolicyBank) -> None:
    """A line of the policy's log is gone."""
    bank.command("olga", "suspend", user=8)
    bank.night(bank.lines[:-1])


def put_back(bank: PolicyBank) -> None:
    """A limit is raised, used and put back."""
    bank.raise_and_use()
    bank.night()


def mutual(bank: PolicyBank) -> None:
    """Two supervisors release for each other."""
    for user, giver in ((9, 10), (10, 9)):
        bank.bank.put("releases", (user, 1, giver, 1, 1, 1, 101, 11, 1, 5, 0, 0, 0, 0, 0))


PLANTED: list[tuple[Callable[[PolicyBank], None], dict[str, int]]] = [
    (posts(LIMIT + 1), {"above-limit": 1}), (late_correction, {"late-corrections": 1, "long-days": 1}), (three_corrections, {"correction-pairs": 1}),
    (woken, {"woken": 1, "above-limit": 1, "long-days": 1}), (round_sums, {"round-sums": 1}),
    (posts(95_000, 99_000, LIMIT), {"structuring": 1, "sums-above-limit": 1}),
    (differences, {"differences": 1}), (posts(*[50_017] * 200), {"first-digits": 1, "sums-above-limit": 1}),
    (posts(*[60_000, -60_000] * 5), {"in-and-out": 1, "sums-above-limit": 2}),
    (mutual, {"mutual-releases": 1}), (two_posts(-3600), {"clock-back": 1}), (two_posts(2 * 86_400), {"long-days": 1}),
    (in_one_hand, {"in-one-hand": 3}), (gap, {"policy-log": 1}), (put_back, {"above-limit": 1, "put-back": 2}),
    (no_reason, {"no-reason": 2}), (second_card, {"several-cards": 1})]  # fmt: skip


def test_an_honest_month_names_nothing(bank: PolicyBank) -> None:
    assert found_by(bank) == {}
    page = below_heading(bank.office.ask("olga", "/office/controls").text)
    assert page.count("<h2") == 19 and 'class="fault"' not in page and 'class="differs"' not in page


@pytest.mark.parametrize("plant, wanted", PLANTED, ids=[next(iter(it[1])) for it in PLANTED])
def test_each_control_finds_its_planted_case(bank: PolicyBank, plant: Callable[[PolicyBank], None], wanted: dict[str, int]) -> None:
    if "first-digits" in wanted:
        bank.bank.bank.execute("UPDATE entries SET user_no = 7")
    plant(bank)
    assert found_by(bank) == wanted


def test_an_entry_by_the_card_of_runs_is_a_runs_by_slip_accounts_and_amount_or_red(bank: PolicyBank) -> None:
    bank.bank.grant(50, [NUMBERS["transfer"]], EVERYTHING, 100)
    bank.office.pay_interest(bank.bank, "2026-03-01", "2026-03-31")
    bank.bank.transfer(1, 900, 101, 77, user=50)
    handed = bank.office.settings.reasons.read_text()
    for old, new, rows in ((", 900, 101, 77", "", 2), ("77]", "78]", 4), ("101,", "102,", 3), ("100001", "9", 4)):
        bank.office.settings.reasons.write_text(handed.replace(old, new))
        assert found_by(bank) == {"no-run": rows}, new


def test_what_was_corrected_or_released_is_in_no_sum(bank: PolicyBank) -> None:
    note(bank, "entry", bank.bank.post(1, 101, -90_000, undoes=bank.post(90_000), user=8), "reason")
    for cents in (11_000, 44_000, 44_000, 44_000):
        bank.bank.transfer(1, 102, 101, cents)
    bank.bank.put("releases", (TESS, 1, 9, 1, bank.bank.of_branch("day", 1), 2, 102, 101, 11, 1, 44_000, 0, 0, 0, 1))
    assert found_by(bank) == {}
    bank.bank.bank.execute("UPDATE releases SET used = 0")
    assert found_by(bank) == {"sums-above-limit": 2}


def test_the_file_of_queries_is_read_by_sqlite_itself(bank: PolicyBank) -> None:
    in_one_hand(bank)
    command = ["sqlite3", "-batch", "-readonly", str(bank.bank.file), f".read {controls.QUERIES}"]
    ran = subprocess.run(command, capture_output=True, text=True)
    assert (ran.returncode, ran.stderr) == (0, "")
    assert re.findall(r"^(\d+) ", ran.stdout, re.MULTILINE)[:13] == [str(it) for it in range(1, 14)]
    assert re.findall(r"^7 +U +(\S+) +release", ran.stdout, re.MULTILINE) == ["correct", "post", "transfer"]


def test_the_command_has_a_status(bank: PolicyBank, capsys: pytest.CaptureFixture[str]) -> None:
    assert bank.office.command("controls") == 0
    assert "15 put-back: 0\n" in capsys.readouterr().out
    put_back(bank)
    assert bank.office.command("controls") == 1
    out = capsys.readouterr().out
    assert "15 put-back: 2, RED\n" in out and "amount 9,000.00" in out and "limit today 1,000.00" in out
    assert bank.office.command("controls", "1999") == 1


def test_pairs_are_by_settings(bank: PolicyBank) -> None:
    settings = replace(bank.office.settings, apart=(("keeper", "proof"), ("approver", "certifier"), ("post", "balance")))
    with bank.office.opened() as _:
        rows = next(it.rows for it in controls.controls_of(settings) if it.name == "in-one-hand")
    assert rows == [(2, "approver", "certifier"), (7, "post", "balance"), (8, "post", "balance")]


def test_the_pairs_of_the_queries_are_those_of_the_settings_that_are_installed() -> None:
    installed = read_settings(Path(__file__).resolve().parents[1] / "settings.toml").apart
    assert [it for it in installed if set(it) <= set(NUMBERS)] == list(controls.default_pairs())


def test_runs_do_not_start_with_an_approver_who_has_both_of_a_pair(bank: PolicyBank) -> None:
    honest = replace(bank.office.settings, approvers=frozenset({"sue", "sam"}), apart=(("approver", "certifier"), ("transfer", "release")))
    make_runs_app(honest)
    with pytest.raises(Refused, match="carl approves runs, and has approver and certifier"):
        make_runs_app(replace(honest, approvers=frozenset({"sue", "carl"})))
    bank.bank.grant(9, [NUMBERS["transfer"]], EVERYTHING)
    with pytest.raises(Refused, match="sue approves runs, and has transfer and release"):
        make_runs_app(honest)
    apart.require_apart(replace(honest, apart=()), honest.approvers)


def test_an_approver_who_became_a_certifier_approves_nothing(bank: PolicyBank) -> None:
    settings = replace(bank.office.settings, apart=(("approver", "certifier"),))
    with bank.office.opened_runs() as found, pytest.raises(Refused, match="carl approves runs"):
        runs.approve(found, settings, "carl", CARL, 1)


def test_a_review_sheet_has_all_of_a_person(bank: PolicyBank) -> None:
    second_card(bank)
    page = bank.office.ask("olga", "/office/reviews").text
    assert page.count('<section class="sheet">') == page.count("Reviewed by") == page.count("Confirmed by") == 7
    own = bank.office.ask("olga", "/office/reviews?user=7").text
    for text in ("U (user 7)", "tess", "account 101 to 199", "1,000.00", "2 are valid", "0D", "before the log", "Nothing that must not meet"):
        assert text in own, text
    assert 'class="differs"' in own and 'class="differs"' not in bank.office.ask("olga", "/office/reviews?user=8").text
    in_one_hand(bank)
    own = bank.office.ask("olga", "/office/reviews?user=7").text
    assert "post and release" in own and "carl, 20" in own
    carl = bank.office.ask("olga", f"/office/reviews?user={CARL}").text
    assert "approver" in carl and "Certifies: accounts" in carl


def test_review_sheets_are_a_page_for_each_person_in_the_letterheads_language(
    bank: PolicyBank, capsysbinary: pytest.CaptureFixture[bytes]
) -> None:
    second_card(bank)
    document = reviews.document_of(replace(bank.office.settings, letterhead=Letterhead(language="de")))
    assert (len(document.pages), document.metadata.title) == (7, "Überprüfung der Rechte")
    assert bank.office.command("reviews") == 0
    assert capsysbinary.readouterr().out.startswith(b"%PDF-")


def test_a_control_is_in_the_browsers_language(bank: PolicyBank) -> None:
    put_back(bank)
    in_one_hand(bank)
    page = bank.office.ask("olga", "/office/controls", headers={"Accept-Language": "de"}).text
    for text in ("<h2 id=\"put-back\">15 rückgängig gemacht: 2</h2>", "<th>Betrag</th>", "<td>9.000,00</td>", "<td>Ein- oder Auszahlung</td>"):
        assert text in page, text
    assert re.search(r"<td>\d\d\.\d\d\.\d{4} \d\d:\d\d:\d\d</td>", page)
    assert "<td>Umbuchung</td><td>Freigabe</td>" in page


def test_cards_without_a_hand_over_are_none(tmp_path: Path) -> None:
    assert cards.cards_in(tmp_path) == []
