"""Day books, the ledger and camt.053 over random days: sums are the proof's, debits equal credits; statements over years."""
import datetime
import os
import pwd
import re
import shutil
import subprocess
import tempfile
from contextlib import ExitStack
from pathlib import Path
from typing import Any
from xml.etree import ElementTree

import pytest
from office.tests.bank_file import BRANCHES, OPENING, BankFile
from tespiorvu.office import books, camt, ledger, statements
from tespiorvu.office.copies import Copies, Copy, opened_copy
from tespiorvu.office.languages import from_kept, language_of
from tespiorvu.office.reasons import Reason
from tespiorvu.office.store import Refused
from office.tests.conftest import INTEREST, Office
from hypothesis import given, settings, strategies

SCHEMA = Path(__file__).resolve().parent.parent / "schemas/camt.053.001.08.xsd"
ALL = [it for accounts in BRANCHES.values() for it in accounts]
AMOUNTS = strategies.integers(0, 999_999)
STEPS = strategies.lists(
    strategies.one_of(
        strategies.tuples(strategies.just("post"), strategies.sampled_from(ALL), strategies.integers(-999_999, 999_999)),
        strategies.tuples(strategies.just("correct"), strategies.integers(0, 30), AMOUNTS),
        strategies.tuples(strategies.just("transfer"), strategies.permutations(ALL).map(lambda it: it[:2]), AMOUNTS),
        strategies.tuples(strategies.just("move"), strategies.sampled_from([(0, 11), (11, 12), (12, 0)]), AMOUNTS),
        strategies.tuples(strategies.just("off"), strategies.sampled_from([11, 12]), AMOUNTS),
        strategies.tuples(strategies.just("close"), strategies.just(0), strategies.just(0)),
    ),
    max_size=30,
)
ENTERED: list[tuple[str, object, int]] = [
    ("post", 101, 250), ("post", 201, -300), ("transfer", (101, 202), 100), ("correct", 0, 0)]  # fmt: skip
NAMES = {"c": camt.NAMESPACE}


def live(bank: BankFile, steps: list[tuple[str, object, int]]) -> None:
    """Carries steps out at branch 1."""
    posts: list[tuple[int, int, int]] = []
    for step, what, amount in steps:
        match step, what:
            case "post", int(account):
                posts.append((bank.post(1, account, amount), account, amount))
            case "correct", int(which) if posts:
                number, account, delta = posts.pop(which % len(posts))
                bank.post(1, account, -delta, teller=12, undoes=number, user=8)
            case "transfer", (int(source), int(target)):
                bank.transfer(1, source, target, amount)
            case "move", (int(source), int(target)):
                bank.move(1, source, target, amount)
            case "off", int(teller):
                bank.drawer_off(1, teller, amount)
            case "close", _:
                bank.close_day(1)
                posts = []


def require_true_day(copy: Copy, branch: int, day: int) -> list[ledger.Posting]:
    """A day whose book agrees with its proof, and whose postings balance and move what it says."""
    book = books.day_book(copy, branch, day)
    assert book.faults == []
    assert sum(it.delta for it in book.entries) == book.after.balance - book.before.balance
    postings = ledger.postings_of(book)
    assert sum(it.cents for it in postings) == 0 and ledger.imbalance(postings) == []
    for name in ("vault", "drawer", "differences"):
        moved = sum(it.cents for it in postings if it.ledger.split()[0] == name)
        due = {"vault": book.after.vault - book.before.vault, "drawer": book.after.drawers - book.before.drawers,
               "differences": book.before.differences - book.after.differences}[name]
        assert moved == due, name
    return postings


@given(STEPS)
@settings(max_examples=80)
def test_random_days_agree_and_balance(steps: list[tuple[str, object, int]]) -> None:
    with tempfile.TemporaryDirectory() as folder:
        bank = BankFile(Path(folder, "present"))
        live(bank, steps)
        with Copies(Path(folder)).present() as copy:
            days = books.days_of([copy], 1)
            postings = [it for day in days for it in require_true_day(copy, 1, day.day)]
            owed = {account: sum(-it.cents for it in postings if it.ledger == f"customer {account}") for account in ALL}
            for row in copy.rows("SELECT account, balance - opening AS moved FROM accounts"):
                assert owed[row["account"]] == row["moved"]
            # What one branch owes another, that other has to claim.
            between = {
                it: sum(one.cents for one in postings if one.branch == it and one.ledger.startswith("branch ")) for it in (1, 2)
            }
            assert between[1] == -between[2]


def test_a_row_that_is_changed_shows(tmp_path: Path) -> None:
    for text, told in (("UPDATE entries SET delta = delta + 1 WHERE number = 1", "balance: "),
                       ("UPDATE lines SET amount = amount + 1 WHERE place = 0", "vault: "),
                       ("DELETE FROM entries WHERE number = 2", "entries: "),
                       ("UPDATE lines SET amount = amount + 1 WHERE number = 3 ", "")):
        bank = BankFile(tmp_path / "present")
        bank.move(1, 0, 11, 5_000, 2)
        bank.post(1, 101, 700)
        bank.post(1, 102, 900)
        bank.close_day(1)
        bank.bank.execute(text)
        with Copies(tmp_path).present() as copy:
            book = books.day_book(copy, 1, 1)
            assert any(str(it).startswith(told) for it in book.faults) if told else not book.faults
            with pytest.raises(Refused):
                ledger.postings_of(book)
        (tmp_path / "present").unlink()


def test_corrections_name_what_they_correct_and_by_whom(tmp_path: Path) -> None:
    bank = BankFile(tmp_path / "present")
    wrong = bank.post(1, 101, 12_000)
    bank.post(1, 101, -12_000, teller=12, undoes=wrong, user=8)
    with Copies(tmp_path).present() as copy:
        first, second = books.day_book(copy, 1, 1).entries
    assert (first.undone_by, first.undone_by_user, second.undoes, second.undoes_user) == (2, 8, 1, 7)


def statement_of(folder: Path, steps: list[tuple[str, object, int]], *more: Any) -> str:
    """The camt.053 of a closed day of these steps; more may be the language, and reasons."""
    bank = BankFile(folder / "present")
    live(bank, steps)
    bank.close_day(1)
    with Copies(folder).present() as copy:
        book = books.day_book(copy, 1, 1, books.years_of([copy])[0])
        return camt.statement_xml(book, "EUR", copy.made, "2026-11-29", *more)


def validated(text: str) -> subprocess.CompletedProcess[str]:
    """What xmllint says of a document."""
    return subprocess.run(["xmllint", "--noout", "--nonet", "--schema", SCHEMA, "-"], input=text, capture_output=True, text=True)


@pytest.mark.skipif(not shutil.which("xmllint"), reason="xmllint (package libxml2-utils)")
def test_camt_is_of_its_schema_and_adds_up(tmp_path: Path) -> None:
    text = statement_of(tmp_path, [*ENTERED, ("off", 11, 40)])
    assert (ran := validated(text)).returncode == 0, ran.stderr
    sides = {"CRDT": 1, "DBIT": -1}

    def signed(found: ElementTree.Element) -> int:
        side, number = found.find("c:CdtDbtInd", NAMES), found.find("c:Amt", NAMES)
        assert side is not None and number is not None
        return sides[str(side.text)] * round(float(str(number.text)) * 100)

    root = ElementTree.fromstring(text)
    year = datetime.date.today().year
    first = root.find(".//c:Ntry", NAMES)
    assert first is not None
    assert [first.findtext(it, "", NAMES) for it in ("c:NtryRef", "c:AcctSvcrRef", "c:BookgDt/c:Dt", "c:BkTxCd/c:Prtry/c:Cd")] == [
        f"{year}-1-1", f"{year}-1-1", datetime.date.today().isoformat(), "DEPOSIT"]  # fmt: skip
    assert first.findtext(".//c:Dbtr/c:Pty/c:Nm", "", NAMES) == "ACCOUNT 101", "who pays in is the other side of a credit"
    assert first.findtext("c:AddtlNtryInf", "", NAMES).startswith("deposit, account 101")
    opening, closing = (signed(it) for it in root.iterfind(".//c:Bal", NAMES))
    assert opening + sum(signed(it) for it in root.iterfind(".//c:Ntry", NAMES)) == closing
    for old, new in (("<CdtDbtInd>CRDT", "<CdtDbtInd>PLUS"), ('Ccy="EUR"', 'Ccy="euro"'), ("<Ntry>", "<Ntry><X/>"),
                     ("<Id>BRANCH", f"<Id>{'x' * 40}")):
        assert validated(text.replace(old, new, 1)).returncode != 0, old


def test_camt_is_in_the_readers_language_and_a_run_has_its_name_and_value_date(tmp_path: Path) -> None:
    reason = Reason("interest", "2026-02-01", "2026-02-28", from_kept(INTEREST))
    text = statement_of(tmp_path, [("transfer", (900, 101), 77)], language_of("de"), {("present", 1, 2): reason})
    today = datetime.date.today().isoformat()
    wanted = ("c:BookgDt/c:Dt", "c:ValDt/c:Dt", "c:AddtlNtryInf", ".//c:AddtlTxInf", ".//c:Pty/c:Nm", "c:BkTxCd/c:Prtry/c:Cd")
    found = [[it.findtext(name, "", NAMES) for name in wanted] for it in ElementTree.fromstring(text).iterfind(".//c:Ntry", NAMES)]
    paid = "Zinsen 0,77 zu 1,25\u00a0%, Konto 101, Schalter 11, Benutzer 7"
    assert found[0] == [today, today, *["Umbuchung, Konto 900, Schalter 11, Benutzer 7"] * 2, "KONTO 900", "TRANSFER"]
    assert found[1] == [today, "2026-02-28", paid, paid, "KONTO 101", "TRANSFER"]
    if shutil.which("xmllint"):
        assert (ran := validated(text)).returncode == 0, ran.stderr


@pytest.mark.skipif(not shutil.which("aqbanking-cli"), reason="there is no aqbanking-cli (package aqbanking-tools)")
def test_an_importer_has_date_and_text_of_all_entries(tmp_path: Path) -> None:
    (tmp_path / "day.xml").write_text(statement_of(tmp_path, ENTERED), encoding="utf-8")
    given = ["--importer=xml", "--profile=camt_053_001_04", "-f", str(tmp_path / "day.xml"), "-c", str(tmp_path / "found")]
    left = Path(pwd.getpwuid(os.getuid()).pw_dir, ".aqbanking")  # which it makes whatever HOME is
    had = left.exists()
    try:
        subprocess.run(["aqbanking-cli", "-D", str(tmp_path / "own"), "import", *given], capture_output=True, check=True)
    finally:
        if not had:
            shutil.rmtree(left, ignore_errors=True)
    found = (tmp_path / "found").read_text(encoding="utf-8").split("transaction {")[1:]
    today = datetime.date.today().strftime("%Y%m%d")
    assert len(found) == 5 and all(f'char date="{today}"' in it and re.search('purpose="(deposit|withdrawal|transfer|correction), account', it) for it in found)


def two_years(office: Office) -> None:
    """A bank of two years."""
    old = office.bank("2025")
    old.at(2025, 6, 1)
    old.post(1, 101, 1_000)
    old.transfer(1, 101, 102, 300)
    new = office.bank(before=old)
    new.at(2026, 3, 1)
    new.post(1, 101, -200)


def test_a_statement_goes_over_two_years(office: Office) -> None:
    two_years(office)
    copies = Copies(office.copies)
    found = statements.statement(copies, 101, datetime.date(2025, 6, 1), datetime.date(2026, 3, 31))
    assert (found.opening, [(it.copy, it.entry.delta) for it in found.lines], found.closing) == (
        OPENING, [("2025", 1_000), ("2025", -300), ("present", -200)], OPENING + 500)
    assert found.lines[1].entry.other == 102
    middle = statements.statement(copies, 101, datetime.date(2025, 6, 2), datetime.date(2026, 2, 28))
    assert (middle.opening, middle.lines, middle.closing) == (OPENING + 700, [], OPENING + 700)
    for first, last, why in ((datetime.date(2025, 5, 31), datetime.date(2025, 12, 31), "first day is 2025-06-01"),
                             (datetime.date(2026, 1, 1), datetime.date.today(), "is not over by the newest copy"),
                             (datetime.date(2026, 3, 2), datetime.date(2026, 3, 1), "is after")):
        with pytest.raises(Refused, match=why):
            statements.statement(copies, 101, first, last)


def test_a_bank_without_an_entry_has_no_period(office: Office) -> None:
    office.bank()
    with pytest.raises(Refused, match="no entry and no cash line yet"):
        statements.statement(Copies(office.copies), 101, datetime.date(2026, 1, 1), datetime.date(2026, 1, 31))


@pytest.mark.parametrize("name, text, why", [
    ("present", "UPDATE accounts SET opening = opening + 1 WHERE account = 101", "begins present"),
    ("years/2025", "UPDATE entries SET balance_after = 7 WHERE account = 101 AND turn = 2", "turn 2"),
])  # fmt: skip
def test_a_chain_that_breaks_is_refused(office: Office, name: str, text: str, why: str) -> None:
    two_years(office)
    office.change(text, name)
    with pytest.raises(Refused, match=why):
        statements.statement(Copies(office.copies), 101, datetime.date(2025, 6, 1), datetime.date(2026, 3, 31))


def test_a_copy_with_a_log_is_refused_and_none_is_written(office: Office) -> None:
    office.bank()
    file = office.copies / "present"
    before = file.read_bytes()
    with opened_copy(file, "present") as copy, pytest.raises(Exception, match="readonly"):
        copy.bank.execute("UPDATE accounts SET balance = 0")
    assert file.read_bytes() == before and sorted(it.name for it in office.copies.iterdir()) == ["badges.csv", "present", "years"]
    file.with_name("present-wal").write_bytes(b"x")
    with pytest.raises(Refused, match="log"):
        with opened_copy(file, "present"):
            pass


def test_a_document_has_the_year_of_its_file(office: Office) -> None:
    for name, moment in (("2025", (2025, 6, 2)), ("2026", (2025, 11, 3)), ("present", (2026, 6, 2))):
        bank = office.bank(name)
        bank.at(*moment)
        bank.post(1, 101, 700)
    with ExitStack() as stack:
        copies = [stack.enter_context(it) for it in Copies(office.copies).all()]
        assert books.years_of(copies) == ["2025", "2025b", "2026"]


def test_a_posting_at_another_branch_has_that_branchs_day(office: Office) -> None:
    bank = office.bank()
    start = bank.moment
    bank.post(2, 201, 100, teller=21)
    for hour, day in ((1, 1), (2, 2)):
        bank.moment = start + hour * 3_600
        bank.close_day(2)
        bank.post(2, 201, 100, teller=21)
    bank.moment = start + 5_400
    bank.post(1, 201, 700)
    with Copies(office.copies).present() as copy:
        found = ledger.postings_of(books.day_book(copy, 1, 1))
    assert {(it.branch, it.day) for it in found} == {(1, 1), (2, 2)}


def test_days_of_a_closed_year_are_those_of_its_file(office: Office) -> None:
    old = office.bank("2025")
    old.post(1, 101, 1_000)
    old.close_day(1)
    old.close_day(2)
    office.bank(before=old).post(1, 101, -200)
    page = office.ask("sue", "/office/days").text
    assert page.count("Day 1<") == 2 and page.count("Day 2<") == 2
    assert "10.00" in office.ask("sue", "/office/days/1/1").text and "-2.00" in office.ask("sue", "/office/days/1/2").text
    for path in ("days/1/1", "days/1/2"):
        assert "It agrees with" in office.ask("sue", f"/office/{path}").text
    assert office.ask("sue", "/office/days/1/3").status_code == 422
