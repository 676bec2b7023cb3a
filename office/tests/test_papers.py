"""Statements on paper: what they say, in whose language, and as PDF each with its own pages."""
import datetime
import shutil
import subprocess
from contextlib import ExitStack
from dataclasses import replace
from pathlib import Path
from typing import Any

import pytest
from tespiorvu.office import commands, papers, reasons
from tespiorvu.office.letterhead import Letterhead
from tespiorvu.office.papers import Paper, number_of
from tespiorvu.office.register import Holder, Holding
from tespiorvu.office.settings import Settings
from tespiorvu.office.store import Refused
from tespiorvu.office.web import make_app
from office.tests.conftest import INTEREST, Office

HEAD = Letterhead("Sparbank Müllerstadt eG", "Marktplatz 1\n12345 Müllerstadt", "GnR 77", "", "de")
MARCH = datetime.date(2026, 3, 1), datetime.date(2026, 3, 31)


@pytest.fixture
def settings(office: Office) -> Settings:
    """An office with a month of a bank: deposits, a transfer, a correction, and a transfer of interest that was made in April."""
    german = Holder(1, "Jürgen Müller", "Hauptstraße 5\n99999 Köln", language="de")
    office.keep(german, Holder(2, "Zoë d'Été", language="fr"))
    office.keep(Holding(101, 1, "owns"), Holding(102, 2, "owns"), Holding(103, 1, "acts"), Holding(201, 2, "owns"))
    bank = office.bank()
    bank.at(2026, 2, 10, 9)
    bank.post(1, 101, 100_000)
    bank.at(2026, 3, 5, 9)
    wrong = bank.post(1, 101, 123_456)
    bank.post(1, 101, -123_456, undoes=wrong, user=8)
    bank.transfer(1, 101, 102, 5_000)
    bank.at(2026, 4, 1, 4)
    office.pay_interest(bank, "2026-03-01", "2026-03-31")
    return replace(office.settings, letterhead=HEAD)


def paper(office: Office, settings: Settings, account: int, first: datetime.date, last: datetime.date) -> Paper:
    """The paper of an account."""
    with ExitStack() as stack:
        source = papers.source_of(stack, settings, stack.enter_context(office.opened()))
        found = papers.paper_of(source, account, first, last)
    return found


def test_a_paper_has_both_balances_and_each_entry_by_its_name(office: Office, settings: Settings) -> None:
    office.note("entry", 4, "purpose", "Miete")
    it = paper(office, settings, 101, *MARCH)
    assert (it.number, it.branch, it.statement.opening, it.statement.closing) == ("2026/03", 1, 150_000, 145_000)
    assert [(line.what, line.purpose, line.amount) for line in it.lines] == [
        ("Einzahlung, berichtigt mit Buchung 3", "", 123_456), ("Berichtigung, von Buchung 2", "", -123_456), ("Umbuchung, mit Konto 102", "Miete", -5_000)]  # fmt: skip
    assert (it.total(1), it.total(-1)) == (123_456, -128_456)
    assert paper(office, settings, 102, *MARCH).lines[0].what == "Virement, avec le compte 101"


def test_interest_has_its_name_and_is_valued_at_the_end_of_its_period(office: Office, settings: Settings) -> None:
    line = paper(office, settings, 101, datetime.date(2026, 4, 1), datetime.date(2026, 4, 1)).lines[0]
    assert (line.what, line.date, line.value) == (
        "Zinsen 0,77 zu 1,25\u00a0%", datetime.date(2026, 4, 1), datetime.date(2026, 3, 31))  # fmt: skip
    (settings.reasons).unlink()
    line = paper(office, settings, 101, datetime.date(2026, 4, 1), datetime.date(2026, 4, 1)).lines[0]
    assert (line.what, line.value) == ("Umbuchung, mit Konto 900", datetime.date(2026, 4, 1))


def test_the_first_file_with_a_slip_has_its_entries(office: Office, settings: Settings) -> None:
    office.pay_interest(office.bank("2025"), "2025-03-01", "2025-03-31")
    with ExitStack() as stack:
        source = papers.source_of(stack, settings, stack.enter_context(office.opened()))
        assert {key[0] for key in source.reasons} == {"2025"}


def test_a_paper_lies_in_days_that_the_bank_has_lived(office: Office, settings: Settings) -> None:
    begun, today = datetime.date(2026, 2, 10), datetime.date.fromtimestamp((office.copies / "present").stat().st_mtime)
    it = paper(office, settings, 101, begun, datetime.date(2026, 3, 31))
    assert (it.statement.first, it.statement.opening, it.statement.closing) == (begun, 50_000, 145_000)
    with pytest.raises(Refused, match="The bank's first day is 2026-02-10: a period begins then, or later"):
        paper(office, settings, 101, begun - datetime.timedelta(1), datetime.date(2026, 3, 31))
    with pytest.raises(Refused, match=f"{today} is not over by the newest copy"):
        paper(office, settings, 101, today, today)


@pytest.mark.parametrize("first, last, number", [
    ("2026-01-01", "2026-12-31", "2026"), ("2026-02-01", "2026-02-28", "2026/02"), ("2026-12-01", "2026-12-31", "2026/12"),
    ("2026-02-01", "2026-03-31", "20260201-20260331"), ("2026-02-02", "2026-02-28", "20260202-20260228")])  # fmt: skip
def test_a_number_says_its_period(first: str, last: str, number: str) -> None:
    assert number_of(datetime.date.fromisoformat(first), datetime.date.fromisoformat(last)) == number


def test_reasons_are_handed_whole(office: Office, tmp_path: Path) -> None:
    settings = replace(office.settings, reasons=tmp_path / "none" / "reasons")
    with office.opened_runs() as found:
        reasons.hand(found, settings)
        assert reasons.handed(settings.reasons) == (None, {})
        settings.reasons.parent.mkdir()
        found.execute("INSERT INTO runs VALUES (1, 'fee', 1, 90, '2026-03-01', '2026-03-31', 0, 'kim', 3, '0', 'carried out')")
        for line, state in ((1, "done"), (2, "refused")):
            row = line, 100_000 + line, INTEREST, state
            found.execute("INSERT INTO run_lines VALUES (1, ?, 101, 1, 1, 101, 900, 250, ?, ?, ?, '', 0)", row)
        reasons.hand(found, settings)
    user, handed = reasons.handed(settings.reasons)
    assert (user, [*handed], handed[100_001][:3]) == (50, [100_001], ("fee", "2026-03-01", "2026-03-31"))
    assert str(handed[100_001].why) == "interest of 0.77 at 1.25 %"
    assert settings.reasons.stat().st_mode & 0o777 == 0o640


def text_of(file: Path, page: int) -> str:
    """What a page of a PDF says."""
    return subprocess.run(["pdftotext", "-layout", "-f", str(page), "-l", str(page), file, "-"], capture_output=True, text=True, check=True).stdout


@pytest.mark.skipif(not (shutil.which("pdftotext") and shutil.which("qpdf")), reason="there is no pdftotext (package poppler-utils) or qpdf")
def test_statements_of_a_branch_are_one_pdf(office: Office, settings: Settings, monkeypatch: pytest.MonkeyPatch, capsys: pytest.CaptureFixture[str]) -> None:
    printing = pytest.importorskip("tespiorvu.office.printing", reason="there is no weasyprint")
    monkeypatch.setattr(printing, "AT_ONCE", 1)
    monkeypatch.setattr(commands, "read_settings", lambda path: settings)
    assert commands.main(["statements", "1", "2026-03-01", "2026-03-31"]) == 0
    file = settings.file.with_name("papers") / "2026-03" / "statements-1.pdf"
    assert capsys.readouterr().out == f"{file}: 2 statements\n"
    german, french = text_of(file, 1), text_of(file, 2)
    for word in ("Sparbank Müllerstadt eG", "Marktplatz 1", "12345 Müllerstadt", "GnR 77", "Jürgen Müller", "Hauptstraße 5", "99999 Köln",
                 "Kontoauszug 2026/03", "Seite 1 von 1", "1.500,00", "1.450,00", "Alter Saldo", "Neuer Saldo", "01.03.2026 bis 31.03.2026"):  # fmt: skip
        assert word in german, german
    for word in ("Zoë d'Été", "Relevé 2026/03", "Page 1 sur 1", "500,00", "550,00", "31/03/2026", "Sparbank"):
        assert word in french, french
    assert [it.name for it in file.parent.iterdir()] == [file.name]
    assert commands.main(["month", "2026-03"]) == 0
    assert sorted(it.name for it in file.parent.glob("*.pdf")) == ["statements-1.pdf", "statements-2.pdf"]
    assert commands.main(["statements", "2", "2026-03-01", "2026-03-31"]) == 0
    assert commands.main(["statements", "1", "2026-03-01", "2026-03-31", "--account", "103"]) == 0


def test_a_month_is_written_as_2026_11() -> None:
    assert commands.month_of("2026-02") == (datetime.date(2026, 2, 1), datetime.date(2026, 2, 28))
    assert commands.month_before(datetime.date(2026, 1, 31)) == (datetime.date(2025, 12, 1), datetime.date(2025, 12, 31))
    with pytest.raises(ValueError):
        commands.month_of("2026-13")


def test_a_paper_asks_for_nothing_elsewhere() -> None:
    printing = pytest.importorskip("tespiorvu.office.printing", reason="there is no weasyprint")
    for address in ("file:///etc/passwd", "https://bank.branch/office/"):
        with pytest.raises(ValueError, match="asks for nothing"):
            printing.own_alone(address)


def test_the_browser_shows_the_statement_as_the_paper_has_it(office: Office, settings: Settings, tmp_path: Path) -> None:
    (tmp_path / "logo.png").write_bytes(b"a logo")
    made = replace(settings, letterhead=replace(HEAD, logo=str(tmp_path / "logo.png")))
    browser = make_app(made).test_client()

    def page(path: str, wanted_by: str) -> Any:
        return browser.get(f"/office/{path}", headers={"Bank-Badge": "sue", "Accept-Language": wanted_by})

    period = "first=2026-03-01&last=2026-04-01"
    text = page(f"statements?account=101&{period}", "de").text
    for it in ("Sparbank Müllerstadt eG", "12345 Müllerstadt", "GnR 77", "Jürgen Müller", "99999 Köln", "Kontoauszug 20260301-20260401", "EUR",
               "1.500,00", "1.450,77", "Zinsen 0,77 zu 1,25\u00a0%", "<td>01.04.2026</td><td>31.03.2026</td>", 'src="/office/logo"'):  # fmt: skip
        assert it in text, it
    assert page("logo", "de").data == b"a logo" and 'language=' not in text
    english = page(f"statements?account=101&{period}", "en").text
    assert "interest of 0.77 at 1.25 %" in english.lower() and 'lang="de" href="/office/statements?account=101&amp;' in english
    asked_for = page(f"statements?account=101&{period}&language=de", "en").text
    assert '<article class="paper" lang="de">' in asked_for and "Zinsen 0,77" in asked_for and '<html lang="en">' in asked_for
    assert make_app(settings).test_client().get("/office/logo", headers={"Bank-Badge": "sue"}).status_code == 422
