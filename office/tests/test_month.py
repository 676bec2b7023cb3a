"""A month for the accountant: three ledgers of others take its journal as it is and agree with the bank's proofs."""
import csv
import datetime
import io
import re
import shutil
import subprocess
from contextlib import ExitStack
from dataclasses import replace
from pathlib import Path

import pytest
from tespiorvu.office import commands, papers
from tespiorvu.office.chart import ChartAccount
from tespiorvu.office.letterhead import Letterhead
from tespiorvu.office.month import Month, files_of, month_of
from tespiorvu.office.settings import Settings
from office.tests.conftest import Office

CHART = (ChartAccount("vault", "1000", "Present"), ChartAccount("customer", "3000", "Spareinlagen", 101, 199))
MARCH = datetime.date(2026, 3, 1), datetime.date(2026, 3, 31)


@pytest.fixture
def settings(office: Office) -> Settings:
    """Two years of a bank of two branches, with entries at one another's accounts, differences, a closed March, and interest."""
    old = office.bank("2025")
    old.at(2025, 5, 5)
    old.post(1, 101, 4_000)
    old.drawer_off(1, 11, 4_000)
    for branch in (1, 2):
        old.close_day(branch)
    new = office.bank(before=old)
    new.at(2026, 2, 10)
    new.post(1, 101, 100_000)
    new.drawer_off(1, 11, 100_000)
    new.close_day(1)
    new.at(2026, 3, 5)
    wrong = new.post(1, 102, 123_456)
    new.post(1, 102, -123_456, undoes=wrong, user=8)
    new.post(1, 201, 700)
    new.transfer(1, 101, 202, 5_000)
    office.pay_interest(new, "2026-02-01", "2026-02-28")
    new.drawer_off(1, 11, 690)
    new.close_day(1)
    new.at(2026, 4, 7)
    new.post(2, 201, 1_000, teller=21)
    return replace(office.settings, letterhead=Letterhead("Sparbank", language="de"), chart=CHART)


@pytest.fixture
def made(office: Office, settings: Settings, tmp_path: Path) -> tuple[Month, Path]:
    """March, and the folder of its files."""
    with ExitStack() as stack:
        source = papers.source_of(stack, settings, stack.enter_context(office.opened()))
        month = month_of(source, *MARCH)
        for name, text in files_of(month, source).items():
            (tmp_path / name).write_text(text, encoding="utf-8", newline="")
    return month, tmp_path


def test_balances_at_both_ends_agree_with_the_proofs(made: tuple[Month, Path]) -> None:
    month, _ = made
    assert [(it.branch, it.day, it.balance == it.proof, it.vault == it.proof_vault) for it in month.proofs] == [(1, 3, True, True)]
    after = month.after()
    own = -sum(cents for (branch, ledger), cents in after.items() if branch == 1 and ledger.startswith(("customer ", "branch ")))
    assert (own, after[1, "vault"]) == (month.proofs[0].proof, month.proofs[0].proof_vault)
    assert (month.before[1, "customer 101"], after[1, "customer 101"]) == (-154_000, -149_077)
    assert sum(cents for cents in after.values()) == 0
    assert (after[1, "branch 2"], after[2, "branch 1"]) == (-5_700, 5_700)


def rows_of(file: Path) -> list[dict[str, str]]:
    """The rows of a sheet in German."""
    return list(csv.DictReader(io.StringIO(file.read_text(encoding="utf-8-sig"), newline=""), delimiter=";"))


def test_the_journal_has_documents_dates_and_the_charts_accounts(made: tuple[Month, Path]) -> None:
    rows = rows_of(made[1] / "journal.csv")
    assert {(it["Beleg"][:5], it["Datum"]) for it in rows} == {("2026-", "05.03.2026")}
    paid = next(it for it in rows if it["Sachkonto"] == "Kunde 101" and it["Haben"])
    assert (paid["Konto"], paid["Name"], paid["Haben"], paid["Text"], paid["Wertstellung"]) == (
        "3000", "Spareinlagen", "0,77", "Zinsen 0,77 zu 1,25\u00a0%", "28.02.2026")  # fmt: skip
    assert {it["Name"] for it in rows if it["Sachkonto"] == "Tresor"} == {"Present"}  # as the settings have it
    named = rows_of(made[1] / "interest-and-fees.csv")
    assert {(it["Konto"], it["Betrag"]) for it in named} == {("101", "0,77"), ("900", "-0,77")}
    accrued = {it["Konto"]: it for it in rows_of(made[1] / "interest-accrued.csv")}
    assert (accrued["101"]["von"], accrued["102"]["von"], accrued["101"]["bis"]) == ("01.03.2026", "05.05.2025", "31.03.2026")
    # 1,540.00 on four days, and 1,490.77 on the 27 from the fifth on.
    due = ((4 * 154_000 + 27 * 149_077) * 12_500 * 2 + 365 * 10**6) // (2 * 365 * 10**6)
    assert accrued["101"]["aufgelaufene Zinsen"] == f"{due // 100},{due % 100:02}"


def sum_by(program: list[str]) -> int:
    """The cents of the first number that a program says."""
    said = subprocess.run(program, capture_output=True, text=True, check=True).stdout
    found = re.search(r"-?[\d,]+\.\d\d", said)
    assert found, said
    return round(float(found[0].replace(",", "")) * 100)


@pytest.mark.parametrize("program", ["hledger", "ledger"])
def test_the_text_journal_is_taken_as_it_is(made: tuple[Month, Path], program: str) -> None:
    if not shutil.which(program):
        pytest.skip(f"there is no {program}")
    month, folder = made
    after = month.after()
    file = str(folder / "journal.hledger")
    for account, cents in (
        ("Liabilities:Customers:3000:B1:101", after[1, "customer 101"]),
        ("Assets:Vault:1000:B1", month.proofs[0].proof_vault), ("Expenses:Differences:B1", after[1, "differences"]),
        ("Assets:Branches:B1:2", after[1, "branch 2"]),
    ):
        assert sum_by([program, "-f", file, "bal", account]) == cents, account
    for_all = subprocess.run([program, "-f", file, "bal"], capture_output=True, text=True, check=True).stdout
    assert for_all.strip().splitlines()[-1].strip() == "0"


@pytest.mark.skipif(not shutil.which("bean-check"), reason="there is no bean-check (package beancount)")
def test_beancount_takes_the_journal_as_it_is(made: tuple[Month, Path]) -> None:
    month, folder = made
    checked = subprocess.run(["bean-check", folder / "journal.beancount"], capture_output=True, text=True)
    assert (checked.returncode, checked.stderr) == (0, "")
    query = "SELECT sum(position) WHERE account ~ 'Assets:Vault:1000:B1'"
    assert sum_by(["bean-query", str(folder / "journal.beancount"), query]) == month.proofs[0].proof_vault


@pytest.mark.skipif(not shutil.which("soffice"), reason="there is no soffice (package libreoffice-calc-nogui)")
def test_a_german_spreadsheet_sums_the_journal(made: tuple[Month, Path], tmp_path: Path) -> None:
    rows = rows_of(made[1] / "journal.csv")
    due = sum(round(float(it["Soll"].replace(",", ".")) * 100) for it in rows if it["Soll"])
    text = (made[1] / "journal.csv").read_text(encoding="utf-8")
    (tmp_path / "summed.csv").write_text(text + ";" * 9 + f"=SUM(J2:J{len(rows) + 1})\r\n", encoding="utf-8", newline="")
    command = ["soffice", f"-env:UserInstallation=file://{tmp_path}/profile", "--headless", "--convert-to", "csv:Text - txt - csv (StarCalc):44,34,76,1,,1033,false,true",
               "--infilter=Text - txt - csv (StarCalc):59,34,76,1,,1031,false,true,false,true", "--outdir", str(tmp_path / "out"), str(tmp_path / "summed.csv")]  # fmt: skip
    subprocess.run(command, capture_output=True, check=True, timeout=300)
    last = list(csv.reader(io.StringIO((tmp_path / "out/summed.csv").read_text(encoding="utf-8-sig"))))[-1]
    assert round(float(last[9].replace(",", "")) * 100) == due


def test_the_command_writes_all(office: Office, settings: Settings, monkeypatch: pytest.MonkeyPatch) -> None:
    monkeypatch.setattr(commands, "read_settings", lambda path: settings)
    monkeypatch.setattr(commands, "write_statements", lambda *given: None)
    assert commands.main(["month", "2026-03"]) == 0
    names = sorted(it.name for it in (settings.file.with_name("papers") / "2026-03").iterdir())
    assert names == ["balances.csv", "interest-accrued.csv", "interest-and-fees.csv", "journal.beancount", "journal.csv", "journal.hledger", "proofs.csv"]
    assert commands.main(["month", "2030-01"]) == 1
