"""What is handed to the office: years by their content, whatever their folders are called, and all at once."""
import datetime
import os
import shutil
import sqlite3
import time
from collections.abc import Callable
from contextlib import closing
from pathlib import Path

import pytest
from office.tests.bank_file import OPENING, BankFile
from office.tests.conftest import make_program
from tespiorvu.bank_file import moment_of
from tespiorvu.office import handing, statements
from tespiorvu.office.copies import Copies
from tespiorvu.office.handing import Places
from tespiorvu.office.store import Refused

DATES = (datetime.date(2026, 1, 2), datetime.date(2026, 6, 1), datetime.date(2026, 12, 31))
POSTED = (1_000, -300, 70)


class Machine:
    """A bank that was closed twice in one calendar year, by its folders."""

    def __init__(self, top: Path) -> None:
        self.banks: dict[Path, BankFile] = {}
        self.places = Places(top / "bank", top / "copies", top / "office", top / "badges.csv")
        for it in self.places[:3]:
            it.mkdir()
        self.places.badges.write_text("badge,user\ntess,7\n")
        self.make(self.places.bank / "2026", 0)
        self.make(self.places.bank / "2026-2", 1, self.places.bank / "2026")
        self.make(self.places.copies / "20270101T033000.0Z-checked", 2, self.places.bank / "2026-2")

    def make(self, folder: Path, place: int, before: Path | None = None) -> None:
        """A closed year, or a copy that was checked: it goes on from a folder's and has a post of its own date."""
        folder.mkdir()
        bank = self.banks[folder] = BankFile(folder / "bank", self.banks[before] if before else None)
        bank.at(*DATES[place].timetuple()[:3])
        bank.post(1, 101, POSTED[place])
        bank.close_day(1)

    def handed(self) -> int:
        """Hands over."""
        return handing.hand(self.places)

    def statement(self, first: datetime.date = DATES[0]) -> list[tuple[str, int]]:
        """The statement of 101 over all."""
        found = statements.statement(Copies(self.places.office), 101, first, DATES[-1])
        assert found.opening + sum(it.entry.delta for it in found.lines) == found.closing
        return [(it.copy, it.entry.delta) for it in found.lines]


NAMES = ["2026-01-02-to-2026-01-02", "2026-06-01-to-2026-06-01"]
WHOLE = [(NAMES[0], POSTED[0]), (NAMES[1], POSTED[1]), ("present", POSTED[2])]


@pytest.fixture
def machine(tmp_path: Path, monkeypatch: pytest.MonkeyPatch) -> Machine:
    """A machine whose bank_cli takes each file as it is, but for one that holds the word damage."""
    program = tmp_path / "programs/bank_cli"
    program.parent.mkdir()
    make_program(program, 'if [ "$1" = check ] && grep -q damage "$2"; then echo "file: not read" >&2; exit 3; fi')
    monkeypatch.setenv("PATH", f"{program.parent}:{os.environ['PATH']}")
    return Machine(tmp_path)


def test_two_closings_in_one_calendar_year_end_in_one_statement(machine: Machine) -> None:
    assert (machine.handed(), machine.statement()) == (0, WHOLE)
    assert Copies(machine.places.office).user_of("tess") == 7
    assert (machine.places.office / "present").stat().st_mtime == moment_of(Path("20270101T033000.0Z-checked/bank"))


def test_a_copys_moment_has_its_part_of_a_second() -> None:
    whole, later = (moment_of(Path(f"20270101T033000.{it}Z-checked/bank")) for it in (0, 7))
    assert whole == 1_798_774_200 and later is not None and 0.69 < later - whole < 0.71


@pytest.mark.parametrize(
    "change",
    [lambda bank: (bank / "2026").rename(bank / "2099"), lambda bank: (bank / "2026").rename(bank / "old year"),
     lambda bank: shutil.copytree(bank / "2026", bank / "2025"),
     lambda bank: shutil.copytree(bank / "2026", bank / "before.Xy1z"),
     lambda bank: shutil.copytree(bank / "2026-2", bank / "next"), lambda bank: (bank / "2027").mkdir()],
    ids="renamed_late named_otherwise copied put_aside being_made empty".split(),
)  # fmt: skip
@pytest.mark.parametrize("is_handed", [False, True], ids=["before", "after"])
def test_what_a_folder_is_called_does_not_matter(machine: Machine, change: Callable[[Path], object], is_handed: bool) -> None:
    if is_handed:
        assert machine.handed() == 0
    change(machine.places.bank)
    assert (machine.handed(), machine.statement()) == (0, WHOLE)


def test_the_message_of_an_earlier_version_to_rename_is_harmless(machine: Machine) -> None:
    bank = machine.places.bank
    (bank / "2026-2").rename(bank / "later")
    assert machine.handed() == 0
    (bank / "2026").rename(bank / "2025")
    (bank / "later").rename(bank / "2026")
    assert (machine.handed(), machine.statement()) == (0, WHOLE)


def test_years_are_in_the_order_of_the_banks_days_and_not_of_names(machine: Machine) -> None:
    assert machine.handed() == 0
    years = machine.places.office / "years"
    (years / NAMES[0]).rename(years / "9999")
    assert machine.statement() == [("9999", POSTED[0]), *WHOLE[1:]]


def test_a_year_closed_before_without_a_change_of_balances_is_found(machine: Machine) -> None:
    bank = machine.places.bank
    for name, before in (("3", "2026-2"), ("4", "3")):
        machine.make(bank / name, 2, bank / before)
        with closing(sqlite3.connect(bank / name / "bank")) as found, found:
            found.execute("UPDATE accounts SET balance = opening")
    machine.make(machine.places.copies / "20270102T033000.0Z-checked", 2, bank / "4")
    assert machine.handed() == 0
    assert len(list((machine.places.office / "years").iterdir())) == 4


def test_a_year_that_is_restored_otherwise_or_gone_is_named(machine: Machine, capsys: pytest.CaptureFixture[str]) -> None:
    first, second = (machine.places.bank / it for it in ("2026", "2026-2"))
    with closing(sqlite3.connect(first / "bank")) as bank, bank:
        bank.execute("UPDATE accounts SET balance = balance - 5 WHERE account = 101")
    assert machine.handed() == 1
    assert f"the year before {second} is missing; {first} does not lead to it: bring its folder back" in capsys.readouterr().err
    assert machine.statement(DATES[1]) == WHOLE[1:]
    with pytest.raises(Refused, match="first day is 2026-06-01"):
        machine.statement()
    shutil.rmtree(second)
    assert machine.handed() == 1
    assert "the year before the newest copy is missing" in capsys.readouterr().err
    assert machine.statement(DATES[2]) == WHOLE[2:]


def test_a_year_that_is_damaged_is_named_and_all_else_handed(machine: Machine, capsys: pytest.CaptureFixture[str]) -> None:
    with open(machine.places.bank / "2026/bank", "ab") as file:
        file.write(b"damage")
    assert machine.handed() == 1
    assert f"{machine.places.bank}/2026: bank_cli check: file: not read: bring this folder back" in capsys.readouterr().err
    assert machine.statement(DATES[1]) == WHOLE[1:]


def test_a_year_that_was_closed_after_the_copy_waits_for_the_next(machine: Machine) -> None:
    assert machine.handed() == 0
    copy = machine.places.copies / "20270101T033000.0Z-checked"
    shutil.copytree(copy, machine.places.bank / "2026-3")
    assert (machine.handed(), machine.statement()) == (0, WHOLE)


def test_without_room_the_office_keeps_what_it_had(machine: Machine, monkeypatch: pytest.MonkeyPatch, capsys: pytest.CaptureFixture[str]) -> None:
    assert machine.handed() == 0
    machine.make(machine.places.bank / "2027", 2, machine.places.bank / "2026-2")
    machine.make(machine.places.copies / "20270102T033000.0Z-checked", 2, machine.places.bank / "2027")

    def full(*_: object) -> None:
        raise OSError(28, "No space left on device")

    monkeypatch.setattr(shutil, "copy2", full)
    assert machine.handed() == 1
    assert "nothing is handed over: [Errno 28]" in capsys.readouterr().err
    assert machine.statement() == WHOLE


def test_what_an_earlier_version_handed_gives_way(machine: Machine) -> None:
    office = machine.places.office
    (office / "years").mkdir()
    shutil.copyfile(machine.places.bank / "2026/bank", office / "years/2025")
    shutil.copyfile(machine.places.bank / "2026/bank", office / "years/2026")
    shutil.copyfile(machine.places.copies / "20270101T033000.0Z-checked/bank", office / "present")
    os.utime(office / "present", (time.mktime((2027, 1, 2, 0, 0, 0, 0, 0, -1)),) * 2)
    with pytest.raises(Refused, match="begins"):
        machine.statement()
    assert (machine.handed(), machine.statement()) == (0, WHOLE)
    for _ in range(3):
        assert machine.handed() == 0
    assert sorted(it.name for it in office.iterdir() if not it.name.startswith("handed-")) == ["badges.csv", "handed", "present", "years"]
    assert len(list(office.glob("handed-*"))) == 2


def test_years_and_copy_are_read_as_they_were_handed_together(machine: Machine) -> None:
    assert machine.handed() == 0
    opened = Copies(machine.places.office).all()
    machine.make(machine.places.bank / "2027", 2, machine.places.bank / "2026-2")
    machine.make(machine.places.copies / "20270102T033000.0Z-checked", 2, machine.places.bank / "2027")
    assert machine.handed() == 0
    with opened[-1] as present:
        row = present.row("SELECT opening FROM accounts WHERE account = 101")
        assert row is not None and row["opening"] == OPENING + POSTED[0] + POSTED[1]
    with Copies(machine.places.office).present() as present:
        row = present.row("SELECT opening FROM accounts WHERE account = 101")
        assert row is not None and row["opening"] == OPENING + sum(POSTED)


def test_without_a_checked_copy_it_is_said_what_makes_one(machine: Machine, capsys: pytest.CaptureFixture[str]) -> None:
    shutil.rmtree(machine.places.copies / "20270101T033000.0Z-checked")
    assert machine.handed() == 1
    assert "no checked copy" in capsys.readouterr().err and not (machine.places.office / "present").exists()
