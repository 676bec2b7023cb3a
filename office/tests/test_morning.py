"""The morning: a copy that is older than the last night is said on every page; the newest seal and what has failed stand on a sheet."""
import os
import subprocess
import time
from pathlib import Path

import pytest
from tespiorvu.branch import seal
from tespiorvu.office.languages import LANGUAGES, language_of
from tespiorvu.office.morning import seal_of
from office.tests.conftest import PROGRAMS, Office, make_program

LATE = "The last good night is that of {moment}. The copy of a later one is missing, or its check failed: what came since is not on these pages."
HOUR = 3_600
SEAL = "seal 4, branch 1, day 3: 40a7-0abf-11d2-9c3e-77f0-b5e6"
NEWEST = "Newest seal: 4, of branch 1, day 3: <strong class=\"seal\">40a7-0abf-11d2-9c3e-77f0-b5e6</strong>"
DAY_BOOK, SHEET = "/office/days/1/1", "/office/morning"
FAILED = "list-units --state=failed --plain --no-legend --full --no-pager bank*"


@pytest.fixture(autouse=True)
def bank(office: Office) -> None:
    """A bank with a day that is closed."""
    bank = office.bank()
    bank.post(1, 101, 700)
    bank.close_day(1)


def aged(office: Office, hours: float) -> int:
    """Makes the newest copy so old. Its moment."""
    made = int(time.time() - hours * HOUR)
    os.utime(office.copies / "present", (made, made))
    return made


def test_pages_say_in_red_which_night_was_the_last_good_one(office: Office) -> None:
    pages = ("sue /office/days", "sue /office/days/1/1", "sue /office/statements", "kim /office/", "carl /office/runs", "sue /office/days/9/9")
    for hours, is_late in ((0.0, False), (25.9, False), (26.1, True), (24 * 40, True)):
        made = aged(office, hours)
        for code in LANGUAGES:
            said = language_of(code).say(LATE, moment=language_of(code).moment(made))
            alert = f'<p class="fault" role="alert">{said}</p>'
            for who, path in map(str.split, pages):
                page = office.ask(who, path, headers={"Accept-Language": code}).text.replace("&#39;", "'")
                assert (alert in page) == is_late, f"{hours} {path}: {page}"


def test_without_a_copy_no_night_was_good_and_none_is_said(office: Office) -> None:
    (office.copies / "present").unlink()
    assert "last good night" not in office.ask("kim", "/office/").text


def hand_over(office: Office, seal: str, units: str = "", status: int = 0) -> None:
    """What the unit does at the end of a night, with what bank-seal and systemctl print there."""
    room = office.settings.morning
    room.mkdir(exist_ok=True)
    newest = f"echo '{seal}'" if not seal.startswith("bank-seal:") else f"echo '{seal}' >&2; exit 1"
    for name, arguments, does in (("bank-seal", "newest", newest), ("systemctl", FAILED, f"printf '{units}'")):
        make_program(room / name, f'[ "$*" = "{arguments}" ] || exit 9\n{does}')
    environment = {"BANK_ROOT": str(office.root), "PATH": f"{room}:{os.environ['PATH']}"}
    assert subprocess.run([PROGRAMS / "hand-morning"], env=environment, stderr=subprocess.DEVNULL).returncode == status
    assert (room / "morning").stat().st_mode & 0o777 == 0o640 and not (room / "morning.begun").exists()


def test_the_newest_seal_stands_on_the_day_book_and_on_the_sheet(office: Office) -> None:
    hand_over(office, SEAL)
    day_book, sheet = (office.ask("sue", it).text for it in (DAY_BOOK, SHEET))
    assert NEWEST in day_book and NEWEST in sheet and "was gone" not in sheet
    assert f"Morning of {time.strftime('%Y-%m-%d')}" in sheet and sheet.count("Signature") == 2 and "Nothing." in sheet
    assert "Signature" not in day_book
    hand_over(office, f"{SEAL}; a file of audit.log is gone; a file of policy.log is gone")
    for page in (office.ask("sue", it).text for it in (DAY_BOOK, SHEET)):
        assert NEWEST in page and all(f"A file of {it}.log was gone" in page for it in ("audit", "policy"))


def test_the_sheet_names_what_has_failed(office: Office) -> None:
    row = "{} loaded failed failed A unit\\n"
    hand_over(office, SEAL, "".join(map(row.format, ("bank-audit.service", "bank-copy.service", "bank-disk.timer"))))
    sheet = office.ask("sue", SHEET).text
    assert '<p class="fault" role="alert">bank-audit, bank-copy, bank-disk.timer</p>' in sheet and "Nothing." not in sheet
    (office.settings.morning / "morning").write_text("{")
    sheet = office.ask("sue", SHEET).text
    assert "What has failed is not known:" in sheet and "Nothing." not in sheet
    assert "The newest seal can&#39;t be read:" in office.ask("sue", DAY_BOOK).text


def test_without_a_seal_a_line_says_so(office: Office) -> None:
    for page in (office.ask("sue", it) for it in (DAY_BOOK, SHEET)):
        assert page.status_code == 200 and page.text.count("No seal is known") == 1
    hand_over(office, "no day is sealed")
    for page in (office.ask("sue", it) for it in (DAY_BOOK, SHEET)):
        assert page.status_code == 200 and page.text.count("No day is sealed: bank-seal begin") == 1 and "Newest seal:" not in page.text
    hand_over(office, "bank-seal: 000002.json is not the next of the chain", status=1)
    for page in (office.ask("sue", it).text for it in (DAY_BOOK, SHEET)):
        assert "can&#39;t be read:" in page and "000002.json is not the next of the chain" in page and "No day is sealed" not in page


def test_the_sheet_is_for_whom_the_bank_lists_a_proof_to_and_for_auditors(office: Office) -> None:
    hand_over(office, SEAL)
    assert [office.ask(it, SHEET).status_code for it in ("sue", "sam", "tess", "kim")] == [200, 200, 403, 403]
    assert [SHEET in office.ask(it, "/office/days").text for it in ("sue", "tess")] == [True, False]


def test_a_line_of_bank_seal_is_read_as_it_prints_it(tmp_path: Path) -> None:
    file = tmp_path / "000012.json"
    file.write_bytes(b"a seal\n")
    gone = {"audit": [{"is_gone": True}], "policy": []}
    line = seal.said_of({"seal": 12, "branch": 3, "day": 40, "trail": gone}, file)
    assert seal_of(line) == (12, 3, 40, seal.characters(seal.sum_of(b"a seal\n")), ("audit.log",))
    line = seal.said_of({"seal": 12, "branch": 3, "day": 40, "trail": dict.fromkeys(gone, [])}, file)
    assert seal_of(line) == (12, 3, 40, seal.characters(seal.sum_of(b"a seal\n")), ())
    assert seal_of("no day is sealed") is None
    with pytest.raises(ValueError, match="day 40"):
        seal_of(line[:-1])


def units_that_start(name: str) -> set[str]:
    """The ends of units after which a unit is started, as OnSuccess of bank-copy."""
    folder = PROGRAMS.parent / "office/units"
    files = {it: it.name for it in folder.glob("*.service")} | {it: it.parent.name.removesuffix(".d") for it in folder.glob("*.d/*.conf")}
    found = {(unit, *it.split("=", 1)) for file, unit in files.items() for it in file.read_text().splitlines() if it.startswith("On")}
    return {f"{event} of {unit.removesuffix('.service')}" for unit, event, started in found if name in started.split()}


def test_the_sheet_is_made_whichever_way_the_night_ends() -> None:
    failures = {"bank-night", "bank-copy", "bank-audit", "bank-seal", *(f"bank-office-{it}" for it in ("copy", "save", "runs-save", "trail", "controls"))}
    ends = {"bank-audit", "bank-seal", "bank-office-controls"}
    assert units_that_start("bank-office-morning.service") == {f"OnFailure of {it}" for it in failures} | {f"OnSuccess of {it}" for it in ends}
    after = {part for it in (PROGRAMS.parent / "office/units/bank-office-morning.service").read_text().splitlines() if it.startswith("After=") for part in it[6:].split()}
    assert {f"{it}.service" for it in failures | ends} <= after
