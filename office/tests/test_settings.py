"""Settings and commands: what is wrong is refused by its name."""
import re
import subprocess
from pathlib import Path

import pytest
from tespiorvu.office.chart import ChartAccount
from tespiorvu.office.commands import main
from tespiorvu.office.letterhead import Letterhead, letterhead_of
from tespiorvu.office.settings import NAMES, SettingsError, read_settings
from tespiorvu.office.settings_text import EXAMPLES
from tespiorvu.office.store import opened

OFFICE = Path(__file__).resolve().parent.parent
PROGRAMS = OFFICE.parent / "programs"
GOOD = """
file = "FOLDER/office"
runs = "FOLDER/runs"
copies = "FOLDER/copies"
keepers = ["kim"]
approvers = ["sue"]

[[interest]]
branch = 1
low = 101
high = 199
rate = "1.25"
account = 900
teller = 90
"""
SECOND = """

[[interest]]
branch = 1
low = {low}
high = 299
rate = "0"
account = 900
teller = {teller}
"""
VAULT = 'of = "vault"\nnumber = "1000"\nname = "Present"\n'


def written(folder: Path, text: str) -> Path:
    """A file of settings."""
    file = folder / "settings.toml"
    file.write_text(text.replace("FOLDER", str(folder)))
    return file


def test_good_settings_are_read(tmp_path: Path) -> None:
    found = read_settings(written(tmp_path, GOOD))
    assert (found.keepers, found.schemes[0].millionths, found.currency) == ({"kim"}, 12_500, "EUR")
    assert found.letterhead == letterhead_of({}) == Letterhead()
    found = read_settings(written(tmp_path, f'{GOOD}[letterhead]\nname = "Bank"\nlanguage = "es"\n[[ledger]]\n{VAULT}'))
    assert found.letterhead == Letterhead("Bank", language="es")
    assert found.chart == (ChartAccount("vault", "1000", "Present"),)


@pytest.mark.parametrize("heading, wrong", [
    *(("[letterhead]", it) for it in ('language = "pl"', 'logo = "/logo.bmp"', 'fax = "1"', "name = 1")),
    *(("[[ledger]]", it) for it in (
        'of = "vault"', VAULT.replace("vault", "bank"), VAULT.replace("1000", "1 0"), f'{VAULT}low = "1"')),
])  # fmt: skip
def test_a_wrong_part_is_refused_by_its_heading(tmp_path: Path, heading: str, wrong: str) -> None:
    with pytest.raises(SettingsError, match=re.escape(heading)):
        read_settings(written(tmp_path, f"{GOOD}{heading}\n{wrong}\n"))


@pytest.mark.parametrize("old, new, why", [
    ('keepers = ["kim"]', "", 'settings.toml: it lacks keepers; write keepers = ["olga"]'), ('keepers = ["kim"]', 'keepers = "kim"', "keepers is a list of badges"), ("file =", "fiel =", "line 2: nothing is called fiel: there is file"),
    ('"FOLDER/office"', "7", "file is a text"), ('rate = "1.25"', 'rate = "x"', "rate"), ('rate = "1.25"', 'amount = "1.25"', "amount"), ("low = 101", "low = 200", "line 10: [[interest]] low 200 is above high 199; write low = 10001"),
    ('rate = "1.25"', 'rate = "1,25"', "settings.toml, line 12: [[interest]] rate is an amount or a rate with a point, and not '1,25'; write rate = \"1.25\""),
    ('rate = "1.25"', "rate = 1,25", 'line 12: Expected newline or end of document after a statement; write rate = "1.25"'), ('rate = "1.25"\n', "", 'line 8: [[interest]] it lacks rate; write rate = "1.25"'),
    ("[[interest]]", "[interest]", "line 8: [[interest]] begin it by [[interest]], with two brackets"), ("teller = 90", "teller = 90\ncity = 1", "line 15: [[interest]] nothing is called city"),
    ("teller = 90", 'teller = "90"', "line 14: [[interest]] teller is a number from 1 to 999999999, without quotes, and not '90'; write teller = 90"),
    ("teller = 90", "teller = 90" + SECOND.format(low=150, teller=90), "line 18: [[interest]] account 150 of branch 1 has another"),
    ("teller = 90", "teller = 90" + SECOND.format(low=200, teller=91), "line 22: [[interest]] branch 1 has teller 90 in another"),
    ("keepers", 'currency = "euro"\nkeepers', 'line 5: currency is a text, three capital letters, and not \'euro\'; write currency = "EUR"'), ("keepers", 'front = "http://x"\nkeepers', "front is a text, an address of https"),
    ("keepers", 'badge = ".x"\nkeepers', "badge is a badge"), ('["kim"]', '["kim", 7]', "line 5: keepers is a list of badges"), ('"FOLDER/office"', '"office"', "line 2: file is a text, a path that begins with /"),
    ("branch = 1", "branch = 0", "branch"), ("branch = 1", "branch = true", "branch"), ("keepers", 'years_kept = "7"\nkeepers', "years_kept is a number"), ('["sue"]', '["office"]', "own badge"), ("keepers", "keepers =", "settings.toml"),
    ("keepers", 'auditors = "olga"\nkeepers', "auditors is a list"), ("keepers", 'apart = [["post", "posts"]]\nkeepers', "apart is a list of pairs"),
    ("keepers", 'apart = [["post", "post"]]\nkeepers', "apart is a list of pairs"), ("keepers", 'apart = "post"\nkeepers', "apart is a list of pairs")])  # fmt: skip
def test_wrong_settings_are_refused(tmp_path: Path, old: str, new: str, why: str) -> None:
    assert old in GOOD
    with pytest.raises(SettingsError) as refused:
        read_settings(written(tmp_path, GOOD.replace(old, new, 1)))
    assert why in str(refused.value)


def test_each_setting_that_is_wrong_is_named_with_an_example(tmp_path: Path, capsys: pytest.CaptureFixture[str]) -> None:
    for name in sorted(NAMES - {"file"}):
        text = "\n".join(it for it in GOOD.splitlines() if not it.startswith(f"{name} ="))
        file = written(tmp_path, text.replace("file =", f"{name} = [[]]\nfile =", 1))
        assert main(["--settings", str(file), "check"]) == 1, name
        said = capsys.readouterr().err
        assert said.startswith(f"bank-office: {file}, line ") and f": {name} is " in said, said
        assert f"and not [[]]; write {name} = {EXAMPLES[name]}\n" in said, said
    assert main(["--settings", str(tmp_path / "none"), "check"]) == 1
    assert "none: it can't be read: " in capsys.readouterr().err
    assert main(["--settings", str(written(tmp_path, GOOD)), "check"]) == 0


@pytest.mark.parametrize("name", ["bank-office", "bank-office-approvals"])
def test_settings_that_are_wrong_end_the_start_of_a_service(name: str) -> None:
    lines = [it for it in (OFFICE / f"units/{name}.service").read_text().splitlines() if it.startswith("Exec")]
    assert lines[0] == "ExecStartPre=/usr/share/tespiorvu/office check" and lines[1].startswith("ExecStart=/usr/bin/gunicorn")


def test_the_settings_that_are_installed_are_good() -> None:
    found = read_settings(OFFICE / "settings.toml")
    assert (found.badge, found.apart[:1], ("approver", "certifier") in found.apart) == ("office", (("post", "release"),), True)


def test_no_certifier_of_the_sample_approves_runs_as_installed() -> None:
    sample = OFFICE.parent / "sample"
    rows = {name: [it.split(",") for it in (sample / f"{name}.csv").read_text().splitlines()[1:]] for name in ("badges", "certifiers")}
    certifiers = {badge for badge, user in rows["badges"] if user in {it[0] for it in rows["certifiers"]}}
    assert certifiers and certifiers.isdisjoint(read_settings(OFFICE / "settings.toml").approvers)


def test_commands_import_export_and_save(tmp_path: Path, capsys: pytest.CaptureFixture[str]) -> None:
    settings, sheet = str(written(tmp_path, GOOD)), tmp_path / "users.csv"
    sheet.write_text("badge,user,name\ntess,7,Tess\n")
    assert main(["--settings", settings, "import", "users", str(sheet)]) == 0
    assert main(["--settings", settings, "export", "users"]) == 0
    assert capsys.readouterr().out == "1 rows changed\nbadge,user,name\r\ntess,7,Tess\r\n"
    sheet.write_text("badge,user,name\ntess,x,Tess\n")
    assert main(["--settings", settings, "import", "users", str(sheet)]) == 1
    assert "users.csv, line 2: user is a whole number" in capsys.readouterr().err
    assert main(["--settings", settings, "save"]) == 0
    assert Path(capsys.readouterr().out.strip()).parent == tmp_path / "saved"
    assert main(["--settings", settings, "propose", "interest", "1", "2026-01-01", "2026-01-31"]) == 1


@pytest.mark.parametrize("caller, wanted", [("ida", "(command: ida)"), ("", "(command)"), ("a\nb", "(command)"), ("x" * 33, "(command)")])
def test_a_change_by_a_command_has_who_called_it(tmp_path: Path, caller: str, wanted: str) -> None:
    settings, sheet = str(written(tmp_path, GOOD)), tmp_path / "users.csv"
    sheet.write_text("badge,user,name\ntess,7,Tess\n")
    command = [str(PROGRAMS / "office"), "--settings", settings, "import", "users", str(sheet)]
    subprocess.run(command, env={"PATH": "/usr/bin", "SUDO_USER": caller}, check=True, capture_output=True)
    with opened(tmp_path / "office") as found:
        assert found.execute("SELECT badge FROM changes").fetchone()[0] == wanted


def test_the_command_takes_no_python_from_the_folder_of_the_call(tmp_path: Path) -> None:
    for name in ("tespiorvu", "sqlite3", "json", "argparse"):
        (tmp_path / f"{name}.py").write_text(f"raise SystemExit('{name} of a stranger')")
    environment = {"PATH": "/usr/bin", "PYTHONPATH": str(tmp_path)}
    ran = subprocess.run([PROGRAMS / "office", "--help"], env=environment, cwd=tmp_path, capture_output=True, text=True)
    assert (ran.returncode, ran.stdout.split()[:2], ran.stderr) == (0, ["usage:", "bank-office"], "")


@pytest.mark.parametrize("program", sorted(it for it in PROGRAMS.iterdir() if it.is_file()), ids=lambda it: it.name)
def test_no_program_takes_python_from_its_environment(program: Path) -> None:
    assert program.read_text().startswith("#!/usr/bin/python3 -EsB\n")
