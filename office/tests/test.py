"""Tests the office: its parts by pytest, and a day of it beside a bank that is served, with its front.

    office/test [--list] [--only TEXT] [PROGRAM [NAME]]

The checks of the day follow one another (tools/days.py), so --only makes all of them before those, too. They need Debian's
python3-flask, gunicorn, python3-pytest, python3-hypothesis, weasyprint and libxml2-utils, and what branch/test needs; those on screens what
desk/test needs, too. tools/packages installs all; what lacks one of these is skipped.
"""
import encodings.idna  # noqa: F401 - loaded while the files of Python may be read
import importlib
import importlib.util
import os
import shutil
import signal
import subprocess
import sys
import tempfile
from collections.abc import Sequence
from functools import partial
from pathlib import Path
from typing import Any
from xml.etree import ElementTree

from branch.tests import branches
from branch.tests.commands import said_of
from checks import Check, Report, is_chosen, only_of, reader, run_named
from days import Days, up_to_last
from office.tests.at_work import lists

OFFICE = Path(__file__).resolve().parent.parent
MODULES = {"flask": "python3-flask", "pytest": "python3-pytest", "hypothesis": "python3-hypothesis", "gunicorn": "gunicorn",
           "weasyprint": "weasyprint"}  # fmt: skip
# The checks of the day in their order, by the module of at_work/ whose functions they are. All but those of the first two need
# a browser, or several.
DAY = {
    "work": "absent first_night names release one_release entries sums two_years interest in_parts apart killed".split(),
    "audited": "policy_nights limit_put_back copy_put_back second_card".split(),
    "screens": "names_at_the_counter release_on_the_page amount_in_parts pages".split(),
    "at_two_desks": "large_release taken_back handed".split(),
    "at_the_counter": "beside_an_account purpose new_customer".split(),
    "taken_over": ["taken_over"],
}
# The name of all parts together, where pytest can't list them.
PARTS = "parts"


def lacks_modules() -> list[str]:
    """The packages whose modules this Python lacks."""
    return [f"{it} for Python (package {name})" for it, name in MODULES.items() if not importlib.util.find_spec(it)]


def missing() -> list[str]:
    """What the parts lack on this machine, each with the package of Debian that has it."""
    return lacks_modules() + ([] if shutil.which("xmllint") else ["xmllint (package libxml2-utils)"])


def lacks_browser() -> list[str]:
    """What a browser that is driven lacks on this machine."""
    programs = {"/usr/bin/chromium": "chromium", "/usr/bin/chromedriver": "chromium-driver"}
    found = [f"{program} (package {package})" for program, package in programs.items() if not shutil.which(program)]
    return found + ([] if importlib.util.find_spec("selenium") else ["selenium for Python (package python3-selenium)"])


def pytest(room: str, *words: str) -> subprocess.CompletedProcess[str]:
    """What pytest says of the parts, which keeps what it needs in a folder."""
    command = [sys.executable, "-m", "pytest", "-q", "-p", "no:cacheprovider", *words]
    environment = {**os.environ, "PYTHONDONTWRITEBYTECODE": "1", "HYPOTHESIS_STORAGE_DIRECTORY": room}
    return subprocess.run(command, cwd=OFFICE, env=environment, stdout=subprocess.PIPE, stderr=subprocess.STDOUT, text=True)


def parts() -> list[str]:
    """The names of the tests of the parts."""
    if missing():
        return [PARTS]
    with tempfile.TemporaryDirectory() as room:
        lines = pytest(room, "--collect-only", "tests").stdout.splitlines()
    return [it for it in lines if "::" in it and not it.startswith(" ")] or [PARTS]


def make_parts(report: Report, names: Sequence[str]) -> None:
    """Makes tests of the parts. One that pytest skips has failed, and so has one that it does not report."""
    with tempfile.TemporaryDirectory() as room:
        ran = pytest(room, f"--junitxml={room}/found.xml", *(["tests"] if PARTS in names else names))
        file = Path(room, "found.xml")
        cases = list(ElementTree.parse(file).iter("testcase")) if file.is_file() else []
    for it in cases:
        wrong = [f"{word.tag}: {word.get('message')}\n{word.text or ''}" for word in it if word.tag in ("error", "failure", "skipped")]
        report.add(f"{(it.get('classname') or '').replace('.', '/')}.py::{it.get('name')}", "\n".join(wrong) or None)
    if len(cases) != len(names):
        report.add(PARTS, f"pytest reports {len(cases)}, and not {len(names)}:\n{ran.stdout[-2000:]}")


def functions(names: Sequence[str]) -> list[Check]:
    """Checks of the day by their names."""
    modules = {it: module for module, of_module in DAY.items() for it in of_module}
    return [Check(it, getattr(importlib.import_module(f"office.tests.at_work.{modules[it]}"), it)) for it in names]


def make_day(report: Report, program: Path, names: Sequence[str]) -> None:
    """Makes checks of the day in a temporary folder, by an unprivileged user."""
    has_browser = any(it not in DAY["work"] + DAY["audited"] for it in names)
    late = [importlib.import_module("selenium.common.exceptions").TimeoutException] if has_browser else []
    signal.signal(signal.SIGTERM, lambda *_: sys.exit(1))  # so that the office, the front and the bank are ended, too
    checks, files = functions(names), branches.Files(program, branches.Staff(lists.TELLERS, lists.USERS, lists.write_lists))
    try:
        for it in ("units", "schemas"):
            shutil.copytree(OFFICE / it, files.top / f"office-{it}")
        shutil.copytree(OFFICE / "front", files.top / "front", dirs_exist_ok=True)
        shutil.copy(OFFICE.parent / "branch/debian/tespiorvu-office.sysusers", files.top)
        Days(partial(begun, files, has_browser, set(files.top.iterdir())), late).make_all(report, checks)
    finally:
        shutil.rmtree(files.top, ignore_errors=True)


def begun(files: Any, has_browsers: bool, kept: set[Path]) -> Any:
    """A day that begins, where of one before it nothing is left but what was there before both."""
    from office.tests.at_work.day import Day

    for it in set(files.top.iterdir()) - kept:
        if it.is_dir():
            shutil.rmtree(it)
        else:
            it.unlink()
    files.make_certificates()
    day = Day(files, has_browsers)
    try:
        day.live_first_year()
        day.begin()
    except BaseException:
        day.close()
        raise
    return day


def chosen(only: list[str]) -> list[Check]:
    """The checks that are asked for: tests of the parts, and the day up to the last of them; each with what it lacks."""
    of_day = missing() + branches.missing()
    lacks = {it: of_day if module in ("work", "audited") else of_day + lacks_browser() for module, names in DAY.items() for it in names}
    found = [Check(it, lambda: None, said_of(missing())) for it in parts() if is_chosen(it, only)]
    return found + [Check(it, lambda: None, said_of(lacks[it])) for it in up_to_last([*lacks], only)]


def main() -> int:
    given = reader(__doc__, has_name=True).parse_args()
    checks = chosen(only_of(given))

    def make(report: Report) -> None:
        names = [it.name for it in report.able(checks)]
        of_day = [it for it in names if it in sum(DAY.values(), [])]
        if of_parts := [it for it in names if it not in of_day]:
            make_parts(report, of_parts)
        if of_day:
            make_day(report, Path(given.program), of_day)

    return run_named(given, checks, make)


if __name__ == "__main__":
    sys.exit(main())
