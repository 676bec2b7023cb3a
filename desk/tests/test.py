"""Drives the teller's page in Chromium: as tools/try --page serves it, and then through a short day over a branch with
its front and its bank, and looks at what it says and at the bank's file.

    desk/test [--long] [--firefox] [--pictures FOLDER] [--list] [--only TEXT] [PROGRAM [NAME]]

The checks of each of the two follow one another (tools/days.py), so --only makes all before those, too. --long adds a
statement of 1,500 entries, and --pictures keeps pictures of the screens in a folder that anybody may write to.
--firefox takes Firefox, by a geckodriver on the path, in place of Chromium.

It needs Debian's chromium, chromium-driver and python3-selenium, and what branch/test needs; tools/packages installs all. Where
one of these is not there, all is skipped.
"""
import encodings.idna  # noqa: F401 - loaded while the files of Python may be read
import importlib
import importlib.util
import shutil
import signal
import sys
from pathlib import Path

from branch.tests import branches
from checks import Check, only_of, reader, run_named
from days import Days, up_to_last

DESK = Path(__file__).resolve().parent.parent
# The checks of tools/try --page in their order, by module and function. They are made first: the user that this process
# becomes for the day may have no right to read the repository.
OF_TRY = """
try_page.first_lines try_page.next_step try_page.deposit try_page.statement_shown try_page.journal_shown
try_page.listing_shown try_page.half_a_request
""".split()
# Those of the day.
CHECKS = """
markup.sources languages.literals modules.units modules.mutants
office_hours.first_sign_in work.morning work.wrong_amounts work.deposits work.three_enters money.ways money.twice
work.refusals work.receipts
sums.one_act sums.above_the_balance sums.killed_between two_places.cash_from_elsewhere
work.colleague work.correction money.cash_of_a_correction money.kept_without_a_drawer work.supervisor work.questions
crashes.bank_killed_after_it crashes.bank_killed_before_it crashes.bank_down_and_held crashes.browser_killed_before_it
crashes.browser_killed_after_it crashes.replies_of_others
cards.session_elsewhere cards.second_window cards.last_slip cards.other_card cards.set_aside
markup.markup_of_users markup.markup_of_replies markup.markup_of_the_policy cards.office
widths.widths widths.focus_order widths.live_regions
languages.texts_are_words languages.sentences_fit
office_hours.certificate_that_ends office_hours.clock_that_is_wrong office_hours.kept_meanwhile
office_hours.place_that_is_not_there office_hours.screens_step_back office_hours.rest office_hours.screen_of_a_laptop
money.count_that_differs work.evening money.count_with_a_witness languages.day_in_german work.journal work.day_closed
by_words.sheet_in_german by_words.sheet_in_french by_words.sheet_in_spanish work.night
""".split()
# What is added by hand, and before which of them.
LONG, EVENING = "work.long_statement", "money.count_that_differs"


def missing(is_firefox):
    """What the page's tests lack on this machine, each with the package of Debian that has it."""
    programs = {"geckodriver": "none of Debian 12: see crates.io"} if is_firefox else {
        "/usr/bin/chromium": "package chromium", "/usr/bin/chromedriver": "package chromium-driver"}
    found = [f"{program} ({origin})" for program, origin in programs.items() if not shutil.which(program)]
    if importlib.util.find_spec("selenium") is None:
        found.append("selenium for Python (package python3-selenium)")
    return found + branches.missing()


def edits():
    """The mutants of the page, by name: (path, old, new)."""
    found = {}
    for file in sorted((DESK / "must-fail").glob("*.edit")):
        fields = dict(line.split(": ", 1) for line in file.read_text().splitlines())
        found[file.stem] = (fields["file"], fields["old"], fields["new"])
    return found


def names_of(is_long):
    """The names of the checks of the day, in their order."""
    names = [*CHECKS]
    if is_long:
        names.insert(names.index(EVENING), LONG)
    return names


def check_of(name, mutants):
    """A check by its name; that of the mutants is given these."""
    module, _, function = name.partition(".")
    found = getattr(importlib.import_module(f"desk.tests.{module}"), function)
    return Check(function, (lambda day: found(day, mutants)) if function == "mutants" else found)


def keep_picture(day):
    """Keeps a picture of the screen of a day that failed, if pictures are kept."""
    if day.pictures:
        day.desk.picture(day.pictures / "failed.png")


def arguments():
    parser = reader(__doc__, has_name=True)
    parser.add_argument("--long", action="store_true")
    parser.add_argument("--firefox", action="store_true")
    parser.add_argument("--pictures", metavar="FOLDER", type=Path)
    return parser.parse_args()


def make_days(report, given, of_try, names):
    """Makes the checks of these names over tools/try --page, and those of a day, in a browser."""
    from desk.tests.browser import Browser, Firefox
    from desk.tests.day import Day
    from selenium.common.exceptions import TimeoutException
    from desk.tests.try_page import TryPage

    mutants, browser = edits(), Firefox if given.firefox else Browser
    tried, checks = ([check_of(it, mutants) for it in chosen] for chosen in (of_try, names))
    signal.signal(signal.SIGTERM, lambda *_: sys.exit(1)) # so that the browser, the front and the bank are ended, too
    Days(lambda: TryPage(given.program, given.pictures, browser), [TimeoutException],
         keep_picture).make_all(report, tried)
    files = branches.Files(given.program)

    def begin():
        shutil.rmtree(files.top / "ca", ignore_errors=True) # of a day before
        return Day(files, given.pictures, browser)

    try:
        Days(begin, [TimeoutException], keep_picture).make_all(report, checks)
    finally:
        shutil.rmtree(files.top, ignore_errors=True)


def main():
    given = arguments()
    of_try, names = (up_to_last(it, only_of(given)) for it in (OF_TRY, names_of(given.long)))
    lacks = ", ".join(f"there is no {it}" for it in missing(given.firefox))
    checks = [Check(it.partition(".")[2], lambda: None, lacks) for it in of_try + names]
    return run_named(given, checks, lambda report: make_days(report, given, of_try, names))


if __name__ == "__main__":
    sys.exit(main())
