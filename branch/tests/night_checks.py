"""Checks of what follows a night: each copy is compared with the one before it."""
import os
import shutil
from collections.abc import Callable, Iterator
from contextlib import contextmanager
from pathlib import Path

from branch.tests.branches import Files
from checks import require
from branch.tests.month import Asked, Month
from branch.tests.tampering import altered, exchange, take_away


@contextmanager
def put_back(month: Month) -> Iterator[None]:
    """Afterwards the bank is as it was, and its copies, too."""
    kept = month.folder / "kept"
    for it in (month.bank, month.copies):
        shutil.copytree(it, kept / it.name)
    try:
        yield
    finally:
        for it in (month.bank, month.copies):
            shutil.rmtree(it)
            shutil.move(kept / it.name, it)


def is_named(month: Month, wanted: list[str], what: str) -> str:
    """Passes if the bank's books hold, and the night's check all the same fails and says this. What it says."""
    month.hold()
    status, said = month.night()
    require(status, 1, f"the check of a copy with {what}")
    require([it for it in wanted if it not in said], [], f"what the check of a copy with {what} does not say: {said}")
    return said


def honest_month(month: Month) -> None:
    """Days and nights, one of them within an open day, a restore of the newest copy, and a year that is carried forward: nothing is said."""
    month.good_night()
    month.day(closed=False)
    month.good_night()
    month.ask(*month.closing())
    kept = month.good_night()
    month.day(posts=1)
    month.restore(kept)
    month.day(posts=2)
    month.good_night()
    month.forward("2026")
    month.day(posts=2)
    month.good_night()
    require([(it / "year").exists() for it in month.checked()], [False] * 4 + [True, False], "copies of a year's end")


def copies_are_compared(files: Files) -> None:
    """What was altered since the night before is named, though the books hold and all sums are right: amounts of a closed day exchanged,
    without slips and with them, and a transfer taken away. An honest month names nothing."""
    month = Month(files, "compared")
    month.day()
    honest_month(month)
    month.day()
    month.good_night()
    for with_slips in (False, True):
        with put_back(month):
            one, other = exchange(month.file, 5, with_slips)
            said = is_named(month, [f"entries: branch 1, number {it}: delta was " for it in (one, other)], "amounts exchanged")
            require(("slips: user_no" in said, "lines: branch 1" in said), (with_slips, True), f"slips and lines that are named: {said}")
    with put_back(month):
        numbers = take_away(month.file)
        is_named(month, [*(f"entries: branch 1, number {it} is gone" for it in numbers), "proofs: branch 1, day 5: entries was ",
                         "slips: user_no 7, slip"], "a transfer taken away")
    is_accepted(month)


def is_accepted(month: Month) -> None:
    """What differs fails each night until root's word takes it, which the run says once, and the copy bears."""
    exchange(month.file, 5, False)
    for _ in range(2):
        is_named(month, ["delta was "], "amounts exchanged, again")
    require(month.accept("--by", "Rut", ""), 2, "no reason")
    require(month.accept("restored from the copy of Monday"), 2, "nobody who accepts")
    require(month.accept("--by", "Rut", "the disk failed"), 0, "a reason")
    status, said = month.night()
    require((status, '"by": "Rut", "reason": "the disk failed"' in said, "delta was " in said), (0, True, True), f"accepted: {said}")
    require(sorted(os.listdir(month.checked()[-1])), ["accepted", "bank", "bank.sha256", "differs"], "what the copy has")
    month.day(posts=1)
    month.good_night()


def changed(month: Month, text: str) -> None:
    """Changes the bank's file, with its sums, by statements of SQL."""
    with altered(month.file) as bank:
        bank.executescript(text)


# A line of nothing in the cash book of a day that is closed.
ONE_LINE_MORE = """INSERT INTO lines SELECT branch, (SELECT max(number) + 1 FROM lines), 0, 0, 4, moment, 1, 7 FROM lines WHERE number = 1;
    UPDATE branches SET lines = lines + 1;"""
# What is altered by a statement, after which the books hold, and what the check says.
STATEMENTS = (
    ("UPDATE proofs SET cash = cash + 1 WHERE day = 1", "proofs: branch 1, day 1: cash was "),
    ("UPDATE entries SET moment = moment - 1 WHERE branch = 1 AND number = 1", "entries: branch 1, number 1: moment was "),
    ("UPDATE releases SET giver = 3", "releases: user_no 7, number 1: giver was 13 and is 3"),
    ("UPDATE accounts SET floor = -1 WHERE account = 106", "accounts: account 106: floor was 0 and is -1"),
    ("UPDATE users SET name = 'Eve' WHERE user_no = 7", "users: user_no 7: name was 'Amy' and is 'Eve'"),
    ("UPDATE members SET high = 200 WHERE set_no = 2", "members: set_no 2, place 1: high was 106 and is 200"),
    ("UPDATE bank SET policy = 0", "bank: id 1: policy was 1 and is 0"),
    (ONE_LINE_MORE, " was added to a closed day (day 1, place 0, amount 0, form 4, "),
)


def each_row_is_compared(files: Files) -> None:
    """Each kind of row is compared: what never changes, and what never goes back; a slip with what it made, also of a new day."""
    month = Month(files, "rows")
    month.day(posts=2, more=all_kinds(month, month.slip))
    month.good_night()
    for text, said in STATEMENTS:
        with put_back(month):
            changed(month, text)
            is_named(month, [said], text)
    month.day(posts=2)
    slips_are_compared(month)


def slips_are_compared(month: Month) -> None:
    """Of a day that no copy has yet, a slip that says something else than what it made is named; and one without an entry."""
    last = month.slips
    for column, change in (("member2", "member2 + 1"), ("reply", """CAST(replace(reply, '"balance":', '"balance":1') AS BLOB)""")):
        with put_back(month):
            changed(month, f"UPDATE slips SET {column} = {change} WHERE form = 1 AND slip > {last - 6}")
            is_named(month, ["does not agree with entry 1/"], f"{column} of slips")
    with put_back(month):
        changed(month, f"UPDATE slips SET reply = CAST(replace(reply, '\"cash\":', '\"cash\":1') AS BLOB) WHERE form = 13 AND slip = {last}")
        is_named(month, [f"slips: slip {last} of user 13 does not agree with proof of branch 1, day 2"], "a proof's slip")


def all_kinds(month: Month, slip: Callable[[], int] = lambda: 0) -> list[Asked]:
    """A release and an account, with slips of these numbers, and a grant."""
    release = {"beneficiary": 7, "operation": {"procedure": "post", "account": 101, "branch": 1, "delta": 1, "teller": 11}}
    account = {"account": 107 + month.slips, "branch": 1, "floor": 0}
    return [Asked("sue", "/do/release", release, slip()), Asked("sue", "/do/new-account", account, slip()),
            Asked("carl", "/session", ""), Asked("carl", "/policy/grant", {"user": 7 + month.slips % 6, "procedure": "proof", "set": 1, "limit": 0})]


# A line that is taken out of the trail, and what is then said.
UNEXPLAINED = (
    ('"slip":"1"', ["no line explains entry 1 2 of user 7", "more than were asked for: /do/post of user 7 are 4 and requests 3"]),
    ("/do/post", ["more than were asked for: /do/post of user 7 are 4 and requests 3"]),
    ("/do/move-cash", ["no line explains cash line 1 19 of user 7", "no line explains cash line 1 20 of user 7",
                        "more than were asked for: /do/move-cash of user 7 are 1 and requests 0"]),
    ("/do/new-account", ["more than were asked for: /do/new-account of all are 1 and requests 0"]),
    ("/do/release", ["more than were asked for: /do/release of user 13 are 1 and requests 0"]),
    ("/do/close-day", ["more than were asked for: /do/close-day of all are 1 and requests 0"]),
    ("/policy/grant", ["more than were asked for: /policy/ of all are 1 and requests 0"]),
)


def trail_is_joined(files: Files) -> None:
    """The trail and the bank's rows are joined both ways: an honest day leaves nothing, a line that is taken out and an entry that is taken
    away are named, and of a copy that was brought back, what is to be done again. Reads, refusals and what is sent twice are nothing."""
    month = Month(files, "joined")
    before = month.good_night()
    month.day(more=all_kinds(month))
    now = month.good_night()
    require(month.audit(before, now), [], "an honest day")
    lines = (month.trail / "audit.log").read_text().splitlines()
    for part, wanted in UNEXPLAINED:
        place = next(number for number, it in enumerate(lines) if part in it)
        require(month.audit(before, now, lines[:place] + lines[place + 1 :]), wanted, f"without the line of {part}")
    last = lines[-1]
    harmless = [last.replace("/do/close-day", "/do/proof"), last.replace('"status":"200"', '"status":"403"'),
                *(it for it in lines if '"slip":"3"' in it), last.replace('"slip":"10"', '"slip":""').replace('"status":"200"', '"status":"504"')]
    require(month.audit(before, now, lines + harmless), [], "reads, refusals, what is sent twice, and what got no reply")
    fewer_than_lines(month, before, now, lines)
    nights_are_joined(month)


def fewer_than_lines(month: Month, before: Path, now: Path, lines: list[str]) -> None:
    """What was answered 200 and is not there is named, line by line."""
    asked = [it for it in lines if "/session" not in it]
    lost = month.audit(before, before, lines)
    named = [it for it in lost if it.startswith(("nothing is there for line", "perhaps not there: line"))]
    require(len(named), len(asked), f"lines of what is to be done again: {lost}")
    require(month.audit(before, now, [*lines, asked[3].replace("/do/post", "/do/move-cash").replace('"amy"', '"ben"')])[0][:25],
            "nothing is there for line", "one answered line more")
    tampered = month.folder / "tampered"
    shutil.copytree(now, tampered)
    take_away(tampered / "bank")
    said = month.audit(before, tampered)
    require([it for it in said if "/do/transfer 200 slip 9" in it][0][:25], "nothing is there for line", "a transfer taken away")
    require("fewer than were asked for: /do/transfer of user 7 are 1 and requests 2" in said, True, f"its count: {said}")
    with altered(tampered / "bank") as bank:
        bank.executescript(ONE_LINE_MORE)
    require("more than were asked for: /do/move-cash of user 7 are 1.5 and requests 1" in month.audit(before, tampered), True, "a line of cash added")


def nights_are_joined(month: Month) -> None:
    """The morning's run joins each copy with the one before, once, and fails if something is found. A badge that was taken off the list
    meanwhile has its lines."""
    run, badges = lambda: month.run("audit", "--night").returncode, month.badges
    require([run(), run()], [0, 0], "an honest night, and none since")
    month.day(posts=1)
    month.good_night()
    listed = badges.read_text()
    badges.write_text(listed.replace("cai,9\n", ""))
    require(run(), 0, "a night with a badge that was taken off the list")
    badges.write_text(listed)
    month.ask(Asked("amy", "/session", ""), *month.opening("amy")[2:], month.post("amy", 5, month.slip()), is_traced=False)
    month.good_night()
    require([run(), run()], [1, 0], "a night with a post past the front, which is said once")


def year_within_a_second(files: Files) -> None:
    """The last day of a year and the first of the next, within one second of the bank's clock: what came in it may be of either file, so
    nothing is said of an honest day, and a line of which nothing is there is named as soon as it is of a later second."""
    month = Month(files, "within")
    month.clock = lambda: 1_800_000_000.5
    month.day(posts=1)
    month.forward("2026")
    month.day(posts=1)
    year, now = month.bank / "2026", month.bank
    require(month.audit(year, now), [], "two days within one second")
    lines = (month.trail / "audit.log").read_text().splitlines()
    later = next(it for it in reversed(lines) if '"/do/move-cash"' in it).replace("1800000000.5", "1800000009.5")
    said = month.audit(year, now, [*lines, later])
    require([it[:25] for it in said], ["nothing is there for line", "fewer than were asked for"], f"one line of a later second: {said}")


CHECKS: list[Callable[[Files], None]] = [copies_are_compared, each_row_is_compared, trail_is_joined, year_within_a_second]
