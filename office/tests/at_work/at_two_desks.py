"""What two or three do together at the teller's page, each in a browser of their own: large amounts that are released, and taken back;
cash after a correction."""
from checks import require
from desk.tests.browser import Browser
from desk.tests.day import amount_of
from office.tests.at_work.day import Day

ENTER, ESCAPE = "\ue007", "\ue00c"
MOST = 999_999


def amounts(day: Day, account: int, count: int) -> list[int]:
    """The amounts of the last entries of an account."""
    rows = day.branch.sql("SELECT delta FROM entries WHERE account = ? ORDER BY turn DESC LIMIT ?", account, count)
    return [it for it, in reversed(rows)]


def balance(day: Day, account: int) -> int:
    return int(day.branch.one("SELECT balance FROM accounts WHERE account = ?", account))


def released(amy: Browser, sue: Browser, what: str, parts: int) -> None:
    """Amy asks for one release of all that was refused, and Sue gives it by one press."""
    amy.press("Ask for a release")
    amy.outcome("Asked", what)
    amy.until(lambda: amy.value("amount") == "", "a form for the next customer")
    sue.until_text("#asks", f"Amy Ångström asks for a release: {what}", f"in {parts} entries")
    require(len(sue.all("#asks .ask")), 1, "requests of one amount")
    sue.press("Give the release", "#asks button")
    sue.until(lambda: not sue.text("#asks"), "nothing more that waits for Sue")


def send_released(amy: Browser) -> None:
    """Amy sends what was released."""
    amy.until(lambda: any("Send it with release" in it for it in amy.texts("#asks button")), "the releases")
    amy.js("document.getElementById('outcome').replaceChildren()")
    amy.steady(lambda: amy.pressed(next(it for it in amy.texts("#asks button") if "Send it" in it), "#asks button"))


def large_release(day: Day) -> None:
    """15,000.00 above a limit of 1,000.00: one request with the total, one press, and both parts are sent, though bank and office are
    killed after the first."""
    amy, sue = day.browsers[:2]
    amy.go("p", "Deposit, withdrawal")
    told = amy.enter(way="in", account=104, amount="15,000.00")
    require([it in told for it in ("above your limit", "Nothing was changed")], [True, True], told)
    before = day.branch.one("SELECT count(*) FROM releases")
    released(amy, sue, "Deposit of 15,000.00, account 104, drawer 11", 2)
    killed = day.kill_after_a_post(day.relays[0], day.stop_services)
    send_released(amy)
    amy.outcome("Done", "Deposit of 15,000.00, account 104", "All 2 parts are done: 15,000.00")
    day.start_services()
    require((amounts(day, 104, 2), len(killed)), ([MOST, 500_001], 1), "entries, and kills")
    require(day.branch.one("SELECT count(*) FROM releases WHERE used = 1") - before, 2, "releases that are used")
    amy.until(lambda: not amy.text("#asks"), "an empty queue")
    amy.until_text("#last", "Deposit of 15,000.00")
    printed = amy.printed(lambda: amy.keys_after_escape("k"))
    require([it in printed for it in ("Amount15,000.00", "9,999.99", "5,000.01")], [True] * 3, printed)


def taken_back(day: Day) -> None:
    """A transfer of more than the account has: nothing is sent without a Yes. Two parts are booked then, the third is refused, and
    a colleague takes the two back."""
    amy, sue, ben = day.browsers[:3]
    before, total = [balance(day, it) for it in (149, 106)], balance(day, 149) + 1
    require(2 * MOST < total < 3 * MOST, True, f"an amount of three parts: {total}")
    amy.go("t", "Transfer")
    amy.send(source="149", target="106", amount=amount_of(total))
    amy.until_text("dialog", "May account 149 be overdrawn?", "0.01 more than it has")
    amy.keys(ESCAPE)
    amy.await_form()
    require([balance(day, it) for it in (149, 106)], before, "balances without a Yes")
    amy.type("amount", ENTER)
    amy.press("Yes, send it", "dialog button")
    amy.outcome("above your limit", "Nothing was changed")
    released(amy, sue, f"Transfer of {amount_of(total)} from account 149 to account 106", 3)
    send_released(amy)
    amy.press("Yes, send it", "dialog button")
    told = amy.outcome("Booked in part", f"19,999.98 of {amount_of(total)}", f"Left: {amount_of(total - 2 * MOST)}", "hasn't that much")
    require("Nothing was changed" in told, False, told)
    require(amounts(day, 106, 2), [MOST, MOST], "what is booked")
    amy.press("Ask a colleague to take 19,999.98 back")
    for left in (2, 1):
        ben.until(lambda count=left: len(ben.all("#asks .ask")) == count, f"{left} that wait for Ben")
        ben.click("#asks .ask a")
        ben.until(lambda: ben.value("amount") == "9,999.99", "the entry, filled in")
        ben.type("amount", ENTER)
        ben.outcome("Done", "Correct entry")
        ben.await_form()
    require([balance(day, it) for it in (149, 106)], before, "balances after it was taken back")
    ben.until(lambda: not ben.text("#asks"), "nothing more that waits for Ben")
    for _ in range(3):
        amy.until(lambda: amy.pressed("Seen", "#asks button"), "what Amy has not seen yet")
    amy.until(lambda: not amy.text("#asks"), "an empty queue")


def cash_of(day: Day, teller: int) -> int:
    return int(day.branch.one("SELECT cash FROM tellers WHERE teller = ?", teller))


def handed(day: Day) -> None:
    """Ben corrects Amy's deposit of 120.00 at drawer 12, and Amy's page shows that 120.00 has to be handed to it."""
    amy, _, ben = day.browsers[:3]
    amy.go("p", "Deposit, withdrawal")
    amy.enter(way="in", account=107, amount="120.00")
    entry = day.branch.one("SELECT max(number) FROM entries WHERE branch = 1")
    before = [cash_of(day, it) for it in (11, 12)]
    amy.go("e", "Correct an entry")
    amy.enter(entry=entry, account=107, kind="in", amount="120.00", drawer=11)
    amy.press("Ask a colleague to correct it")
    ben.until_text("#asks", "Correct it")
    ben.click("#asks .ask a")
    ben.until(lambda: ben.value("amount") == "120.00", "the entry, filled in")
    ben.type("amount", ENTER)
    ben.outcome("Done", f"Correct entry {entry}")
    amy.until_text("#asks", "ben corrected", "Hand 120.00 from drawer 11 to drawer 12.")
    amy.press("Move 120.00 from drawer 11 to drawer 12", "#asks button")
    amy.until(lambda: amy.text("h1") == "Move cash" and amy.value("amount") == "120.00", "the move, filled in")
    amy.type("amount", ENTER)
    amy.outcome("Done", "Cash of 120.00 from drawer 11 to drawer 12")
    require([cash_of(day, it) for it in (11, 12)], [before[0] - 12_000, before[1]], "cash of both drawers")
    amy.press("Seen", "#asks button")
