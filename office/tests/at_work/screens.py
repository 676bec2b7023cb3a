"""The office in Chromium: names and queue on the teller's page, an amount in parts, and the office's own pages."""
import datetime

from checks import require
from desk.tests.browser import Browser
from office.tests.at_work.day import Day
from desk.tests.looks import MARKUP

from office.tests.odd_names import ODD_NAMES

# What a name would be, taken for markup, on a page that has forms of its own.
OWN_MARKUP = "return [...document.querySelectorAll('img, script, svg, iframe, main b')].map(it => it.outerHTML)"
PARTS = [999_999, 999_999, 500_002]
YESTERDAY = datetime.date.today() - datetime.timedelta(1)


def opened(day: Day, who: str, **place: str) -> Browser:
    """The teller's page of a user in a browser of their own, signed in."""
    relay = day.relays[len(day.browsers)]
    relay.card = who
    browser = Browser(relay, day.files.top / f"browser-{who}")
    day.browsers.append(browser)
    browser.load()
    browser.fill(**place)
    browser.keys("\ue007")
    browser.until(lambda: browser.text("h1") not in ("", "Sign in and out"), "another screen, signed in")
    return browser


def names_at_the_counter(day: Day) -> None:
    """The name stands beside an account's number as it is typed, also one of markup; a search finds it."""
    day.do("amy", "drawer-on", branch=1, cash=1_000, teller=11)
    amy = opened(day, "amy", branch="1", teller="11")
    for at in (2, 17, 22, 7):
        amy.go("p", "Deposit, withdrawal")
        amy.fill(account=str(101 + at))
        amy.until_text("[data-name=names]", f"{101 + at}: {ODD_NAMES[at]}")
        require(amy.js(MARKUP), [], "markup of a name")
    amy.fill(account="199")
    amy.until_text("[data-name=names]", "no name")
    amy.go("f", "Find a name")
    amy.send(name="muller")
    amy.until_text("#work table", "Jürgen Müller", "101")
    amy.go("s", "Statement")
    amy.send(account="103")
    amy.until_text("#work .paper .names", f"103: {ODD_NAMES[2]}")
    amy.go("p", "Deposit, withdrawal")
    amy.enter(way="in", account=103, amount="7.00")
    printed = amy.printed(lambda: amy.keys_after_escape("k"))
    require(f"Holder of 103{ODD_NAMES[2]}" in printed, True, printed)
    require(amy.complaints(), [], "what the console has")


def release_on_the_page(day: Day) -> None:
    """Amy asks for a release, Sue gives it by one press, and Amy sends her request with its number."""
    amy, sue = day.browsers[0], opened(day, "sue", branch="1")
    amy.go("p", "Deposit, withdrawal")
    told = amy.enter(way="in", account=103, amount="1,500.00")
    require("above your limit" in told, True, told)
    amy.press("Ask for a release")
    sue.until_text("#asks", "Amy Ångström asks for a release: Deposit of 1,500.00, account 103", ODD_NAMES[2])
    sue.press("Give the release", "#asks button")
    # Of the releases before, which were used without this page, nothing more is wanted.
    amy.until_text("#asks", "Send it with release 1")
    for ask in (1, 2):
        amy.press("Seen", f"#asks [data-ask='{ask}'] button")
    amy.js("document.getElementById('outcome').replaceChildren()")
    amy.press("Send it with release 4", "#asks button")
    amy.outcome("Done", "Deposit of 1,500.00, account 103")
    got = day.branch.one("SELECT count(*) FROM entries WHERE account = 103 AND delta = 150000")
    require(got, 2, "by the queue's two ways")
    amy.until(lambda: not amy.text("#asks"), "an empty queue")


def amount_in_parts(day: Day) -> None:
    """25,000.00 at the page, in three parts; the bank is killed after the first, and each acts once."""
    day.do("ben", "drawer-on", branch=1, cash=1_000, teller=12)
    ben = opened(day, "ben", branch="1", teller="12")
    killed = day.kill_after_a_post(day.relays[2])
    ben.go("p", "Deposit, withdrawal")
    ben.fill(way="in", account="149", amount="25,000.00")
    ben.until_text("[data-name=reads]", "3 parts")
    ben.type("amount", "\ue007")
    ben.outcome("All 3 parts are done: 25,000.00")
    got = day.branch.sql("SELECT delta FROM entries WHERE account = 149 AND form = 1 ORDER BY turn")
    require(([it for it, in got], len(killed)), (PARTS, 1), "the parts, and kills")


def pages(day: Day) -> None:
    """The office's own pages: no script, nothing blocked, names as text; a day book and a statement are printed."""
    kim = Browser(day.relays[3], day.files.top / "browser-kim")
    day.browsers.append(kim)
    for who, path, text in (("kim", "office/holders/23", "<b>Bold</b>"), ("kim", "office/changes", "Robert'); DROP TABLE holders;--"),
                            ("sue", "office/days/1/2", "It agrees with the day's proof"), ("sue", f"office/statements?account=101&first=2025-06-02&last={YESTERDAY}", "Closing balance")):  # fmt: skip
        day.relays[3].card = who
        kim.driver.get(kim.url + path)
        kim.until_text("main", text)
        require(kim.js(OWN_MARKUP), [], f"markup on {path}")
        kim.paper(day.files.top / "paper.pdf")
        require((day.files.top / "paper.pdf").read_bytes()[:5], b"%PDF-", "the print")
        require(kim.driver.get_log("browser"), [], f"what the console has of {path}")
