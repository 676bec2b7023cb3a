"""What the teller's page shows beside an account, keeps of an entry's purpose, and proposes of a new customer, each in browsers of those
who were at the two desks."""
import json

from office.tests.at_work.at_two_desks import balance
from checks import require
from desk.tests.browser import Browser
from desk.tests.day import amount_of
from office.tests.at_work.day import Day

from office.tests.odd_names import ODD_NAMES

TAB = "\ue004"
OWNER, ACTOR = 10, 11
ACCOUNT = 100 + OWNER


def keep_facts(day: Day) -> None:
    """Kim writes what the register has of the owner of an account, and who acts for them."""
    facts = {"address": "Lane 1\nTown", "born": "1961-12-31", "warning": "ESTATE: ask first", "document": "P 77", "note": "for keepers"}
    require(day.form("kim", f"holders/{OWNER}", name=ODD_NAMES[OWNER - 1], **facts), 303, "the facts of a holder")
    require(day.form("kim", f"holders/{ACTOR}/accounts", account=str(ACCOUNT), may="acts"), 303, "who acts")
    require(day.form("kim", f"holders/{OWNER}/accounts", account="112", may="owns"), 303, "another account")


def beside_an_account(day: Day) -> None:
    """Beside a typed account stand its owner with birth and address, who may act, a warning, and once the field is left its balance; a
    link leads to all accounts of the owner with their balances, and the search shows by what namesakes differ."""
    amy, owner = day.browsers[0], ODD_NAMES[OWNER - 1]
    keep_facts(day)
    has = balance(day, ACCOUNT)
    amy.go("p", "Deposit, withdrawal")
    amy.fill(account=ACCOUNT)
    seen = amy.until_text("[data-name=names]", f"{ACCOUNT}: {owner} (born Dec 31, 1961, Lane 1, Town)",
                          f"May act for {ACCOUNT}: {ODD_NAMES[ACTOR - 1]}", f"Warning, {owner}: ESTATE: ask first")  # fmt: skip
    require([it in seen for it in ("P 77", "for keepers", "Balance")], [False] * 3, seen)
    amy.type("account", TAB)
    amy.until_text("[data-name=names]", f"Balance of {ACCOUNT}: {amount_of(has)}")
    amy.enter(way="in", account=ACCOUNT, amount="1.00")
    amy.fill(account=ACCOUNT)
    amy.type("account", TAB)
    amy.until_text("[data-name=names]", f"Balance of {ACCOUNT}: {amount_of(has + 100)}")
    amy.click("[data-name=names] a")
    amy.until_text("#work table", owner, "Dec 31, 1961", "Lane 1, Town", "ESTATE: ask first", amount_of(has + 100), "112")
    amy.go("f", "Find a name")
    amy.send(name=owner)
    amy.until_text("#work table", "Dec 31, 1961", "Lane 1, Town")
    require(amount_of(has + 100) in amy.text("#work table"), False, "balances that nobody asked for")
    amy.press("Show balances")
    amy.until_text("#work table", amount_of(has + 100))
    require(amy.complaints(), [], "what the console has")


def last_entry(day: Day) -> tuple[int, int]:
    """The number of the last entry of branch 1, and its day."""
    ((number, of_day),) = day.branch.sql("SELECT number, day FROM entries WHERE branch = 1 ORDER BY number DESC LIMIT 1")
    return number, of_day


def await_notes(day: Day, browser: Browser, wanted: list[tuple[str, int, str]]) -> None:
    """Waits until the office has these notes, as Sue sees them."""
    path = f"api/notes?branch=1&day={last_entry(day)[1]}"
    notes = lambda: [(it["badge"], it["number"], it["text"]) for it in json.loads(day.get("sue", path))["notes"]]
    browser.until(lambda: set(wanted) <= set(notes()), f"notes {wanted}")


def purpose(day: Day) -> None:
    """A purpose stands on the receipt and in the statement, and in the office under the bank's own day and number; while the office is
    away it waits."""
    amy = day.browsers[0]
    amy.go("p", "Deposit, withdrawal")
    amy.send(way="in", account="113", amount="7.50", purpose="Rent of May")
    amy.outcome("Done", "Purpose: Rent of May")
    number, _ = last_entry(day)
    await_notes(day, amy, [("amy", number, "Rent of May")])
    amy.await_form()
    printed = amy.printed(lambda: amy.keys_after_escape("k"))
    require("PurposeRent of May" in printed, True, printed)
    amy.go("s", "Statement")
    amy.send(account="113")
    amy.until_text("#work .statement", "Rent of May")
    day.stop_services()
    amy.go("t", "Transfer")
    amy.send(source="113", target="114", amount="2.00", purpose="Share")
    amy.outcome("Done", "Transfer of 2.00")
    number, _ = last_entry(day)
    day.start_services()
    amy.load()
    await_notes(day, amy, [("amy", number - 1, "Share"), ("amy", number, "Share")])


def opened(amy: Browser, account: int) -> None:
    """Amy opens an account for a new customer."""
    amy.go("n", "New account")
    amy.send(owner="new", branch="1", name="Jo Néw", address="Lane 2", document="P 88", born="12/31/1961", account=account)


def new_customer(day: Day) -> None:
    """An account and its owner in one act: of one that the bank refuses nothing is proposed; else the name bears a mark until Sue, and
    not Amy, accepts it."""
    amy, sue = day.browsers[:2]
    opened(amy, 101)
    amy.outcome("Not done")
    amy.await_form()
    opened(amy, 190)
    amy.outcome("Account opened", "Jo Néw is proposed")
    require([it["accounts"] for it in json.loads(day.get("sue", "api/queue"))["proposals"]], [[190]], "what is proposed")
    amy.until_text("#asks", "Jo Néw, proposed as the owner of account 190, waits for a second person")
    amy.go("p", "Deposit, withdrawal")
    amy.fill(account="190")
    amy.until_text("[data-name=names]", "190: Jo Néw (not accepted yet) (born Dec 31, 1961, Lane 2)", "proposed by amy")
    require("Jo Néw (?)" in day.get("amy", "accounts/190"), True, "the mark on the office's page")
    sue.until_text("#asks", "Amy Ångström proposes Jo Néw as the owner of account 190", "P 88", "Dec 31, 1961", "Lane 2")
    sue.press("Accept Jo Néw", "#asks button")
    sue.until(lambda: not sue.text("#asks"), "nothing more that waits for Sue")
    amy.until(lambda: not amy.text("#asks"), "nothing more that waits")
    require(json.loads(day.get("amy", "api/names?accounts=190"))["accounts"], {"190": ["Jo Néw"]}, "the name, accepted")
    require(amy.complaints() + sue.complaints(), [], "what the console has")
