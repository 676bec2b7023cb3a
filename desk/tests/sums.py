"""An amount above what one entry can move is one act at the page: one line, one receipt, and what is left is known and sent alone."""

from selenium.webdriver.common.keys import Keys

from checks import require
from desk.tests.browser import SECONDS
from desk.tests.crashes import lingering
from desk.tests.day import amount_of, has
from desk.tests.work import printed_receipt

MOST = 999999


def last_deltas(day, count):
    """The amounts of the last entries."""
    rows = day.counter.sql("SELECT delta FROM entries ORDER BY number DESC LIMIT ?", count)
    return [delta for delta, in reversed(rows)]


def refused_in_part(day, booked, total):
    """The panel of an amount of which this is booked."""
    text = day.desk.outcome("Booked in part", f"{amount_of(booked)} of {amount_of(total)}", f"Left: {amount_of(total - booked)}")
    require("Nothing was changed" in text, False, text)
    return text


def one_act(day):
    """15,000.00 is one act: two entries, one line of the journal, and one receipt that says 15,000.00 and names both."""
    desk, before = day.desk, day.entries()
    desk.go("p", "Deposit, withdrawal")
    balance = day.balance(101)
    desk.send(way="in", account=101, amount="15,000.00")
    desk.outcome("Done", "Deposit of 15,000.00, account 101", amount_of(balance + 1500000))
    desk.await_form()
    require(last_deltas(day, day.entries() - before), [MOST, 500001], "entries")
    desk.until_text("#last", "Deposit of 15,000.00")
    day.look("sum")
    paper = printed_receipt(day, lambda: desk.keys_after_escape("k"))
    has(paper, "Amount15,000.00", f"Entry {before + 1}9,999.99", f"Entry {before + 2}5,000.01", f"Balance of 101{amount_of(balance + 1500000)}")
    desk.go("j", "Journal of the shift")
    rows = desk.until(lambda: [it for it in desk.texts("tbody tr") if "15,000.00" in it], "its line")
    require(len(rows), 1, f"lines of one amount: {rows}")
    has(rows[0], "done", f"Entries {before + 1}, {before + 2}")
    again = printed_receipt(day, lambda: desk.click("#work td button"))
    has(again, "Amount15,000.00")
    desk.go("p", "Deposit, withdrawal")
    desk.send(way="in", account="101", amount="15,000.00")
    has(desk.until(lambda: desk.text("dialog"), "a question"), "the same", "Deposit of 15,000.00")
    desk.keys(Keys.ESCAPE)
    desk.await_form()


def question(day, *pieces):
    """The question that is open."""
    return day.desk.until_text("dialog", "May account 101 be overdrawn?", *pieces)


def above_the_balance(day):
    """16,500.00 of an account with 16,235.79: nothing is sent without a Yes. Where the account may not be overdrawn the page says
    what is booked and what is left, and sends just that, once the account has it."""
    desk = day.desk
    desk.go("p", "Deposit, withdrawal")
    desk.enter(way="in", account=101, amount=amount_of(1623579 - day.balance(101)))
    require(day.balance(101), 1623579, "the balance")
    before, rows = len(day.relay.passed), day.entries()
    desk.send(way="out", account="101", amount="16,500.00")
    question(day, "16,235.79", "264.21 more than it has")
    day.look("overdraft")
    desk.keys(Keys.ESCAPE)
    desk.await_form()
    asked = [path for _, path, _ in day.relay.passed[before:]]
    require((set(asked), day.entries()), ({"/do/balance"}, rows), "what was asked, and entries")
    desk.type("amount", Keys.ENTER)
    question(day)
    desk.press("Yes, send it", "dialog button")
    has(refused_in_part(day, MOST, 1650000), "The account hasn't that much", "Rule 11", f"by entry {rows + 1}.")
    desk.await_form()
    require([desk.value("account"), desk.value("amount")], ["", ""], "the form, whose amount is begun")
    require((last_deltas(day, 1), day.entries()), ([-MOST], rows + 1), "what is booked")
    day.look("booked-in-part")
    has(desk.until_text("#last", "9,999.99"), "What is left")
    left_is_sent_alone(day, rows)


def left_is_sent_alone(day, rows):
    """The rest is sent by itself, after another request and from the journal, too."""
    desk = day.desk
    desk.js("document.getElementById('outcome').replaceChildren()")
    desk.enter(way="in", account=101, amount="264.21")
    desk.go("j", "Journal of the shift")
    row = desk.until(lambda: [it for it in desk.texts("tbody tr") if "16,500.00" in it], "its line")[0]
    has(row, "in part", "Booked: 9,999.99 of 16,500.00. Left: 6,500.01.")
    desk.press("What is left", "#work td button")
    refused_in_part(day, MOST, 1650000)
    desk.press("Send what is left, 6,500.01")
    has(desk.outcome("Done", "Withdrawal of 16,500.00"), "All 2 parts are done: 16,500.00")
    require((last_deltas(day, 3), day.entries()), ([-MOST, 26421, -650001], rows + 3), "entries")
    require(day.balance(101), 0, "the balance")
    desk.go("p", "Deposit, withdrawal")
    desk.enter(way="in", account=101, amount="500.00")


def killed_between(day):
    """Browser and bank are killed between two parts. What is left is offered then, and each part is made once."""
    desk, before = day.desk, day.entries()
    desk.go("p", "Deposit, withdrawal")
    made, killed = lingering(day)
    desk.send(way="in", account="101", amount="15,000.00")
    require(made.wait(SECONDS), True, "the first part at the bank")
    desk.kill()
    day.counter.end_bank()
    killed.set()
    day.relay.calm()
    day.counter.keep()
    desk = day.restart_browser()
    desk.as_user("tess", "#post")
    refused_in_part(day, MOST, 1500000)
    require((last_deltas(day, 1), day.entries()), ([MOST], before + 1), "the first part, once")
    desk.load("#post")
    refused_in_part(day, MOST, 1500000)
    desk.press("Send what is left, 5,000.01")
    desk.outcome("All 2 parts are done: 15,000.00")
    require((last_deltas(day, 2), day.entries()), ([MOST, 500001], before + 2), "both parts, once")
    desk.send(way="out", account=101, amount="15,000.00")
    desk.outcome("Done", "All 2 parts are done: 15,000.00")
    desk.await_form()
