"""The work of the day, from the sign-in of the morning to the closing of the day."""
import os
import re
import time

from selenium.webdriver.common.keys import Keys

from checks import require
from desk.tests.day import TESS, TOM, amount_of, has

POINTS_PER_MM = 72 / 25.4
WRONG_AMOUNTS = [
    ("25.000", "2 digits"), ("25.5", "all digits"), ("25,00", "before the cents"), ("1,25.00", "wrong places"),
    ("-25.00", "sign"), ("25.00.0", "more than one"), ("abc", "Only digits"), ("", "Type an amount"), ("0.00", "At least 0.01"),
    ("1,000,000.00", "At most 999,999.00"), (".50", "Put a 0")]
DEPOSITS = [
    ("in", 101, "25.00"), ("in", 102, "1,250.00"), ("out", 101, "100.00"), ("in", 201, "0.07"), ("out", 102, "250.50"),
    ("in", 101, "8.29"), ("in", 101, "4.35"), ("out", 201, "300.07"), ("in", 102, "19.99"), ("in", 101, "99")]


def cents_of(text):
    return int(text.replace(",", "").replace(".", "")) * (1 if "." in text else 100)


def morning(day):
    """Tess signs in anew, counts the notes and coins of her drawer by keys alone, and puts it on."""
    desk, counter = day.desk, day.counter
    desk.as_user("tess")
    require(desk.text("h1"), "Sign in and out", "the first screen")
    desk.until_text("header", "tess", "none")
    desk.fill(branch="1", teller="11")
    day.look("sign-in")
    desk.keys(Keys.ENTER)
    desk.until_text("h1", "Drawer on")
    require(counter.sql("SELECT session, is_on FROM users WHERE user_no = ?", TESS), [(2, 1)], "session")
    before = day.asked()
    desk.keys("x", Keys.ENTER, Keys.ENTER)
    desk.steady(lambda: desk.js("arguments[0].closest('form').requestSubmit()", desk.field("cash")))
    desk.fault("500.00: Only digits")
    require(day.asked(), before, "requests of a wrong count")
    desk.type("cash", Keys.CONTROL, "a")
    desk.type("cash", Keys.DELETE)
    # 200 + 50 + 80 + 50 + 10 + 6 + 9 + 4 + .70 + .20 + .08 + .02 = 410.00, which the Enter after the last sends.
    for pieces in ["", "1", "", "1", "4", "5", "2", "3", "9", "8", "", "7", "4", "4", "2"]:
        desk.keys(*pieces, Keys.ENTER)
    desk.outcome("Done", "410.00", "The vault has 590.00", "no. 2001")
    require(counter.sql("SELECT cash, holder FROM tellers WHERE teller = 11"), [(41000, TESS)], "drawer 11")


def wrong_amounts(day):
    """What is no amount is refused beside its field, in plain words, and nothing is sent."""
    desk = day.desk
    desk.go("p", "Deposit, withdrawal")
    before = day.asked()
    desk.fill(way="in", account="101")
    for text, why in WRONG_AMOUNTS:
        desk.fill(amount=text)
        desk.type("amount", Keys.ENTER)
        desk.fault(why)
        desk.await_focus("amount") # which is wrong
    desk.fill(account="10x", amount="25.000")
    desk.type("amount", Keys.ENTER)
    desk.until(lambda: len(desk.faults()) == 2, "two faults")
    desk.await_focus("account") # both are wrong, and this is the first
    day.look("wrong-amount")
    require(day.asked(), before, "requests of wrong amounts")


def deposits(day):
    """Ten deposits and withdrawals move what the bank's file says, to the cent."""
    desk, balances, cash = day.desk, {101: 50000, 102: 0, 201: 30000}, 41000
    for way, account, amount in DEPOSITS:
        cents = cents_of(amount) * (1 if way == "in" else -1)
        balances[account] += cents
        cash += cents
        has(desk.enter(way=way, account=account, amount=amount), "Done", f"Balance of account {account}", amount_of(balances[account]))
        desk.await_focus("account") # the first field, again
    require(day.counter.sql("SELECT account, balance FROM accounts ORDER BY account"), sorted(balances.items()), "balances")
    require(day.cash(11), cash, "cash")
    day.look("post")


def three_enters(day):
    """Enter three times in haste is one post."""
    desk, before = day.desk, day.entries()
    desk.send(way="in", account="101", amount="1.00")
    desk.type("amount", Keys.ENTER, Keys.ENTER)
    desk.outcome("Done")
    desk.await_form()
    time.sleep(0.4)
    desk.await_nothing_waiting()
    require(day.entries(), before + 1, "entries")


def refusals(day):
    """What the bank refuses is shown as not done, with the reason and what to do."""
    desk, before = day.desk, day.entries()
    told = desk.enter(way="out", account=102, amount="5,000.00")
    has(told, "Not done", "The account hasn't that much", "Rule 11")
    require("Done" in told, False, "shown as done")
    day.look("denied")
    has(desk.enter(way="in", account=999, amount="5.00"), "Not done", "You have no authorization", "Rule 3")
    desk.go("t", "Transfer")
    has(desk.enter(source=101, target=102, amount="5.00"), "Not done", "a certifier has to grant an authorization", "Rule 3")
    desk.send(source=101, target=101, amount="5.00")
    desk.fault("same account")
    require(day.entries(), before, "entries")


def printed_receipt(day, action):
    """What is on the paper that an action prints, whose width is measured where the browser prints."""
    desk = day.desk
    text, path = desk.printed(action), (day.pictures or day.folder) / "receipt.pdf"
    desk.paper(path)
    if path.exists():
        box = re.search(rb"/MediaBox ?\[ ?0 0 ([0-9.]+) ([0-9.]+)", path.read_bytes())
        require(abs(float(box[1]) - 72 * POINTS_PER_MM) < 2, True, f"the paper is 72 mm wide: {box[0]}")
    desk.js("dispatchEvent(new Event('afterprint'))")
    require(desk.js("return document.getElementById('receipt').textContent"), "", "the receipt after it was printed")
    return text


def receipts(day):
    """A deposit's receipt is printed by a key; one of the journal again, with the balance after that very entry."""
    desk = day.desk
    desk.go("p", "Deposit, withdrawal")
    desk.enter(way="in", account=101, amount="12.00")
    balance, entry = day.balance(101), day.entries()
    text = printed_receipt(day, lambda: desk.keys_after_escape("k"))
    has(text, "Deposit", "Savings Office", "Branch1", "tess, drawer 11", "Account101", "Amount12.00", f"Balance of 101{amount_of(balance)}", f"Entry{entry}")
    desk.go("p", "Deposit, withdrawal")
    desk.enter(way="out", account=101, amount="12.00")
    desk.go("j", "Journal of the shift")
    again = printed_receipt(day, lambda: desk.click("#work td button", 1))
    has(again, "Deposit", f"Balance of 101{amount_of(balance)}", f"Entry{entry}")


def colleague(day):
    """Tom at the same machine: a transfer, whose receipt has no balance as he may see none; a limit; cash that is not there."""
    desk = day.desk
    desk.as_user("tom")
    day.sign_in(branch="1", teller="12")
    has(day.count_cash(5000), "Cash in drawer 12", "50.00")
    desk.go("t", "Transfer")
    has(desk.enter(source=101, target=102, amount="200.00"), "Done", "Account 102 has", "Entries")
    text = printed_receipt(day, lambda: desk.click("#last button"))
    has(text, "Transfer", "From account101", "To account102", "Amount200.00", "tom, drawer 12")
    require("Balance" in text, False, "a balance that Tom may not see")
    day.look("transfer")
    desk.go("p", "Deposit, withdrawal")
    has(desk.enter(way="out", account=101, amount="50.01"), "There isn't that much cash", "Rule 12")
    has(desk.enter(way="in", account=101, amount="600.00"), "above your limit", "release", "Rule 4")


def correction(day):
    """Tom corrects Tess's entry; she could not, and it is corrected once."""
    desk = day.desk
    desk.go("e", "Correct an entry")
    entry = {"entry": 1, "account": 101, "kind": "in", "amount": "25.00", "drawer": 11}
    has(desk.enter(**entry), "Done", "Correct entry 1")
    require(day.counter.sql("SELECT delta, user_no FROM entries WHERE branch = 1 AND undoes = 1"), [(-2500, TOM)], "the correction")
    has(desk.enter(**entry), "Not done", "can't be corrected", "Rule 10")


def supervisor(day):
    """Sue gives a release, with which Tom passes his limit once, and opens an account."""
    desk = day.desk
    desk.as_user("sue")
    desk.go("r", "Release for a colleague")
    told = desk.enter(beneficiary=8, teller=12, way="in", account=101, amount="600.00")
    has(told, "Number of the release", "Release for user 8: Deposit of 600.00")
    desk.go("n", "New account")
    has(desk.enter(account=103, overdraft="0.00"), "Account opened", "103")
    has(desk.enter(account=103), "number is taken", "Rule 14")
    desk.as_user("tom", "#post")
    has(desk.enter(way="in", account=101, amount="600.00", release="1"), "Done", "600.00")
    require(day.counter.sql("SELECT used FROM releases"), [(1,)], "the release is used")


def questions(day):
    """A balance, a statement, the correction of one of its lines, the accounts; cash goes to the vault."""
    desk = day.desk
    desk.as_user("tess")
    desk.go("b", "Balance")
    balance = day.balance(101)
    has(desk.enter(account=101), amount_of(balance))
    desk.go("s", "Statement")
    desk.send(which="Infinity", account="101")
    rows = desk.until(lambda: desk.texts("table.statement tbody tr"), "a statement")
    require(len(rows), day.one("SELECT turns FROM accounts WHERE account = 101"), "lines")
    has(rows[-1], amount_of(balance))
    correctable(day)
    day.look("statement")
    desk.click("table.statement tbody tr td a", -1)
    desk.until_text("h1", "Correct an entry")
    desk.until(lambda: desk.value("amount") == "600.00", "the line's amount")
    desk.fill(kind="in")
    desk.type("amount", Keys.ENTER)
    desk.outcome("Done", "Correct entry")
    desk.go("a", "Accounts")
    desk.keys(Keys.ENTER)
    require(len(desk.until(lambda: desk.all("table tbody tr"), "accounts")), 3, "accounts that Tess may see")
    desk.go("m", "Move cash")
    has(desk.enter(**{"from": "11", "to": "0", "amount": "50.00"}), "Moved", "50.00", "the vault has")
    desk.go("j", "Journal of the shift")
    desk.size(768, 1024)
    day.look("journal-on-a-tablet")
    desk.size(1280, 800)


def correctable(day):
    """Only what Tess can correct can be: no entry of hers, none that is corrected, no correction; of a transfer the other account is named."""
    cells = "return [...document.querySelectorAll('table.statement tbody tr')].map(r => [5, 7, 8].map(at => r.cells[at].textContent))"
    lines = {int(entry): (mark, link) for entry, mark, link in day.desk.js(cells)}
    entries = day.counter.sql("SELECT number, user_no, undoes, partner FROM entries WHERE account = 101 AND branch = 1")
    undone = {undoes for _, _, undoes, _ in entries if undoes}
    for number, user, undoes, partner in entries:
        mark, link = lines[number]
        wanted = "" if user == TESS or undoes or number in undone else "Correct"
        require(link, wanted, f"the link of entry {number}")
        words = "correction" if undoes else "corrected" if number in undone else "transfer to 102" if partner else ""
        require(mark, words, f"what is said of entry {number}")
    leg = next(number for number, _, _, partner in entries if partner)
    href = day.desk.js(f"return document.querySelector('[aria-label=\"Correct entry {leg}\"]').getAttribute('href')")
    has(href, "kind=out-transfer", "other=102", "drawer=12")


def evening(day):
    """The page says what the drawer should hold, only where it is asked to; a difference is shown, with the line of the shift."""
    desk = day.desk
    desk.go("d", "Drawer on, off")
    cash = day.cash(11)
    require(desk.all("[data-name=expected]"), [], "the expected cash is not shown at once")
    desk.click("#work summary")
    desk.until_text("[data-name=expected]", amount_of(cash))
    day.look("drawer")
    day.type_count(cash - 150)
    desk.until_text("dialog", "Send this count?", "1.50 too little")
    desk.press("Send the count")
    has(desk.outcome(), "Cash is missing", "-1.50", "Drawer 11 is empty and free")
    require(day.counter.sql("SELECT cash, holder FROM tellers WHERE teller = 11"), [(0, 0)], "drawer 11 is off")
    desk.until(lambda: len(desk.all("#outcome .chart")) == 1, "the line of the shift")
    day.look("drawer-off")


def saved_text(day):
    """The journal that was saved, once it is there whole: browsers write to a file of another name, or to one beside it."""
    names = os.listdir(day.folder)
    found = [day.folder / name for name in names if name.startswith("journal-tess-") and name.endswith(".csv")]
    is_written = not any(name.endswith((".crdownload", ".part")) for name in names)
    return found[0].read_text() if found and is_written else ""


def journal(day):
    """The journal has what was asked and what came of it, and is saved as a file."""
    desk = day.desk
    desk.go("j", "Journal of the shift")
    desk.until_text("table", "Drawer 11 off", "not done: The account hasn't that much", "Statement of account 101", "set aside by sue")
    day.look("journal")
    desk.press("Save as a file")
    lines = desk.until(lambda: saved_text(day), "the file").splitlines()
    require(lines[0], "time,request,state,outcome,note,number,times sent,body,status,reply as sent", "headings")
    require(len([one for one in lines if "Deposit of 11.11" in one]), 1, "lines of one post")
    require(len([one for one in lines if ",set aside," in one]), 1, "lines of what was set aside")


def close_day(day):
    desk = day.desk
    desk.js("document.getElementById('outcome').replaceChildren()")
    desk.press("Close the day")
    desk.until(lambda: desk.all("dialog button.danger"), "the question")


def day_closed(day):
    """The day is not closed while a drawer is on, nor by Escape; then it is, and the proof agrees."""
    desk = day.desk
    desk.as_user("sue")
    desk.go("c", "Close the day")
    desk.keys(Keys.ENTER)
    has(desk.until(lambda: desk.text(".checks"), "the proof"), "Drawer 12 is still on: user 8", "Agrees: the cash")
    close_day(day)
    desk.until(lambda: desk.js("return document.activeElement.textContent") == "No, go back", "the focus on No")
    day.look("sure")
    desk.keys(Keys.ESCAPE)
    desk.until(lambda: not desk.js("return document.querySelector('dialog')"), "no dialog after Escape")
    require(day.one("SELECT count(*) FROM proofs"), 0, "days closed by Escape")
    close_day(day)
    desk.click("dialog button.danger")
    has(desk.outcome(), "Not done", "A drawer of the branch is still on", "Rule 15")
    desk.as_user("tom")
    desk.go("d", "Drawer on, off")
    has(day.count_cash(day.cash(12)), "The count agrees", "0.00")
    desk.as_user("sue")
    desk.go("c", "Close the day")
    close_day(day)
    desk.click("dialog button.danger")
    told = desk.outcome("Done")
    balance, cash, entries = day.counter.sql("SELECT balance, cash, entries FROM proofs")[0]
    has(told, "Day 1 is closed", amount_of(balance), f"The vault has {amount_of(cash)}", f"{entries} entries")
    has(desk.until_text(".paper", "Proof of branch 1, day 1", "closed by sue"), amount_of(balance))
    has(desk.text(".checks"), "No drawer is on")
    day.look("day-closed")
    desk.press("As the bank wrote it")
    has(desk.until(lambda: desk.text(".paper pre"), "the bank's lines"), "PROOF BRANCH         1 DAY      1")
    close_day(day)
    has(desk.text("dialog"), "Close day 2", "Day 1 of this branch was closed today")
    desk.keys(Keys.ESCAPE)
    desk.go("j", "Journal of the shift")
    desk.until_text("table", "Proof of branch 1, day 1")
    desk.click("#work td a")
    desk.until_text(".paper", "Proof of branch 1, day 1", "closed by sue")
    require(day.one("SELECT count(*) FROM proofs"), 1, "days that are closed")


def night(day):
    """The console has no complaints, and the bank's books hold."""
    require(day.desk.complaints(), [], "the console")
    day.counter.end_bank()
    day.counter.rows()


def long_statement(day):
    """1,500 entries more, by Tom without the page; their last page in few requests, and all of them in pages, on paper, too."""
    desk, counter = day.desk, day.counter
    counter.sessions["tom"] = day.one("SELECT session FROM users WHERE user_no = ?", TOM)
    client, made = counter.client("tom"), 0
    while made < 1500:
        status, _ = client.ask("/do/post", {"account": 201, "branch": 1, "delta": 1 - 2 * (made % 2), "teller": 12})
        require(status in (200, 429), True, f"status {status}")
        made += status == 200
        if status == 429: # the front lets each certificate ask twenty times per second
            time.sleep(0.5)
    desk.as_user("tess")
    desk.go("s", "Statement")
    turns, before = day.one("SELECT turns FROM accounts WHERE account = 201"), day.asked()
    desk.send(which="20", account="201")
    rows = desk.until(lambda: desk.texts("table.statement tbody tr"), "the last 20")
    require((len(rows), rows[-1].split()[0]), (20, str(turns)), "the last 20")
    few = day.asked() - before
    require(few <= 8, True, f"{few} requests for the last 20")
    desk.send(which="Infinity", account="201")
    desk.until(lambda: len(desk.driver.find_elements("css selector", "table.statement tbody tr")) == turns, "all lines")
    if day.pictures:
        desk.paper(day.pictures / "statement.pdf")
    return f"{few} requests for the last 20 of {turns}"
