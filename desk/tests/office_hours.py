"""What the page says above all screens, and to whom it shows which: certificates, clocks, rest, places, paper."""
from datetime import datetime, timedelta, timezone

from selenium.webdriver.common.keys import Keys

from checks import require
from desk.tests.day import amount_of, has
from desk.tests.work import printed_receipt

IN_VIEW = """
const {top, bottom} = document.querySelector('#work form button[type=submit]').getBoundingClientRect();
return [top >= 0, bottom <= innerHeight];
"""
# Labels of a drawing that begin left of it.
CUT_LABELS = "return [...document.querySelectorAll('.chart text')].filter(e => e.getBBox().x < 0).map(e => e.textContent)"


def certificate_that_ends(day):
    """From thirty days on before a certificate ends the page says so, and from seven days on more plainly."""
    desk = day.desk
    desk.as_user("tess")
    require(desk.text("#notices"), "", "a certificate that lasts")
    for days, kind, text in ((29, "notice", "Ask for another."), (6, "notice urgent", "After that you can't work")):
        last = datetime.now(timezone.utc) + timedelta(days=days, hours=1)
        reply = f'{{"badge":"tess","ends":"{last:%b %d %H:%M:%S %Y} GMT"}}'.encode()
        day.relay.before = lambda path, _, found=reply: (200, "application/json", found) if path == "/who" else None
        desk.load()
        has(desk.until(lambda: desk.text("#notices"), "a notice"), f"in {days} days", text)
        require(desk.js("return document.querySelector('#notices p').className"), kind, "how plainly")
        day.look(f"certificate-{days}")
    day.relay.calm()


def clock_that_is_wrong(day):
    """A machine's clock that differs from the front's is said, and a receipt bears the front's time."""
    desk = day.desk
    day.relay.seconds_ahead = 3 * 86400
    desk.as_user("tess", "#post")
    has(desk.until(lambda: desk.text("#notices"), "a notice"), "clock is slow")
    desk.enter(way="in", account=101, amount="0.03")
    there = datetime.now() + timedelta(days=3)
    text = printed_receipt(day, lambda: desk.keys_after_escape("k"))
    has(text, f"{there:%b} {there.day}, {there.year}")
    day.relay.calm()
    desk.load("#post")
    desk.until(lambda: not desk.text("#notices"), "no notice")


def kept_meanwhile(day):
    """A balance in the midst of a deposit: what was typed is there again, and the last receipt can be printed all the while."""
    desk = day.desk
    desk.load("#post")
    desk.enter(way="in", account=101, amount="0.04")
    desk.fill(way="out", account="102", amount="3.00")
    desk.go("b", "Balance")
    has(desk.enter(account=101), amount_of(day.balance(101)))
    text = printed_receipt(day, lambda: desk.keys_after_escape("k"))
    has(text, "Deposit", "Amount0.04", "Receipt no.", "Signature", "EUR")
    desk.go("p", "Deposit, withdrawal")
    found = [desk.value("account"), desk.value("amount"), desk.text("#work button[type=submit]")]
    require(found, ["102", "3.00", "Pay out 3.00"], "what was typed")
    desk.enter(account=102, amount="3.00")
    desk.go("b", "Balance")
    desk.go("p", "Deposit, withdrawal")
    found = [desk.value("account"), desk.text("#work button[type=submit]")]
    require(found, ["", "Choose deposit or withdrawal"], "after it was sent")


def first_sign_in(day):
    """Tess, who is shown no proof, types a branch that nobody is shown, then a drawer that is not there: each is said
    beside its field, that of the drawer once she puts it on. What she is refused there stays in the menu, and says that
    the place may be wrong."""
    desk = day.desk
    desk.as_user("tess")
    desk.send(branch="9", teller="99")
    desk.fault("shows you nothing of branch 9")
    desk.await_focus("branch")
    has(desk.text("header").replace("\n", " "), "Branch none", "Drawer none")
    desk.send(branch="1", teller="99")
    desk.until_text("h1", "Drawer on, off")
    day.type_count(0)
    desk.fault("Branch 1 has no drawer 99, or you have no authorization for it")
    desk.await_focus("teller")
    day.look("drawer-that-is-not-there")
    desk.go("p", "Deposit, withdrawal")
    has(desk.enter(way="in", account=101, amount="5.00"), "Not done", "Rule 3",
        "You have done nothing at branch 1, drawer 99")
    require(day.offers("Deposit"), True, "deposits after a refusal that another number mends")
    desk.click("#outcome [data-name=place] a")
    desk.until_text("h1", "Sign in and out")
    desk.press("Sign out")
    desk.outcome("Signed out")


def place_that_is_not_there(day):
    """Who may see the proof of a branch finds out at once that a drawer is not there, or that a branch is not shown to
    them. Whom it is not shown is asked about a place that is another than before. Without a drawer no deposits are
    offered, and balances come first."""
    desk = day.desk
    desk.as_user("sue", "#session")
    desk.send(branch="1", teller="99")
    desk.fault("Branch 1 has no drawer 99")
    desk.send(branch="9", teller="")
    desk.fault("shows you nothing of branch 9")
    desk.send(branch="1", teller="")
    desk.until_text("h1", "Balance")
    require([day.offers("Deposit"), day.offers("Close the day")], [False, True], "what Sue is offered without a drawer")
    desk.as_user("tess", "#session")
    desk.send(branch="9", teller="11")
    desk.fault("shows you nothing of branch 9")
    desk.send(branch="1", teller="12")
    has(desk.until(lambda: desk.text("dialog"), "a question"), "branch 1, drawer 12", "branch 1, drawer 11")
    desk.keys(Keys.ESCAPE)
    desk.fault("Nothing was changed")
    has(desk.text("header").replace("\n", " "), "Branch 1", "Drawer 11")


def screens_step_back(day):
    """A screen whose requests the bank refuses this user, whatever is named, steps back, and one that another number
    could mend does not; its letter still leads there."""
    desk = day.desk
    desk.as_user("tess")
    require([day.offers(it) for it in ("Deposit", "Transfer", "Close the day")], [True] * 3,
            "what another number could mend")
    desk.as_user("sue")
    require(day.offers("Accounts"), True, "accounts before Sue is refused them")
    desk.go("a", "Accounts")
    has(desk.enter(first="1"), "Rule 3")
    desk.until(lambda: not day.offers("Accounts"), "a menu without accounts")
    desk.go("s", "Statement")
    desk.send(which="20", account="101")
    desk.outcome("Rule 3")
    require(day.offers("Statement"), True, "statements after a refusal that another number could mend")
    desk.go("a", "Accounts")
    seen = [it.text for it in desk.all("#menu details a")]
    require(any("Accounts" in it for it in seen), True, "the screen, stepped back, is seen while it is shown")


def rest(day):
    """After minutes of rest, here of seconds, the page is covered until Enter is pressed with the same card in."""
    desk = day.desk
    day.relay.swaps = {"/js/settings.js": (b"LOCK_MINUTES = 10;", b"LOCK_MINUTES = 0.02;")}
    desk.as_user("tess", "#post")
    desk.fill(account="101")
    desk.until_text("dialog.cover", "Locked")
    visibility = desk.js("return getComputedStyle(document.getElementById('work')).visibility")
    require(visibility, "hidden", "the work while it is locked")
    desk.keys(Keys.ESCAPE)
    desk.until_text("dialog.cover", "Locked")
    day.relay.before = lambda path, _: (502, "text/html", b"") if path == "/who" else None
    desk.keys(Keys.ENTER)
    desk.until_text("dialog.cover", "Nothing answers")
    day.relay.calm()
    desk.keys(Keys.ENTER)
    desk.until(lambda: not desk.js("return document.querySelector('.cover')"), "the work again")
    require(desk.value("account"), "101", "what was typed before")
    desk.until_text("dialog.cover", "Locked")
    day.relay.card = "tom"
    desk.keys(Keys.ENTER)
    desk.until(lambda: "tom" in desk.text("header"), "Tom's page, and not Tess's")
    day.relay.swaps = {}
    desk.as_user("tess")


def screen_of_a_laptop(day):
    """At 1366x768 the button of a count is seen, by keys it is sent from any field, and labels of the drawing are whole."""
    desk = day.desk
    desk.size(1366, 768)
    desk.as_user("tess", "#drawer")
    desk.until(lambda: desk.all("#cash-typed"), "the count")
    require(desk.js(IN_VIEW), [True, True], "the button is seen")
    day.look("drawer-1366")
    desk.size(1280, 800)
    before = day.asked()
    desk.keys(Keys.NUMPAD1, Keys.ENTER) # one note of the largest, and on
    require(desk.js("return document.activeElement.ariaLabel"), "How many of 200.00", "the next after Enter")
    desk.js("document.activeElement.value = 'x'")
    desk.keys(Keys.CONTROL + Keys.ENTER)
    desk.fault("200.00: Only digits")
    require(day.asked(), before, "requests of a wrong count")
    desk.load("#journal")
    desk.until(lambda: desk.all("#work h1"), "the journal")
    require(desk.js(CUT_LABELS), [], "labels that are cut")
