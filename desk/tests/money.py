"""What keeps money from going wrong at a counter that is right: ways, corrections, counts, and the same request twice."""
from selenium.webdriver.common.keys import Keys

from checks import require
from desk.tests.day import TESS, TOM, amount_of, has

IS_CHOSEN = "return document.querySelector(\"[data-name='way'] input:checked\")?.value ?? ''"


def ways(day):
    """After a withdrawal no way is chosen. A deposit and a withdrawal take the same keys, and one more than the form's own: their
    letter; without it nothing is sent, and the button says what it would do."""
    desk, before = day.desk, day.entries()
    desk.load("#post")
    desk.await_focus("account")
    button = "#work button[type=submit]"
    desk.keys(*"w101", Keys.TAB, *"5.00")
    require(desk.text(button), "Pay out 5.00", "the button of a withdrawal")
    desk.keys(Keys.ENTER)
    has(desk.outcome("Done"), "Withdrawal of 5.00")
    desk.await_form()
    desk.await_focus("account")
    require((desk.js(IS_CHOSEN), desk.text(button)), ("", "Choose deposit or withdrawal"), "chosen after a withdrawal")
    desk.keys(*"102", Keys.TAB, *"7.00", Keys.ENTER)
    desk.fault("D for a deposit, W for a withdrawal")
    require(day.entries(), before + 1, "entries without a way")
    desk.keys("d")
    desk.until(lambda: desk.text(button) == "Pay in 7.00", "the button of a deposit")
    day.look("way")
    desk.keys(Keys.ENTER)
    has(desk.outcome("Done"), "Deposit of 7.00, account 102")
    desk.await_form()
    desk.await_focus("account")
    desk.keys(*"d101", Keys.TAB, *"5.00", Keys.ENTER)
    desk.outcome("Done", "Deposit of 5.00, account 101")
    require(day.counter.sql("SELECT delta FROM entries ORDER BY number DESC LIMIT 3"), [(500,), (700,), (-500,)], "by keys alone")
    desk.await_form()


def twice(day):
    """The same request once more is asked about; what is not meant is not sent."""
    desk, before = day.desk, day.entries()
    desk.enter(way="in", account=101, amount="42.00")
    desk.send(way="in", account=101, amount="42.00")
    has(desk.until(lambda: desk.text("dialog"), "a question"), "the same", "Deposit of 42.00")
    require(desk.js("return document.activeElement.textContent"), "No, go back", "what has the focus")
    desk.keys(Keys.ESCAPE)
    desk.await_form()
    require((day.entries(), desk.value("amount")), (before + 1, "42.00"), "entries, and what is typed")
    desk.type("amount", Keys.ENTER)
    desk.press("Yes, once more")
    desk.outcome("Done")
    require(day.entries(), before + 2, "entries once it was meant")
    desk.await_form()


def cash_of_a_correction(day):
    """Tom's correction of Tess's deposit moved his drawer's cash. Tess is offered the move between both, and each holds its own
    again."""
    desk, before = day.desk, [day.cash(11), day.cash(12)]
    has(desk.text("#work .lead"), "colleague")
    desk.as_user("tess", "#cash")
    has(desk.until(lambda: desk.text("ul.due"), "what is due"), "25.00 from drawer 11 to drawer 12")
    desk.click("ul.due a")
    desk.until(lambda: desk.value("amount") == "25.00", "the move, filled in")
    day.look("due")
    desk.type("amount", Keys.ENTER)
    has(desk.outcome("Done"), "Cash of 25.00 from drawer 11 to drawer 12")
    desk.until(lambda: not desk.all("ul.due"), "nothing more that is due")
    require([day.cash(11), day.cash(12)], [before[0] - 2500, before[1] + 2500], "cash of both drawers")


def kept_without_a_drawer(day):
    """Sue has no drawer: what she typed of a correction is there again after the screen that has to come first."""
    desk = day.desk
    desk.as_user("sue")
    day.sign_in(branch="1")
    desk.go("e", "Correct an entry")
    desk.send(entry=3, account=101, kind="out", amount="100.00", drawer=11)
    desk.until_text("h1", "Sign in and out")
    desk.until_text("#work", "Nothing was sent")
    desk.go("e", "Correct an entry")
    require([desk.value(it) for it in ("entry", "amount", "drawer")], ["3", "100.00", "11"], "what was typed")
    has(desk.text("[data-name=reads]"), "100.00 more")


def count_that_differs(day):
    """A count of 2,468.68 too much is asked about, with the difference; it takes a reason and a colleague's number."""
    desk = day.desk
    desk.go("d", "Drawer on, off")
    cash, before = day.cash(11), day.asked()
    day.type_count(cash + 246868)
    text = desk.until(lambda: desk.text("dialog"), "the question")
    has(text, "Send this count?", f"should hold {amount_of(cash)}", "2,468.68 too much", "doesn't check")
    day.look("count-differs")
    desk.press("Send the count", "dialog button")
    desk.fault("Write why")
    desk.keys("counted twice", Keys.ENTER)
    desk.fault("Type a number")
    desk.await_focus("colleague")
    desk.keys(Keys.ESCAPE)
    desk.await_form()
    require((day.asked(), day.cash(11)), (before, cash), "requests, and cash")


def count_with_a_witness(day):
    """A large difference is sent with a reason and a colleague, which stand in the journal; a count of a drawer that was put on
    elsewhere is asked about, too."""
    desk = day.desk
    desk.go("d", "Drawer on, off")
    desk.fill(way="on", teller="11")
    has(day.count_cash(10000), "100.00")
    day.type_count(12000)
    desk.until_text("dialog", "20.00 too much")
    desk.await_focus("reason")
    desk.keys("a note <b>below</b> the till", Keys.TAB, str(TOM), Keys.ENTER)
    has(desk.outcome("Cash is over"), "20.00", "a note <b>below</b> the till", f"user {TOM}")
    require(day.counter.sql("SELECT cash, holder FROM tellers WHERE teller = 11"), [(0, 0)], "drawer 11 is off")
    desk.go("j", "Journal of the shift")
    desk.until_text("table", "a note <b>below</b> the till")
    require(day.one("SELECT user_no FROM lines ORDER BY number DESC LIMIT 1"), TESS, "who counted")
