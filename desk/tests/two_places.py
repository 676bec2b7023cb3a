"""Cash that is moved at another machine: what the page says a drawer should hold is the bank's own figure, where the bank shows it."""
from checks import require
from desk.tests.browser import Browser
from desk.tests.day import amount_of, has

MOVED = 5000
PROOF = {"user": 8, "procedure": "proof", "set": 2}


def command(day, name, body):
    """Carl has a command of the policy done, in a session of his own."""
    status, text = day.counter.ask("carl", "/session", "")
    require(status, 200, f"a session: {text}")
    fields = (f"Bank-Session: {day.one('SELECT session FROM users WHERE user_no = 2')}",)
    require(day.counter.ask("carl", f"/policy/{name}", body, fields)[0], 200, name)


def move_to_tom(day, cents):
    """Tess moves cash from her drawer to Tom's, at her own place."""
    desk = day.desk
    desk.as_user("tess", "#cash")
    desk.fill(**{"from": "11", "to": "other", "other": "12", "amount": amount_of(cents)})
    desk.enter(amount=amount_of(cents))
    desk.outcome("Done", f"Cash of {amount_of(cents)} from drawer 11 to drawer 12")


def expected(tom):
    """What the page says that the drawer should hold, which is closed at first."""
    tom.go("d", "Drawer on, off")
    require(tom.all("[data-name=expected]"), [], "the expected cash is not shown at once")
    tom.click("#work summary")
    return tom.until(lambda: tom.text("[data-name=expected]"), "what the drawer should hold")


def cash_from_elsewhere(day):
    """Tom at a second browser: without the bank's figure the page says that a colleague may have moved cash to it. Once the bank shows
    its own, what Tess moved is said above all screens, expected at the count, and asks nothing. Of a proof Tom sees drawer 12 alone."""
    relay = day.counter.other
    relay.card = "tom"
    tom = Browser(relay, day.folder.with_name("other-browser"))
    try:
        tom.load("#session")
        tom.fill(branch="1", teller="12")
        tom.keys("\ue007")
        tom.until_text("h1", "Drawer on, off")
        has(without_figure(day, tom), "120.00 too much", "A colleague elsewhere may have moved cash")
        tom.keys("\ue00c")
        command(day, "grant", {**PROOF, "limit": 0})
        tom.load("#session")
        with_figure(day, tom)
        command(day, "revoke", PROOF)
    finally:
        tom.close()


def without_figure(day, tom):
    """Tom puts his drawer on, and Tess moves 120.00 to it; what is asked before his count is sent."""
    day.type_count(20000, tom)
    tom.outcome("Done", "Cash in drawer 12")
    move_to_tom(day, 12000)
    has(expected(tom), "200.00, by what was done here", "a colleague elsewhere may have moved cash")
    day.type_count(32000, tom)
    return tom.until(lambda: tom.text("dialog"), "a question")


def with_figure(day, tom):
    """Tess moves 50.00 more, and the bank shows its figure."""
    tom.await_form()
    tom.send(branch="1", teller="12")
    tom.until_text("h1", "Deposit, withdrawal")
    has(expected(tom), "320.00, by the bank")
    move_to_tom(day, MOVED)
    tom.until_text("#moved", "170.00 came to drawer 12 from elsewhere", "holds 370.00")
    tom.press("Seen", "#moved button")
    tom.go("c", "Close the day")
    tom.keys("\ue007")
    table = tom.until_text("#work table", "12", "370.00")
    require(["11" in table, "Balance" in table, len(tom.all("#work table"))], [False, False, 1], f"what a teller sees of a proof: {table}")
    has(expected(tom), "370.00, by the bank")
    day.type_count(37000, tom)
    has(tom.outcome("Drawer 12 is empty and free"), "The count agrees", "0.00")
    require(tom.all("dialog"), [], "a question of what agrees")
    require(day.counter.sql("SELECT cash, holder FROM tellers WHERE teller = 12"), [(0, 0)], "drawer 12")
