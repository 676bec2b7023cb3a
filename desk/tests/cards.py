"""Sessions, cards and windows, and who may do what."""
from selenium.webdriver.common.keys import Keys

from checks import require
from desk.tests.crashes import acts_once, cut_posts
from desk.tests.day import TESS, has


@acts_once(5555)
def session_elsewhere(day):
    """A session is opened elsewhere: the request waits until Tess signs in again, whatever is loaded anew, and is made once."""
    desk = day.desk
    require(day.counter.ask("tess", "/session", "")[0], 200, "a session elsewhere")
    desk.send(way="in", account="101", amount="55.55")
    desk.outcome("Not through yet", "doesn't know you in this session", "Rule 1")
    desk.load("#post")
    desk.until_text("#waiting", "Sign in again, and it is sent again")
    desk.press("Sign in again")
    return desk.outcome("Done", "Deposit of 55.55")


def second_window(day):
    """A second window waits until the first is closed."""
    desk = day.desk
    first = desk.driver.current_window_handle
    desk.driver.switch_to.new_window("tab")
    desk.driver.get(desk.url)
    desk.outcome("Open elsewhere")
    second = desk.driver.current_window_handle
    desk.driver.switch_to.window(first)
    desk.driver.close()
    desk.driver.switch_to.window(second)
    desk.until(lambda: desk.all("#work h1"), "the second window goes on")
    desk.size(1280, 800)


def last_slip(day):
    """After the last slip of a session the page opens another."""
    desk = day.desk
    session = day.one("SELECT session FROM users WHERE user_no = 7")
    code = "return import('/js/store.js').then(s => s.openStore()).then(s => s.setFact('tess session', {number: arguments[0], used: 998}))"
    desk.js(code.replace("arguments[0]", str(session)))
    desk.load("#post")
    desk.send(way="in", account="101", amount="1.01")
    desk.outcome("Done", f"no. {session}999")
    desk.send(way="in", account="101", amount="1.02")
    desk.outcome("Done", f"no. {session + 1}001")
    require(day.one("SELECT session FROM users WHERE user_no = 7"), session + 1, "session")


def other_card(day):
    """Tom's card is in, and the page is still Tess's: the front refuses it, and it is made by Tess, once. The focus stays."""
    desk = day.desk
    day.relay.card = "tom"
    desk.send(way="in", account="101", amount="77.77")
    before = desk.until_text("#waiting", "Somebody else's card is in")
    desk.js("document.querySelector('#waiting button').focus()")
    desk.until(lambda: desk.text("#waiting") != before, "another try")
    require(desk.js("return document.activeElement.textContent"), "Send now", "what has the focus")
    day.relay.card = "tess"
    desk.hurry()
    desk.outcome("Done", "Deposit of 77.77")
    require(day.counter.sql("SELECT user_no, count(*) FROM entries WHERE delta = 7777"), [(TESS, 1)], "made by")


def set_aside(day):
    """A request that waits is set aside by a supervisor alone, with a reason, which the journal keeps; it is never sent again."""
    desk = day.desk
    day.relay.before = cut_posts
    desk.send(way="in", account="101", amount="88.88")
    desk.until_text("#waiting", "can't be reached")
    for badge, answer in (("cora", "You have no session"), ("tom", "You have no authorization")):
        desk.as_user(badge)
        desk.until_text("#waiting", "A request of tess")
        desk.press("Set aside")
        desk.outcome(answer)
        require(desk.all("dialog"), [], f"a question to {badge}")
    desk.as_user("sue")
    desk.press("Set aside")
    desk.until(lambda: desk.all("dialog"), "the question")
    day.look("set-aside")
    desk.press("Set aside", "dialog button")
    desk.fault("Write why")
    desk.await_focus("reason")
    desk.keys("Paid by hand <b>today</b>", Keys.ENTER)
    desk.outcome("Set aside", "Deposit of 88.88")
    desk.await_nothing_waiting()
    day.relay.calm()
    desk.as_user("tess", "#journal")
    line = desk.until(lambda: [one for one in desk.texts("tbody tr") if "88.88" in one], "its line in the journal")[0]
    has(line, "set aside", "by sue: Paid by hand <b>today</b>")
    require(day.posted(8888), 0, "made")
    desk.go("p", "Deposit, withdrawal")
    has(desk.enter(way="in", account="101", amount="0.88"), "Done")


def command(day, name):
    day.desk.steady(lambda: day.desk.choose(day.desk.driver.find_element("id", "command"), name))


def office(day):
    """Commands: one whose reply is lost is not sent again by itself; a set, and a triple with its moments."""
    desk = day.desk
    command(day, "suspend")
    has(desk.enter(user=20), "Done", "Suspend a user")
    command(day, "restore")
    day.relay.after = lambda path, _: (502, "text/html", b"") if path.startswith("/policy/") else None
    before = day.asked()
    has(desk.enter(user=20), "No reply", "It may be done or not", "look at the listing")
    require(day.asked() - before, 1, "sendings of a command")
    day.relay.calm()
    has(desk.enter(user=20), "If it was sent before without a reply, it is done", "Rule 21")
    desk.as_user("carl")
    day.sign_in(branch="1")
    desk.go("o", "Administration: who may do what")
    command(day, "define-set")
    has(desk.enter(set=6, members="account 101-150, drawer 11"), "Done")
    require(day.counter.sql("SELECT kind, low, high FROM members WHERE set_no = 6"), [(1, 101, 150), (5, 11, 11)], "the set")
    command(day, "grant")
    has(desk.enter(user=9, procedure="balance", set=2, limit="0.00", first="2026-11-28", last="2027-01-31 17:30"), "Done", "Grant an authorization")
    found = day.counter.sql("SELECT last_at > first_at FROM grants WHERE user_no = 9 AND procedure = 9 AND first_at > 1700000000")
    require(found, [(1,)], "the triple")
