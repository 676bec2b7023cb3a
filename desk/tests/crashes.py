"""The bank, the browser or the line fails in the midst of a post, which is made once all the same: the file is compared row by row."""
import functools
import re
import threading
import time

from branch.tests.branches import COLUMNS
from checks import require
from desk.tests.browser import SECONDS
from desk.tests.counter import Cut
from desk.tests.day import TESS, has


def cut_posts(path, _):
    """A hook of the relay: no post gets through."""
    if path == "/do/post":
        raise Cut


def rows(day, table):
    """A table of the file without moments; of slips those of Tess."""
    columns = COLUMNS[table]
    where = " WHERE user_no = 7" if table == "slips" else ""
    return day.counter.sql(f"SELECT {columns} FROM {table}{where} ORDER BY 1, 2")


def acted_once(day, cents, work):
    """After `work`, which has this deposit of Tess made, the file has one entry, one cash line and one slip more, and no other, and
    nothing waits."""
    day.desk.go("p", "Deposit, withdrawal")
    tables = ("entries", "lines", "slips")
    before = {table: rows(day, table) for table in tables}
    (turns, balance), = day.counter.sql("SELECT turns, balance FROM accounts WHERE account = 101")
    slip = int(re.search(r"no\. (\d+)", work(day))[1])
    day.relay.calm()
    number, line = len(before["entries"]) + 1, len(before["lines"]) + 1
    reply = f'{{"balance":{balance + cents},"branch":1,"entry":{number}}}'
    more = {"entries": (1, number, 101, turns + 1, 11, cents, 1, TESS, 1, 0, 0, balance + cents),
            "lines": (1, line, 11, cents, 1, 1, TESS),
            "slips": (TESS, slip, 1, 101, 11, 1, cents, reply)}
    for table in tables:
        require(rows(day, table), sorted([*before[table], more[table]]), f"rows of {table}")
    day.desk.await_nothing_waiting()


def acts_once(cents):
    """Makes a check of what has this deposit made, and returns what the panel says in the end."""
    return lambda work: functools.wraps(work)(lambda day: acted_once(day, cents, work))


def lingering(day):
    """Holds the replies to posts from now on: what is set once one is made at the bank, and what lets its reply go."""
    made, killed = threading.Event(), threading.Event()

    def linger(path, _):
        if path == "/do/post":
            made.set()
            killed.wait(2 * SECONDS)

    day.relay.after = linger
    return made, killed


@acts_once(1111)
def bank_killed_after_it(day):
    """The bank is killed once it has made a post, whose reply is lost. While it waits no other request is sent."""
    desk = day.desk

    def lose(path, _):
        if path == "/do/post":
            day.relay.calm()
            day.counter.end_bank()
            day.relay.before = cut_posts
            raise Cut

    day.relay.after = lose
    desk.send(way="in", account="101", amount="11.11")
    has(desk.until_text("#waiting", "can't be reached"), "1 request waits", "acts once")
    day.look("waiting")
    require(day.posted(1111), 1, "made before the kill")
    desk.go("t", "Transfer")
    has(desk.enter(source=101, target=102, amount="1.00"), "Not sent", "waits for its reply")
    day.counter.keep()
    day.relay.calm()
    desk.hurry()
    return desk.outcome("Done, once: it was sent", "Deposit of 11.11")


@acts_once(2222)
def bank_killed_before_it(day):
    """The bank is killed before a post reaches it, and the page is loaded anew meanwhile."""
    desk = day.desk
    day.counter.end_bank()
    day.relay.before = cut_posts
    desk.send(way="in", account="101", amount="22.22")
    desk.until_text("#waiting", "can't be reached")
    desk.load("#post")
    desk.until_text("#waiting", "Deposit of 22.22")
    desk.go("j", "Journal of the shift")
    desk.until_text("table", "Deposit of 22.22", "waiting")
    day.counter.keep()
    day.relay.calm()
    desk.hurry()
    return desk.outcome("Done, once: it was sent", "Deposit of 22.22")


@acts_once(2323)
def bank_down_and_held(day):
    """The bank is down for two seconds, and the front holds the request: it is sent once."""
    desk = day.desk
    day.counter.end_bank()
    desk.send(way="in", account="101", amount="23.23")
    desk.until_text("#waiting", "It is being sent")
    time.sleep(1)
    day.counter.keep()
    return desk.outcome("Done\n", "Deposit of 23.23")


@acts_once(3333)
def browser_killed_before_it(day):
    """The browser is killed while a request waits. Nobody else sends it; once Tess is here again it is made once."""
    desk = day.desk
    day.relay.before = cut_posts
    desk.send(way="in", account="101", amount="33.33")
    desk.until(lambda: any(path == "/do/post" and "3333" in body for _, path, body in day.relay.passed), "its first sending")
    desk.kill()
    day.relay.calm()
    desk = day.restart_browser()
    desk.as_user("tom")
    desk.until_text("#waiting", "A request of tess waits on this machine")
    time.sleep(0.6)
    require(day.posted(3333), 0, "made for nobody")
    desk.as_user("tess")
    return desk.outcome("Done, once: it was sent", "Deposit of 33.33")


@acts_once(3434)
def browser_killed_after_it(day):
    """A post is made, and the browser is killed before the reply comes."""
    desk = day.desk
    made, killed = lingering(day)
    desk.send(way="in", account="101", amount="34.34")
    require(made.wait(SECONDS), True, "made at the bank")
    desk.kill()
    killed.set()
    day.relay.calm()
    require(day.posted(3434), 1, "made before the kill")
    desk = day.restart_browser()
    desk.as_user("tess")
    return desk.outcome("Done, once: it was sent 2 times", "Deposit of 34.34")


@acts_once(4444)
def replies_of_others(day):
    """What a front says of its own decides nothing: the request waits, and is made once."""
    desk = day.desk
    strange = iter([(404, "text/html", b"<h1>x</h1>"), (403, "text/html", b"no"), (200, "text/html", b"hello"),
                    (200, "application/json", b"{}"), (503, "application/json", b'{"fault":"F3"}'), (429, "application/json", b"{}")])
    day.relay.after = lambda path, _: next(strange, None) if path == "/do/post" else None
    desk.send(way="in", account="101", amount="44.44")
    desk.until_text("#waiting", "1 request waits")
    return desk.outcome("Done, once: it was sent 7 times", seconds=45 + SECONDS) # the page waits 45 seconds in all between these
