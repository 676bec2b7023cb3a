"""Nothing that people, the bank or a front wrote becomes markup."""
import contextlib
import json
import re

from checks import require
from desk.tests.cards import command
from desk.tests.day import has
from desk.tests.looks import MARKUP

# What would be carried out, or drawn, if it were taken for markup.
MARKED = ["<img src=x onerror=ran=1>", "<svg/onload=ran=1>", "\"><script>ran=1</script>", "javascript:ran=1", "&lt;b&gt;<b>x</b>", "=1+1"]
# Texts that make markup or code; the page has none of them.
SINKS = re.compile(r"innerHTML|outerHTML|insertAdjacentHTML|document\.write|\beval\b|new Function|setTimeout\('|\.srcdoc|DOMParser")


def sources(day):
    """The page has no code in its markup and no way to make any, asks no other host, and the front sends its content policy."""
    for path, text in day.page.items():
        require(SINKS.findall(text), [], f"sinks in {path}")
        hosts = [it for it in re.findall(r"https?://[^\s'\"]+", text) if it != "http://www.w3.org/2000/svg"]
        require(hosts, [], f"other hosts in {path}")
    index = day.page["index.html"]
    require(re.findall(r"\son\w+=|style=|<style|<script(?! type=\"module\" src=)", index), [], "code in the markup")
    own = re.search(r'Content-Security-Policy" content="([^"]+)"', index)[1]
    front = (day.counter.files.top / "front/nginx.conf").read_text()
    sent = re.search(r'add_header Content-Security-Policy "([^"]+)"', front)[1]
    require(set(own.split("; ")) | {"frame-ancestors 'none'"}, set(sent.split("; ")), "the front's content policy, and the page's")


def markup_of_users(day):
    """What was typed, or stands in an address, stays text."""
    desk = day.desk
    for text in MARKED:
        desk.go("p", "Deposit, withdrawal")
        desk.send(way="in", account=text, amount=text)
        desk.until(lambda: len(desk.faults()) == 2, f"two faults of {text}")
        require(desk.js(MARKUP), [], f"{text} in fields")
    desk.load("#correct?entry=%3Cimg%20src%3Dx%20onerror%3Dran=1%3E&account=%22%3E%3Csvg/onload%3Dran=1%3E&way=%22x&amount=javascript:ran=1")
    require(desk.value("account"), "\"><svg/onload=ran=1>", "as text")
    desk.load("#<img src=x onerror=ran=1>")
    require(desk.js(MARKUP), [], "addresses")


def markup_of_replies(day):
    """Whatever stands where in a reply stays text, too, and no reply of another form is taken for one."""
    desk = day.desk
    marked = json.dumps(MARKED[0]).encode()
    replies = [(409, b'{"name":%b,"rule":99}' % marked), (409, b'{"name":%b,"rule":11}' % marked), (422, b'{"fault":"M6","more":%b}' % marked)]
    for status, text in replies:
        day.relay.before = lambda path, _, reply=(status, "application/json", text): reply if path == "/do/post" else None
        desk.load("#post")
        has(desk.enter(way="in", account="101", amount="1.11"), "Not done")
        require(desk.js(MARKUP), [], str(text))
    screens = [("s", "Statement", {"account": 101}), ("a", "Accounts", {"first": 1}), ("c", "Close the day", {"branch": 1})]
    reports = [b"STATEMENT ACCOUNT       101 FROM         1 LINES     1\n%b\n" % MARKED[0].encode().ljust(75), MARKED[2].encode(), b"x\n"]
    for text in reports:
        day.relay.before = lambda path, _, reply=(200, "text/plain", text): reply if path.startswith("/do/") else None
        for letter, heading, fields in screens:
            desk.go(letter, heading)
            has(desk.enter(**fields), "Not shown", "can't be read")
            require(desk.js(MARKUP), [], f"{text} on {heading}")
    day.relay.calm()
    day.relay.before = lambda path, _: (200, "application/json", b'{"badge":%b}' % marked) if path == "/who" else None
    desk.load()
    require((desk.js(MARKUP), MARKED[0] in desk.text("header")), ([], True), "a badge")
    day.relay.calm()


def markup_of_the_policy(day):
    """Names of users stay text on the screen; the content policy blocks what would make markup all the same. The
    officer is offered no deposits, though a drawer is named and nothing was refused, and the page begins with the
    policy."""
    desk = day.desk
    desk.as_user("olga")
    day.sign_in(branch="1", teller="13")
    require(desk.text("h1"), "Administration: who may do what", "where an officer begins")
    require([day.offers(it) for it in ("Deposit", "Balance", "Administration")], [False, False, True],
            "what an officer is offered")
    command(day, "enrol")
    for number, name in enumerate(["<img src=x onerror=", "<svg/onload=ran=1>", "&lt;b&gt;"], 20):
        has(desk.enter(user=number, name=name), "Done", name)
    desk.press("Show the listing")
    has(desk.until(lambda: desk.text(".paper"), "the listing"), "<svg/onload=ran=1>", "<img src=x onerror=", "&lt;b&gt;", "Authorizations (", "9,999.99")
    day.look("office")
    for code in ("document.body.innerHTML = '<b>x</b>'", "document.body.append(Object.assign(document.createElement('script'), {text: 'ran = 1'}))"):
        with contextlib.suppress(Exception):
            desk.js(code)
    require(desk.js(MARKUP), [], "past the content policy")
