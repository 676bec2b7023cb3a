"""A program in the office's place does nothing by the card of who looks, at the bank or with runs, by either name."""
import contextlib
import http.server
import socketserver
import threading
from collections.abc import Iterator
from pathlib import Path

from branch.tests.branches import PATIENCE
from branch.tests.commands import run
from checks import require, wait_until
from office.tests.at_work.day import Day
from tespiorvu.office.runs_file import opened_runs

# The fields by which a reply has a browser do something beside its page; and what forbids that a page acts by a script.
ORDERS = ("Access-Control-Allow-Origin", "Alt-Svc", "Clear-Site-Data", "Link", "Refresh", "Service-Worker-Allowed",
          "Set-Cookie", "Speculation-Rules", "WWW-Authenticate")  # fmt: skip
NO_SCRIPT = ("script-src 'none'", "connect-src 'none'", "form-action https://")
ACTIONS = ("/session", "/office/runs/1/approve")
SCRIPT = "fetch('{bank}/session', {{method: 'POST', mode: 'no-cors', credentials: 'include'}})"
FORM = '<form method="post" action="{action}"><button>{action}</button></form>'
PAGE = ('<!doctype html><title>Office</title><h1>Office</h1><script src="/office/static/x.js"></script>{forms}'
        '<img src="/office/static/last.png" alt="">')  # fmt: skip
# How the teller's page asks the office, and what comes back.
ASK = """const [done] = arguments, headers = {'Desk-Badge': 'sue', 'Content-Type': 'application/json'};
fetch('/office/api/search', {method: 'POST', headers, body: '{}'})
  .then(it => done([it.status, it.redirected, it.headers.get('Content-Type')]), error => done(String(error)))"""


class Impostor(socketserver.ThreadingMixIn, socketserver.UnixStreamServer):
    """Listens in the office's place. A POST is answered by a way to the bank's session, and all else by a page or a
    script that ask the bank, by the name by which the browser knows it."""

    daemon_threads = True

    def __init__(self, place: Path, bank: str) -> None:
        place.unlink(missing_ok=True)
        super().__init__(str(place), Answer)
        self.bank, self.asked = bank, list[str]()


class Answer(http.server.BaseHTTPRequestHandler):
    """One answer of it."""

    def do_GET(self) -> None:
        server = self.server
        assert isinstance(server, Impostor)
        server.asked.append(self.path)
        forms = "".join(FORM.format(action=f"{server.bank}{it}") for it in ACTIONS)
        is_script = self.path.endswith(".js")
        text = SCRIPT.format(bank=server.bank) if is_script else PAGE.format(forms=forms)
        self.send_response(307 if self.command == "POST" else 200)
        kind = "text/javascript" if is_script else "text/html"
        for name, value in {"Content-Type": kind, "Location": "/session", **dict.fromkeys(ORDERS, "/")}.items():
            self.send_header(name, value)
        self.end_headers()
        self.wfile.write(text.encode())

    do_POST = do_GET

    def address_string(self) -> str:
        return "the front"

    def log_message(self, *_: object) -> None:
        pass


@contextlib.contextmanager
def impostor(day: Day, bank: str) -> Iterator[Impostor]:
    """Has another program answer in the office's place, and the office again afterwards."""
    day.services.pop("bank-office").kill()
    with Impostor(day.sockets["bank-office"], bank) as server:
        threading.Thread(target=server.serve_forever, daemon=True).start()
        wait_until(lambda: day.branch.ask("amy", "/office/users")[0] == 200, PATIENCE, "it answers")
        yield server
        server.shutdown()
    day.start("bank-office")


def acts(day: Day) -> tuple[object, ...]:
    """What acts by somebody's card would change: sessions, releases, the policy, entries, approvals."""
    with opened_runs(day.settings) as found:
        approvals = found.execute("SELECT count(*) FROM approvals").fetchone()[0]
    queries = ("sum(session) FROM users", "count(*) FROM releases", "policy FROM bank", "count(*) FROM entries")
    return approvals, *(day.branch.one(f"SELECT {it}") for it in queries)


def taken_over(day: Day) -> None:
    """Pages, scripts, ways elsewhere and wrong types of a program in the office's place do nothing by the card of a
    supervisor who approves runs, and order nothing of their browser."""
    relay, sue = day.relays[3], day.browsers[3]
    relay.card, before = "sue", acts(day)
    with impostor(day, relay.url) as server:
        for action in ACTIONS:
            sue.driver.get(f"{relay.office_url}/office/")
            sue.until(lambda: "/office/static/last.png" in server.asked, "the page, and what stands last in it")
            sue.js(f"document.querySelector('form[action$=\"{action}\"] button').click()")
            sue.until(lambda: sue.text("h1") == "Office", "the same page")
        require("/office/static/x.js" in server.asked, False, "a script of it is asked for")
        sue.driver.get(f"{relay.url}/office/api/names")
        require(sue.js("return document.contentType"), "application/json", "a page in place of an answer")
        sue.load()
        require(sue.driver.execute_async_script(ASK), [307, False, "application/json"], "a way elsewhere")
        for path in ("/office/users", "/office/api/names"):
            got = run(*day.branch.curl("sue", "-i", f"{day.branch.url_of(path)}{path}")).partition("\n\n")[0]
            require([it for it in ORDERS if f"\n{it}:" in got], [], f"orders to a browser at {path}")
            require([it for it in NO_SCRIPT if it not in got], [], f"what is forbidden at {path}")
    for fields in ((f"Origin: {day.branch.office_url}", "Sec-Fetch-Site: same-site"), ("Origin: null",), ()):
        for path in ("/office/runs/1/approve", "/office/api/search"):
            found = day.branch.ask("sue", path, "", fields=(*fields, "Desk-Badge: sue"))
            require(found, (403, '{"front":"other site"}'), f"{path} with {fields}")
    require(acts(day), before, "what was done by her card")
