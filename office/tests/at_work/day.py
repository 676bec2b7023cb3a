"""An office beside a bank that is served: two years of one bank, its front, its copies as the night makes them, and the service."""
import json
import os
import re
import signal
import socket
import subprocess
import time
from collections.abc import Callable
from pathlib import Path
from typing import Any

from branch.tests import branches
from office.tests.at_work import lists
from branch.tests.branches import PATIENCE
from branch.tests.commands import ran, run
from checks import require
from desk.tests.counter import Served

from tespiorvu.office.settings import Settings, read_settings

# The services that listen, each with a badge and a page by which it is seen that it answers.
SERVICES = {"bank-office": ("amy", "/office/users"), "bank-office-approvals": ("sue", "/office/runs")}
# How many browsers there are at once.
BROWSERS = 4
# The page lets an office alone for half a minute that gave no reply within four seconds, as one of a busy machine may: here it has more.
PATIENT = {"/js/office.js": (b"const SECONDS = 4;", b"const SECONDS = %d;" % PATIENCE)}
# Noon of a day of the first year, by whose moments its requests are carried out.
EARLIER = int(time.mktime((2025, 6, 2, 12, 0, 0, 0, 0, -1)))
# What is asked of it then.
LIVED: list[tuple[str, str, dict[str, int]]] = [
    ("amy", "/session", {}), ("amy", "/do/drawer-on", {"branch": 1, "cash": 1_000, "teller": 11}),
    ("amy", "/do/post", {"account": 101, "branch": 1, "delta": 2_500, "teller": 11}),
    ("amy", "/do/post", {"account": 102, "branch": 1, "delta": -700, "teller": 11}),
    ("amy", "/do/transfer", {"amount": 300, "branch": 1, "source": 101, "target": 102, "teller": 11}),
    ("amy", "/do/drawer-off", {"branch": 1, "counted": 2_800, "teller": 11}), ("sue", "/session", {}),
    ("sue", "/do/close-day", {"branch": 1}), ("sue", "/do/close-day", {"branch": 2})]  # fmt: skip
SETTINGS = """
file = "{top}/office"
runs = "{top}/runs-of-their-own/runs"
copies = "{root}/var/lib/bank-office-copies"
trail = "{root}/var/lib/bank-office-trail"
reasons = "{root}/var/lib/bank-office-reasons/reasons"
keepers = ["kim"]
approvers = ["sue", "sam"]
# Tellers of this bank open accounts, too, whose new customers a second person accepts: so new-account and transfer may meet.
apart = [["post", "release"], ["transfer", "release"], ["correct", "release"], ["drawer-on", "close-day"], ["approver", "certifier"]]
front = "{url}"
authority = "{ca}/front/authority.pem"
certificate = "{ca}/tellers/office.pem"
key = "{ca}/tellers/office.key"

[[interest]]
branch = 1
low = 101
high = 149
rate = "1.25"
account = 900
teller = 90

[[fee]]
branch = 1
low = 150
high = 150
amount = "25000.00"
account = 900
teller = 90
"""


class Day:
    """The branch with its office. The first year is lived before the branch is served."""

    def __init__(self, files: Any, has_browsers: bool) -> None:
        self.files = files
        self.browsers: list[Any] = []
        self.sockets = {it: files.top / f"{it}.socket" for it in SERVICES}
        (files.top / "runs-of-their-own").mkdir()
        sockets = ((f"unix:/run/{name}.socket", f"unix:{path}") for name, path in self.sockets.items())
        self.branch = Served(files, "branch", BROWSERS if has_browsers else 0, [*branches.NO_RATE, *sockets])
        self.relays = self.branch.relays
        for path, (old, _) in PATIENT.items():
            require((self.branch.folder / f"page{path}").read_bytes().count(old), 1, f"{old!r} in {path}")
        for relay in self.relays:
            relay.swaps = PATIENT
        self.machine = self.branch.machine
        text = SETTINGS.format(top=files.top, root=self.machine.folder, url=self.branch.url, ca=files.top / "ca")
        self.settings_file = self.machine.put("etc/bank-office/settings.toml", text)
        self.settings: Settings = read_settings(self.settings_file)
        self.copies = self.settings.copies
        for it in (self.copies, self.settings.trail, self.settings.reasons.parent):
            it.mkdir()
        self.environment = {**os.environ, **self.machine.environment(PYTHONPATH=str(files.share))}
        self.services: dict[str, subprocess.Popen[bytes]] = {}

    # ---- the bank

    def live_first_year(self) -> None:
        """A year of the bank by `run`, in sessions of number 1, closed, and carried forward by bank-forward."""
        self.branch.run_bank("init", self.branch.file, self.branch.folder / "lists", "--sums", says="made\n")
        given = ""
        for who, path, body in LIVED:
            text = json.dumps(body)
            fields = f"Host: bank\r\nBank-Badge: {who}\r\nBank-Session: 1\r\nContent-Length: {len(text)}"
            given += f"POST {path} HTTP/1.1\r\n{fields}\r\n\r\n{text}"
        words = "run", self.branch.file, "--badges", self.machine.badges, "--moment", EARLIER
        got = run(self.files.top / "bank_cli", *words, input=given)
        require(re.findall(r"HTTP/1\.1 (\d{3}) ", got), ["200"] * len(LIVED), "statuses of the first year")
        require(self.machine.status("forward", "2025"), (0, "carried forward\n"), "bank-forward")

    def begin(self) -> None:
        """Serves the bank, and has all tellers begin."""
        self.branch.keep()
        for badge in ("amy", "ben", "cai", "sue", "sam"):
            self.branch.begin(badge, drawer=badge in lists.TELLERS)
        self.do("cai", "drawer-on", branch=2, cash=1_000, teller=21)

    def do(self, who: str, name: str, fields: tuple[str, ...] = (), **body: Any) -> Any:
        """An operation that has to be carried out."""
        return json.loads(self.report(who, name, fields, **body))

    def report(self, who: str, name: str, fields: tuple[str, ...] = (), **body: Any) -> str:
        """A report that the bank has to list, or what it answers to an operation that it has to carry out."""
        status, text = self.branch.ask(who, f"/do/{name}", body, fields)
        require(status, 200, f"{name} of {who}: {text}")
        return str(text)

    def kill_after_a_post(self, relay: Any, more: Callable[[], None] = lambda: None) -> list[str]:
        """Has the bank killed, and more ended, once it has made a post that came by a relay. Its path, once that is so."""
        killed: list[str] = []

        def after(path: str, status: int) -> None:
            if path == "/do/post" and status == 200 and not killed:
                killed.append(path)
                self.branch.signal_bank(signal.SIGKILL)
                more()

        relay.after = after
        return killed

    def night(self) -> None:
        """A copy, its check, and its way to the office, by the scripts of the units; nobody asks the bank meanwhile."""
        require(self.machine.status("units/keep-copy"), (0, ""), "a copy")
        require(set(self.machine.said("units/check-copy").splitlines()), {"books hold"}, "its check")
        require(self.machine.status("hand-copies"), (0, ""), "hand-copies")

    # ---- the office

    def start(self, name: str) -> None:
        """Starts a service as its unit does, over a listening socket that is handed to it, and waits until it has a page."""
        command = re.search(r"^ExecStart=(.*)$", (self.files.top / f"office-units/{name}.service").read_text(), re.MULTILINE)
        assert command is not None
        words = re.sub("/run/bank-office(-runs)?", str(self.files.top), command[1]).split()
        door, place = socket.socket(socket.AF_UNIX), self.sockets[name]
        place.unlink(missing_ok=True)
        door.bind(str(place))
        door.listen(64)
        hand_over = 'exec 3<&0 </dev/null; export LISTEN_PID=$$ LISTEN_FDS=1; exec "$@"'
        with open(self.files.top / "office.log", "ab") as log, door:
            command_line = ["sh", "-c", hand_over, "sh", *words]
            service = subprocess.Popen(command_line, env=self.environment, stdin=door.fileno(), stdout=log, stderr=log)
        self.services[name] = service
        (badge, path), end = SERVICES[name], time.monotonic() + PATIENCE
        while self.branch.ask(badge, path)[0] != 200:
            said = (self.files.top / "office.log").read_text()[-2000:]
            require(time.monotonic() < end and service.poll() is None, True, f"{name} answers: {said}")
            time.sleep(0.1)

    def start_services(self) -> None:
        """Starts the office, and its runs."""
        for name in SERVICES:
            self.start(name)

    def stop_services(self) -> None:
        for service in self.services.values():
            service.terminate()
            service.wait()
        self.services.clear()

    def get(self, who: str, path: str, wanted: int = 200) -> str:
        """A page of the office."""
        status, text = self.branch.ask(who, f"/office/{path}")
        require(status, wanted, f"{path} of {who}: {text[-300:]}")
        return str(text)

    def form(self, who: str, path: str, **fields: str) -> int:
        """A form that a page sends, with its token; a field that begins with @ is a file."""
        page = self.get(who, "runs" if path.startswith("runs") else "")
        token = re.search(r'name="token" value="([^"]+)"', page)
        require(token is not None, True, "the page has a form")
        assert token is not None
        more = [word for name, text in {"token": token[1], **fields}.items()
                for word in ("-F" if text.startswith("@") else "--form-string", f"{name}={text}")]  # fmt: skip
        own_site = (f"Origin: {self.branch.url_of(f'/office/{path}')}", "Sec-Fetch-Site: same-origin")
        status, text = self.branch.ask(who, f"/office/{path}", fields=own_site, more=more)
        require(status in (303, 403, 422), True, f"{path} of {who}: {status} {text[-300:]}")
        return int(status)

    def api(self, who: str, path: str, body: object) -> tuple[int, dict[str, Any]]:
        """A request of the teller's page to the office."""
        fields = (f"Desk-Badge: {who}", "Content-Type: application/json", f"Origin: {self.branch.url}", "Sec-Fetch-Site: same-origin")
        status, text = self.branch.ask(who, f"/office/api/{path}", json.dumps(body), fields)
        return status, json.loads(text)

    def command(self, *arguments: str, settings: Path | None = None) -> tuple[int, str]:
        """A command of the office, or of another by its settings; its status and what it says."""
        command = [self.files.share / "office", "--settings", settings or self.settings_file, *arguments]
        return ran(*command, env=self.environment, cwd="/")

    def close(self) -> None:
        for browser in self.browsers:
            browser.close()
        self.stop_services()
        self.branch.close()
