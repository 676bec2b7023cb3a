"""The teller's page as `tools/try --page` serves it: its first lines are followed, then a post, what is shown of it,
and its end."""
import os
import re
import shutil
import signal
import socket
import subprocess
import tempfile
import threading
from pathlib import Path
from types import SimpleNamespace

from selenium.webdriver.common.keys import Keys

from branch.tests.branches import PATIENCE
from desk.tests.browser import Browser
from checks import Late, Wrong, require
from desk.tests.day import Day, has
from serving import HOST, free_port

COMMAND = Path(__file__).resolve().parents[2] / "tools/try"
# A request whose body is shorter than it says.
HALF = b"POST /session HTTP/1.1\r\nHost: %b:%d\r\nContent-Length: 9\r\n\r\n{}"
# The last of the first lines.
LAST = "Ctrl-C"


class TryPage(Day):
    """A run of the command whose first port somebody else has, with a client who sends half a request, and a browser at
    Tess's page."""

    def __init__(self, program, pictures=None, browser=Browser):
        self.pictures, self.room = pictures, Path(tempfile.mkdtemp(prefix="try-page-"))
        self.folder = self.room / "browser"
        os.environ["HOME"] = str(self.room)
        self.taken = socket.create_server((HOST, free_port()))
        words = [COMMAND, "--page", "--port", str(self.taken.getsockname()[1]), program]
        os.makedirs(self.room / "temporary")
        variables = {**os.environ, "TMPDIR": str(self.room / "temporary")}
        self.run = subprocess.Popen(words, env=variables, stdin=subprocess.DEVNULL, stdout=subprocess.PIPE, text=True)
        self.desk = None
        try:
            self.lines = self.first_lines()
            self.ports = {badge: int(port)
                          for port, badge in re.findall(rf"^http://{HOST}:(\d+)/ (\w+)$", self.lines, re.MULTILINE)}
            self.half = socket.create_connection((HOST, self.ports["tess"]))
            self.half.sendall(HALF % (HOST.encode(), self.ports["tess"]))
            self.desk = browser(SimpleNamespace(url=f"http://127.0.0.1:{self.ports['tess']}"), self.folder)
        except BaseException:
            self.close()
            raise

    def first_lines(self):
        """What the command says first. If the last of it does not come in time, the command is killed."""
        lines, killer = [], threading.Timer(PATIENCE, self.run.kill)
        killer.start()
        try:
            while LAST not in "".join(lines[-1:]):
                lines.append(self.run.stdout.readline())
                if not lines[-1]:
                    is_late = self.run.wait(PATIENCE) == -signal.SIGKILL
                    raise (Late if is_late else Wrong)(f"no line came after {lines}")
        finally:
            killer.cancel()
        return "".join(lines)

    def end(self):
        """The exit status of the command, ended by an interrupt, and what it leaves in the temporary folder."""
        self.run.send_signal(signal.SIGINT)
        return self.run.wait(PATIENCE), os.listdir(self.room / "temporary")

    def close(self):
        if self.desk:
            self.desk.close()
        self.run.kill()
        self.run.communicate()
        self.taken.close()
        shutil.rmtree(self.room, ignore_errors=True)


def first_lines(day):
    """Each badge has a port of its own, none of them the one that is taken; the lines after them say what to type."""
    require(sorted(day.ports), ["carl", "cora", "olga", "sue", "tess", "tom"], "badges")
    first = day.taken.getsockname()[1] + 1
    require(min(day.ports.values()) >= first and len(set(day.ports.values())) == 6, True,
            f"ports {day.ports} from {first} on")
    has(day.lines, "the page of tess", "branch 1", "drawer 11", "Put the drawer on first")


def next_step(day):
    """Who signs in as the lines say, and posts without a drawer, reads what to do next, which the bank accepts."""
    desk, (branch, drawer) = day.desk, re.search(r"branch (\d+) and drawer (\d+)", day.lines).groups()
    desk.load()
    day.sign_in(branch=branch, teller=drawer)
    desk.until_text("h1", "Drawer on")
    desk.go("p", "Deposit, withdrawal")
    has(desk.enter(way="in", account="101", amount="25.00"), "Not done", "Put the drawer on first")
    desk.go("d", "Drawer on, off")
    has(day.count_cash(40000), "Done", "400.00")


def deposit(day):
    day.desk.go("p", "Deposit, withdrawal")
    has(day.desk.enter(way="in", account="101", amount="25.00"), "Done", "Balance of account 101", "525.00")


def statement_shown(day):
    """The statement and the list of accounts are shown."""
    desk = day.desk
    desk.go("s", "Statement")
    desk.send(which="Infinity", account="101")
    has(desk.until(lambda: desk.text("table.statement"), "a statement"), "25.00", "525.00")
    desk.go("a", "Accounts")
    desk.keys(Keys.ENTER)
    has(desk.until(lambda: desk.text("#work table"), "accounts"), "101", "525.00")


def journal_shown(day):
    """The journal has what was asked, and what came of it."""
    day.desk.go("j", "Journal of the shift")
    day.desk.until_text("table", "Deposit of 25.00", "Statement of account 101", "400.00")


def listing_shown(day):
    """By the other name of this machine Olga sees the policy."""
    desk = day.desk
    desk.url = f"http://localhost:{day.ports['olga']}/"
    desk.load()
    day.sign_in(branch="1")
    desk.go("o", "Administration: who may do what")
    desk.press("Show the listing")
    has(desk.until(lambda: desk.text(".paper"), "the listing"), "Authorizations (", "Tess")
    require(desk.complaints(), [], "complaints of the page")


def half_a_request(day):
    """The connection of half a request is ended. An interrupt ends the command, which leaves nothing."""
    day.half.settimeout(PATIENCE)
    require(day.half.recv(1), b"", "what is answered to half a request")
    require(day.end(), (128 + signal.SIGINT, []), "status, and what is left")
