"""The round in which a year is closed, and the machine that serves loses its power while the office pays interest."""
import contextlib
import csv
import datetime
import http.client
import io
import json
import re
import tempfile
import time
from pathlib import Path
from typing import NamedTuple

from branch.tests.branches import TELLERS, USERS, is_page_of_office
from checks import Wrong, require, wait_until
from branch.tests.pair.branch_pair import Pair
from branch.tests.pair.comparison import COPY, compare, sql
from branch.tests.pair.lists import BADGE, DRAWER, PAID, PAYS, USER
from branch.tests.pair.machines import Machine
from branch.tests.pair.tellers import HOST, client_of

# 36.5 percent of 500.00 are 50 cents a day.
SETTINGS = f"""
cp /root/card/* /etc/bank-office
sed -i 's/^approvers = .*/approvers = ["sue", "amy"]/' /etc/bank-office/settings.toml
grep -q '^\\[\\[interest' /etc/bank-office/settings.toml || cat >>/etc/bank-office/settings.toml <<END
[[interest]]
branch = 1
low = {PAID[0]}
high = {PAID[-1]}
rate = "36.50"
account = {PAYS}
teller = {DRAWER}
END
chmod 640 /etc/bank-office/* && chgrp bank-office /etc/bank-office/* && chgrp bank-office-runs /etc/bank-office/office.key
systemctl restart bank-office
"""
NAMES = """cd /tmp && printf 'holder,name,address,document,note,since\\n1,Ann,Street,,,\\n' >holders.csv &&
    printf 'account,holder,may\\n101,1,owns\\n' >holdings.csv && bank-office import holders holders.csv && bank-office import holdings holdings.csv"""
COPIES = "/var/lib/bank-office-copies"
TODAY = datetime.datetime.now(datetime.timezone.utc).date()
# By the user of the runs, who may take back what a power cut has left half written.
DONE = "runuser -u bank-office-runs -- sqlite3 /var/lib/bank-office-runs/runs \"SELECT count(*) FROM run_lines WHERE state = 'done'{}\""
LAST = "SELECT count(*), balance FROM entries JOIN accounts USING (account) WHERE account = 101"
CASH = "SELECT teller, sum(delta) FROM entries GROUP BY teller"
GOT = f"SELECT account, count(*) FROM entries WHERE user_no = {USER} AND account != {PAYS} GROUP BY account"


class Turn(NamedTuple):
    """Account 101 at the turn of the year: its entries and its balance, and what the next year has posted to it."""

    entries: int
    balance: int
    next: int


class Pages:
    """The office's pages, by a badge's card."""

    def __init__(self, authority: Path, who: str) -> None:
        self.clients = {it: client_of(authority, who, host=it) for it in (HOST, f"office.{HOST}")}
        self.fields = {"Sec-Fetch-Site": "same-origin", "Desk-Badge": who}

    def ask(self, method: str, path: str, body: bytes = b"", kind: str = "") -> tuple[int, str]:
        """Status and body of a reply, by a connection of its own."""
        path = f"/office/{path}"
        client = self.clients[f"office.{HOST}" if is_page_of_office(path) else HOST]
        try:
            kinds = {"Content-Type": kind} if kind else {}
            client.request(method, path, body, {**self.fields, **kinds})
            reply = client.getresponse()
            return reply.status, reply.read().decode()
        except (OSError, http.client.HTTPException) as error:
            return 0, str(error)
        finally:
            client.close()

    def get(self, path: str) -> str:
        """A page."""
        status, text = self.ask("GET", path)
        require(status, 200, f"{path}: {text[-300:]}")
        return text

    def approve(self, run: int) -> None:
        """Approves a run by its form."""
        token = re.search(r'name="token" value="([^"]+)"', self.get("runs"))
        if token is None:
            raise Wrong("the page of runs has no form")
        body = f"token={token[1]}".encode()
        status, text = self.ask("POST", f"runs/{run}/approve", body, "application/x-www-form-urlencoded")
        require(status, 303, f"an approval: {text[-300:]}")


def asked(pair: Pair, who: str, path: str, body: object = None) -> None:
    """Asks for what has to be done."""
    with contextlib.closing(client_of(pair.authority, who)) as client:
        status, text = client.ask(path, body)
    require(status, 200, f"{path}: {text}")


def end_day(pair: Pair, here: Machine) -> None:
    """The tellers take their drawers off, and the day of the branch is closed."""
    compare(here, pair.book)
    cash = {int(teller): int(delta) for teller, delta in sql(here, CASH)}
    for i, who in enumerate(TELLERS):
        asked(pair, who, "/do/drawer-off", {"branch": 1, "counted": 1000 + cash.get(11 + i, 0), "teller": 11 + i})
    asked(pair, "sue", "/do/close-day", {"branch": 1})


def set_up(pair: Pair, here: Machine) -> None:
    """The office's settings, the card of its badge, and the name of the branch on both machines."""
    with tempfile.TemporaryDirectory() as folder:
        for it in ("front/authority.pem", f"tellers/{BADGE}.pem", f"tellers/{BADGE}.key"):
            Path(folder, Path(it).name).write_bytes((pair.authority / it).read_bytes())
        here.put(Path(folder), "/root/card")
    here.done(SETTINGS)
    for each in pair.machines.values():
        each.done("grep -q bank.branch /etc/hosts || echo 127.0.0.1 bank.branch >>/etc/hosts")


def close_year(pair: Pair, here: Machine) -> Turn:
    """Closes the year by the lines of the page, and a day of the next one with a post by Amy to account 101."""
    pair.load.stop(pair.patience)
    end_day(pair, here)
    entries, balance = map(int, sql(here, LAST)[0])
    said = here.carry_out("year")
    require("carried forward" in said.splitlines(), True, said)
    pair.book.begin_anew()
    pair.entries = 0
    pair.begin_drawers()
    posted = pair.book.next(USERS[TELLERS[0]], True)
    with contextlib.closing(client_of(pair.authority, TELLERS[0])) as amy:
        require(pair.load.post(amy, TELLERS[0], posted, None), True, "a post of the new year")
    end_day(pair, here)
    return Turn(entries, balance, posted)


def have_night(pair: Pair, here: Machine) -> None:
    """The night, up to the copy of it that the office gets, which then is a day older, so that today is over by it. (The night of the
    year's end may hand one over meanwhile.)"""
    began = here.done("date +%s")
    here.done("systemctl start bank-night")
    here.await_that(f"[ $(stat -L -c %Y {COPIES}/present) -ge {began} ]", pair.patience)
    here.done(f"touch -d '1 day' $(readlink -f {COPIES}/present)")


def approved_run(pair: Pair, here: Machine) -> int:
    """A run of today's interest, proposed by a command and approved by two."""
    said = here.done(f"bank-office propose interest 1 {TODAY} {TODAY}")
    run = int(said.split()[1].rstrip(":"))
    for who in ("sue", TELLERS[0]):
        Pages(pair.authority, who).approve(run)
    return run


def require_office(pair: Pair, turn: Turn) -> None:
    """The office finds a name, and shows a statement over both years, whose balances follow one another. The lines of a closed year
    have its name, those of the present one have none."""
    amy = Pages(pair.authority, TELLERS[0])
    wait_until(lambda: amy.ask("GET", "")[0] == 200, pair.patience, "the office answers", 1)
    status, text = amy.ask("POST", "api/search", json.dumps({"q": "ann"}).encode(), "application/json")
    require((status, '"name":"Ann"' in text.replace(": ", ":")), (200, True), f"who is found: {text[-300:]}")
    sheet = amy.get(f"statements.csv?account=101&first={TODAY}&last={TODAY}")
    opening, *lines = csv.DictReader(io.StringIO(sheet, newline=""))
    closed = [bool(it["year"]) for it in lines]
    require(closed, [True] * turn.entries + [False], "lines of the closed year, and then of the present one")
    sums = [round(100 * float(it["balance"])) for it in (opening, *lines)]
    wrong = [i for i, it in enumerate(lines) if sums[i + 1] != sums[i] + round(100 * float(it["amount"]))]
    require(wrong, [], "lines whose balance does not follow the one before")
    require(sums[-2:], [turn.balance, turn.balance + turn.next], "balances at the turn of the year, and after it")


def office_over_a_year(pair: Pair) -> str:
    """The year is closed; the machine that serves loses its power while the office pays interest to two hundred accounts. Where the
    branch then is the office finds a name, shows both years, and carries the run on, which pays each account once."""
    here, there = pair.sides()
    set_up(pair, here)
    turn = close_year(pair, here)
    have_night(pair, here)
    here.done(NAMES)
    run = approved_run(pair, here)
    pair.begin_drawers()
    pair.load.start()
    here.done("systemctl start --no-block bank-office-runs")
    wait_until(lambda: int(here.sh(DONE.format("")).stdout or 0) >= 5, pair.patience, "the run has begun", 0.2)
    pair.book.forget_pauses()
    moment = time.time()
    here.off()
    pair.await_service(there)
    seen = pair.parts(there, moment)
    # A timer there carries the run on by itself, but not within seconds of the cut.
    first = int(there.done(DONE.format(f" AND answered < {int(moment) + 20}")))
    require(first < len(PAID), True, "the run was cut")
    require_office(pair, turn)
    there.sh("systemctl start bank-office-runs", timeout=pair.patience)
    there.await_that(f'[ "$({DONE.format("")})" = {len(PAID)} ]', pair.patience)
    pair.load.stop(pair.patience)
    there.done(COPY)
    require(sql(there, GOT), [[str(it), "1"] for it in PAID], f"accounts that run {run} paid, each once")
    pair.load.start()
    here.start()
    pair.await_whole()
    return f"{here.name} off at {first} of {len(PAID)} transfers; {seen}; {there.name} found a name, showed both years, and carried run {run} on"
