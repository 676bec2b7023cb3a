"""The checks of the office's day, in their order."""
import csv
import datetime
import io
import json
import os
import re
import signal
import threading
from concurrent.futures import ThreadPoolExecutor
from pathlib import Path
from typing import Any

from branch.tests.commands import ran
from checks import require, wait_until
from office.tests.at_work.day import Day

from tespiorvu.office import carry, register, runs, sheets
from tespiorvu.office.languages import LANGUAGES, language_of
from tespiorvu.office.runs_file import opened_runs
from tespiorvu.office.store import opened
from office.tests.odd_names import ODD_NAMES

TODAY = datetime.date.today()
YESTERDAY = TODAY - datetime.timedelta(1)
# The first day of the bank, which is all of its first year, and the name of that year in the office.
BEGAN = datetime.date(2025, 6, 2)
FIRST_YEAR = f"{BEGAN}-to-{BEGAN}"


def absent(day: Day) -> None:
    """Without the office its paths are answered so, and the counter works."""
    require(day.branch.ask("amy", "/office/api/here"), (503, '{"front":"no office"}'), "no office")
    day.do("amy", "post", account=101, branch=1, delta=1_000, teller=11)


def first_night(day: Day) -> None:
    """Copies come, also of the closed year, and the service reads them; nobody without a certificate reaches it."""
    day.night()
    found = sorted(it.name for it in day.copies.iterdir() if not it.name.startswith("handed-"))
    require(found, ["badges.csv", "handed", "present", "years"], "what is handed")
    require([it.name for it in (day.copies / "years").iterdir()], [FIRST_YEAR], "years")
    day.start_services()
    require(json.loads(day.get("kim", "api/here")), {"approver": False, "badge": "kim", "keeper": True}, "who asks")
    require(day.branch.ask(None, "/office/"), (403, '{"front":"certificate"}'), "without a certificate")
    asker = json.loads(day.branch.ask("amy", "/office/api/here", fields=("Bank-Badge: kim",))[1])["badge"]
    require(asker, "amy", "a forged badge")
    for fields in (("Origin: https://other.example",), ("Sec-Fetch-Site: cross-site",)):
        require(day.branch.ask("kim", "/office/", fields=fields), (403, '{"front":"other site"}'), fields[0])
    require(day.branch.ask("kim", "/office/", fields=("Desk-Badge: amy",)), (412, '{"front":"other badge"}'), "another card")
    for code in LANGUAGES:
        for path in ("", "runs"):
            page = day.branch.ask("sue", f"/office/{path}", fields=(f"Accept-Language: {code}",))[1]
            require(f">{language_of(code).say('Day books')}</a>" in page, True, f"/office/{path} in {code}")
    for who, path in (("kim", ""), ("sue", "runs"), ("kim", "api/here"), ("amy", "sheets")):
        head = day.branch.ask(who, f"/office/{path}", more=("-D", "-"))[1].partition("\n\n")[0].lower()
        for field in ("cross-origin-opener-policy: same-origin", "permissions-policy: camera=()"):
            require(field in head, True, f"{field} on {path}")


def names(day: Day) -> None:
    """Forty odd names go in by CSV, are shown to a teller of their branch, and come out equal; a bad sheet is refused by its line."""
    rows = [register.Holder(number, name, "Main Street 1") for number, name in enumerate(ODD_NAMES, 1)]
    sheet = day.files.top / "holders.csv"
    sheet.write_text(sheets.sheet_text(register.Holder._fields[:6], (it[:6] for it in rows)), newline="")
    require(day.form("kim", "sheets", name="holders", file=f"@{sheet}"), 303, "import of holders")
    sheet.write_text("account,holder,may\n" + "".join(f"{100 + number},{number},owns\n" for number in range(1, len(rows) + 1)))
    require(day.form("kim", "sheets", name="holdings", file=f"@{sheet}"), 303, "import of holdings")
    out = list(csv.DictReader(io.StringIO(day.get("kim", "sheets/holders.csv"), newline="")))
    require([sheets.bare(it["name"]) for it in out], ODD_NAMES, "names that come out")
    for number, name in enumerate(ODD_NAMES, 1):
        shown = json.loads(day.get("amy", f"api/names?accounts={100 + number}"))["accounts"]
        require(shown, {str(100 + number): [name]}, f"the name of {100 + number}")
    require(json.loads(day.get("amy", "api/names?accounts=201"))["accounts"], {}, "names of another branch")
    day.get("amy", "days/1/1", 403)
    sheet.write_text("holder,name,address,document,note,since\n60,Good,,,,\n61,,,,,\n")
    require(day.form("kim", "sheets", name="holders", file=f"@{sheet}"), 422, "a bad sheet")
    require(day.form("kim", "sheets", name="users", file=f"@{sheet}"), 422, "a sheet of another heading")
    require("60,Good" in day.get("kim", "sheets/holders.csv"), False, "anything of a bad sheet is taken")
    sheet.write_text("badge,user,name\namy,7,Amy Ångström\nsue,13,Sue\n")
    require(day.command("import", "users", str(sheet)), (0, "2 rows changed\n"), "import by command")


def asked(day: Day, *operations: dict[str, Any]) -> int:
    """The number of a request of Amy that waits for a release."""
    status, one = day.api("amy", "asks", {"wish": "release", "operations": list(operations)})
    require((status, one.get("state")), (200, "waiting"), f"asked for: {one}")
    return int(one["ask"])


def of_amy(day: Day, number: int) -> dict[str, Any]:
    """A request as Amy sees it."""
    found: dict[str, Any] = next(it for it in json.loads(day.get("amy", "api/queue"))["mine"] if it["ask"] == number)
    return found


def released(day: Day, who: str, number: int) -> list[int]:
    """What a supervisor's page does: it claims a request, and asks the bank for a release of each operation if the claim is its own.
    The answer follows later."""
    status, one = day.api(who, f"asks/{number}/claim", {})
    if status != 200:
        require((status, "claimed by" in one["office"]), (409, True), f"{who} does not have it: {one}")
        return []
    return [day.do(who, "release", beneficiary=one["user"], operation=it)["release"] for it in one["operations"]]


def release(day: Day) -> None:
    """A request above Amy's limit waits in the queue, is released by Sue at the bank, and goes on by the number."""
    body: dict[str, Any] = {"account": 103, "branch": 1, "delta": 150_000, "teller": 11}
    require(day.branch.ask("amy", "/do/post", body), (403, '{"name":"limit","rule":4}'), "above the limit")
    number = asked(day, dict(body, procedure="post"))
    require(json.loads(day.get("ben", "api/queue"))["waiting"], [], "what waits for a teller")
    waiting = json.loads(day.get("sue", "api/queue"))["waiting"]
    require([(it["ask"], it["user"], it["name"], it["names"]) for it in waiting],
            [(number, 7, "Amy Ångström", {"103": [ODD_NAMES[2]]})], "what waits")
    given = released(day, "sue", number)
    require(day.api("sue", f"asks/{number}/answer", {"number": given[0]})[0], 200, "answered")
    mine = of_amy(day, number)
    require((mine["state"], mine["answerer"], mine["releases"]), ("done", "sue", given), "what Amy sees")
    day.do("amy", "post", (f"Bank-Release: {mine['number']}",), **body)
    require(day.branch.ask("amy", "/do/post", body, (f"Bank-Release: {mine['number']}",))[0], 403, "the same again")
    paths = {it["path"] for it in day.branch.audit()}
    require(("/office/api/asks" in paths, "/office/api/queue" in paths), (True, False),
            "the audit trail has requests, and not each look")


def one_release(day: Day) -> None:
    """Two supervisors press at once, and the bank gives one release for each part; what is taken back between release and answer
    waits for the answer, and money is moved once."""
    parts = [{"procedure": "transfer", "amount": 150_000 + it, "branch": 1, "source": 900, "target": 107, "teller": 11} for it in (0, 1)]
    number, gate = asked(day, *parts), threading.Barrier(2)

    def press(who: str) -> list[int]:
        gate.wait()
        return released(day, who, number)

    with ThreadPoolExecutor() as pool:
        given = dict(zip(("sue", "sam"), pool.map(press, ("sue", "sam"))))
    require(sorted(map(len, given.values())), [0, 2], f"releases by each: {given}")
    giver = max(given, key=lambda it: len(given[it]))
    status, one = day.api("amy", f"asks/{number}/withdraw", {})
    require((status, one["state"], one["taken_back"]), (200, "claimed", True), "taken back between release and answer")
    require(day.api(giver, f"asks/{number}/answer", {"releases": given[giver]})[0], 200, "the answer is taken")
    mine = of_amy(day, number)
    require((mine["state"], mine["releases"]), ("done", given[giver]), "Amy learns which releases stand")
    for it, part in zip(mine["releases"], parts):
        body = {name: value for name, value in part.items() if name != "procedure"}
        day.do("amy", "transfer", (f"Bank-Release: {it}",), **body)
        require(day.branch.ask("amy", "/do/transfer", body, (f"Bank-Release: {it}",))[0], 403, "the same again")
    got = day.branch.sql("SELECT count(*), sum(delta), (SELECT count(*) FROM releases) FROM entries WHERE account = 107")
    require(got, [(2, 300_001, 3)], "moved once, by as many releases")


def entries(day: Day) -> None:
    """A day of all kinds of entries, closed."""
    wrong = day.do("amy", "post", account=104, branch=1, delta=12_000, teller=11)["entry"]
    day.do("amy", "move-cash", amount=12_000, branch=1, source=11, target=12)
    day.do("ben", "correct", account=104, branch=1, delta=12_000, entry=wrong, other=0, teller=12)
    day.do("amy", "transfer", amount=700, branch=1, source=101, target=102, teller=11)
    day.do("cai", "post", account=105, branch=2, delta=4_000, teller=21)
    day.do("cai", "post", account=201, branch=2, delta=-900, teller=21)
    require(day.do("amy", "drawer-off", branch=1, counted=152_017, teller=11)["difference"], 17, "Amy's drawer differs")
    require(day.do("ben", "drawer-off", branch=1, counted=900, teller=12)["difference"], -100, "Ben's drawer differs")
    require(day.branch.ask("sue", "/do/close-day", {"branch": 1})[0], 200, "branch 1 is closed")


def sums(day: Day) -> None:
    """The day book agrees with the closed day's proof to the cent, and its exports balance."""
    proof = day.report("sue", "proof", branch=1)
    day.night()
    day_number = int(proof.split(" DAY ")[1].split()[0]) - 1
    page = day.get("sue", f"days/1/{day_number}")
    require("It agrees with the day&#39;s proof" in page, True, "the page agrees")
    require("It agrees with the day&#39;s proof" in day.get("sue", "days/1/1"), True, "the day of the year before agrees")
    (closed,) = day.branch.sql("SELECT entries, balance, cash FROM proofs WHERE branch = 1 AND day = ?", day_number)
    (opening,) = day.branch.sql("SELECT opening, cash FROM branches WHERE branch = 1")
    rows = list(csv.DictReader(io.StringIO(day.get("sue", f"days/1/{day_number}.csv"), newline="")))
    cents = {kind: [(it["teller"], round(float(it["amount"]) * 100)) for it in rows if it["kind"] == kind]
             for kind in ("entry", "cash")}
    require((len(cents["entry"]), opening[0] + sum_of(cents["entry"]), opening[1] + sum_of([it for it in cents["cash"] if it[0] == "vault"])), closed,
            "entries, balance and vault of the book and of the proof")  # fmt: skip
    corrected = {it["number"]: (it["corrects"], it["corrected_by"]) for it in rows
                 if it["kind"] == "entry" and (it["corrects"] or it["corrected_by"])}
    require(len(corrected), 2, f"an entry and its correction: {corrected}")
    open_day = int(day.report("sue", "proof", branch=2).split(" DAY ")[1].split()[0])
    for branch, number in ((1, day_number), (2, open_day), (1, 1)):
        ledger = list(csv.DictReader(io.StringIO(day.get("sue", f"ledger/{branch}/{number}.csv"), newline="")))
        sides = [sum(round(float(it[side] or 0) * 100) for it in ledger) for side in ("debit", "credit")]
        require((sides[0] == sides[1], sides[0] > 0), (True, True), f"debit and credit of branch {branch}: {sides}")
        document = day.get("sue", f"ledger/{branch}/{number}.xml")
        schema = day.files.top / "office-schemas/camt.053.001.08.xsd"
        status, said = ran("xmllint", "--noout", "--nonet", "--schema", schema, "-", input=document)
        require(status, 0, f"camt.053: {said}")


def sum_of(pairs: list[tuple[str, int]]) -> int:
    return sum(amount for _, amount in pairs)


def two_years(day: Day) -> None:
    """A statement over two years, by the balances of the files of both; none of a day that is not over, or before the first."""
    asked = f"statements.csv?account=101&first={BEGAN}&last={TODAY}"
    require("is not over by the newest copy" in day.get("amy", asked, 422), True, "today")
    require(f"first day is {BEGAN}" in day.get("amy", asked.replace(str(BEGAN), "2025-06-01"), 422), True, "the day before the first")
    made = (day.copies / "present").stat().st_mtime
    os.utime(day.copies / "present", (made + 86_400,) * 2)  # as the copy of the next night
    rows = list(csv.DictReader(io.StringIO(day.get("amy", asked), newline="")))
    os.utime(day.copies / "present", (made,) * 2)
    require([(it["year"], it["amount"], it["balance"]) for it in rows], [
        ("", "", "500.00"), (FIRST_YEAR, "25.00", "525.00"), (FIRST_YEAR, "-3.00", "522.00"), ("", "10.00", "532.00"), ("", "-7.00", "525.00")],
        "the statement")  # fmt: skip
    page = day.get("amy", f"statements?account=101&first={BEGAN}&last=2025-12-31")
    require("522.00" in page and "532.00" not in page, True, "the first year alone")


class Cut(carry.Bank):
    """A bank as a run reaches it, of a process that is killed after n transfers were answered, before it keeps the last reply."""

    def __init__(self, day: Day, kills_at: int) -> None:
        super().__init__(day.settings, pause=0.2)
        self.left = kills_at

    def ask(self, name: str, body: dict[str, int], slip: int = 0) -> carry.Reply:
        reply = super().ask(name, body, slip)
        self.left -= name == "transfer"
        if not self.left:
            os.kill(os.getpid(), signal.SIGKILL)
        return reply


def approved_run(day: Day, kind: str, first: datetime.date, last: datetime.date) -> int:
    """A run that Kim's command proposes, and Sue and Sam approve by their pages."""
    status, said = day.command("propose", kind, "1", first.isoformat(), last.isoformat())
    require(status, 0, said)
    run = int(said.split()[1].rstrip(":"))
    require(day.form("sue", f"runs/{run}/approve"), 303, "Sue approves")
    require(day.form("sue", f"runs/{run}/approve"), 422, "Sue approves once")
    require(day.command("carry-out"), (0, ""), "one approval is not enough")
    require(day.form("sam", f"runs/{run}/approve"), 303, "Sam approves")
    return run


def interest(day: Day) -> None:
    """An interest run is killed in its midst, and run again: each account gets it once."""
    run = approved_run(day, "interest", BEGAN, YESTERDAY)
    with opened_runs(day.settings) as found:
        lines = runs.lines_of(found, run)
    require(len(lines), 49, "an account each")
    child = os.fork()
    if child == 0:
        with opened_runs(day.settings) as found:
            carry.carry_out(found, Cut(day, 20), run)
        os._exit(0)
    require(os.waitpid(child, 0)[1], signal.SIGKILL, "the run is killed")
    with opened_runs(day.settings) as found:
        require(sum(it.state == "done" for it in runs.lines_of(found, run)), 19, "kept when it was killed")
    require(day.command("carry-out"), (0, f"run {run}: 49 done, 0 refused\n"), "run again")
    require(day.command("carry-out"), (0, ""), "and once more")
    got = day.branch.sql(
        "SELECT account, count(*), sum(delta) FROM entries WHERE user_no = 50 AND account != 900 GROUP BY account")
    require(got, [(it.account, 1, it.amount) for it in lines], "accounts, entries and interest")
    days = (YESTERDAY - BEGAN).days + 1
    # From 2 June 2025 on 102 had 500.00 - 7.00 + 3.00 until today.
    due = (2 * (49_600 * days) * 12_500 + 365 * 10**6) // (2 * 365 * 10**6)
    require([it.amount for it in lines if it.account == 102], [due], "the interest of 102")


def in_parts(day: Day) -> None:
    """25,000.00 go in three parts; the bank is killed between two of them, and each acts once."""
    run = approved_run(day, "fee", YESTERDAY, YESTERDAY)

    class Killing(carry.Bank):
        def ask(self, name: str, body: dict[str, int], slip: int = 0) -> carry.Reply:
            reply = super().ask(name, body, slip)
            if name == "transfer" and slip % runs.LINES_PER_RUN == 1:
                day.branch.signal_bank(signal.SIGKILL)
            return reply

    with opened_runs(day.settings) as found:
        require(carry.carry_out(found, Killing(day.settings, pause=0.2), run), (3, 0), "three parts")
    got = [it for it, in day.branch.sql("SELECT delta FROM entries WHERE account = 150 ORDER BY turn")]
    require(got, [-999_999, -999_999, -500_002], "the parts")
    require(("1 of 3" in day.get("sue", f"runs/{run}"), sum(got)), (True, -2_500_000), "shown as parts of one amount")


HIDDEN = ("/run/bank.socket", "/var/lib/bank", "/var/lib/bank-copies", "/etc/bank-front")
OF_RUNS = ("/etc/bank-office/office.key", "/var/lib/bank-office-runs", "/run/bank-office-approvals.socket")



def of_unit(text: str, *names: str) -> list[str]:
    """All that a unit has under these names."""
    return " ".join(re.findall(rf"^(?:{'|'.join(names)})=(.*)$", text, re.MULTILINE)).split()


def apart(day: Day) -> None:
    """The units of the office can't reach the bank's socket or files, its user is in none of the bank's groups, and those of the
    office's own user reach nothing of runs."""
    units = day.files.top / "office-units"
    for name, user, hidden in (("bank-office", "bank-office", OF_RUNS), ("bank-office-save", "bank-office", OF_RUNS),
                               ("bank-office-approvals", "bank-office-runs", OF_RUNS[:1]), ("bank-office-runs", "bank-office-runs", ())):  # fmt: skip
        unit = (units / f"{name}.service").read_text()
        inaccessible = of_unit(unit, "InaccessiblePaths")
        require([it for it in (*HIDDEN, *hidden) if f"-{it}" not in inaccessible], [], f"what {name} can reach")
        require(of_unit(unit, "User", "Group"), [user] * 2, f"{name}: user and group")
        require(of_unit(unit, "SupplementaryGroups"), ["bank-office"] if user != "bank-office" else [], f"{name}: groups")
    for name, unit in ((it.name, it.read_text()) for it in units.glob("*.service")):
        made = {f"/var/lib/{it}" for it in of_unit(unit, "StateDirectory") if it.endswith("/saved")}
        require(set(of_unit(unit, "ReadOnlyPaths")), made, f"{name}: copies, read-only from the first start on")
        if of_unit(unit, "User") and of_unit(unit, "RestrictAddressFamilies") != ["none"]:
            require("-/run/dbus" in of_unit(unit, "InaccessiblePaths"), True, f"{name} asks systemd for nothing")
    require(
        re.findall(r"^[um]\s+(\S+)\s+(\S+)", (day.files.top / "tespiorvu-office.sysusers").read_text(), re.MULTILINE),
        [("bank-office", "-"), ("bank-office-runs", "-"), ("bank-office-runs", "bank-office")], "sysusers")
    for name in ("bank-office", "bank-office-approvals"):
        sockets = of_unit((units / f"{name}.socket").read_text(), "SocketUser", "SocketGroup", "SocketMode")
        require(sockets, ["bank-front", "0660"], f"who opens the socket of {name}")


def killed(day: Day) -> None:
    """A service that is killed leaves the counter working, and starts with all it kept."""
    before = day.get("kim", "sheets/holders.csv")
    service = day.services.pop("bank-office")
    service.kill()
    service.wait()
    wait_until(lambda: day.branch.ask("amy", "/office/users")[0] != 200, 60, "its workers have seen that, and end")
    require(day.branch.ask("amy", "/do/balance", {"account": 101})[0], 200, "the counter works")
    require(day.branch.ask("sue", "/office/runs")[0], 200, "runs go on")
    day.start("bank-office")
    require(day.get("kim", "sheets/holders.csv"), before, "what it kept")
    for what in ("register", "runs"):
        require(day.command("save", what)[0], 0, f"the copy of {what}")
    status, said = day.command("save")
    require(status, 0, said)
    with opened(Path(said.splitlines()[0])) as found:
        require(sheets.exported(found, "holders").replace("\r\n", "\n"), before, "the copy")
