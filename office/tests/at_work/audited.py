"""Checks of the office's day that an auditor makes: the policy's log beside each night's copy, a limit that is raised, used and put back,
a copy that is put back, cards."""
import shutil
import signal
from typing import Any

from office.tests.at_work import lists
from branch.tests.commands import ended, ran
from checks import require
from office.tests.at_work.day import Day

from tespiorvu.office.policy_file import nights_of, opened_policy
from tespiorvu.office.settings import Settings, read_settings
from tespiorvu.office.web import make_app

AMY: dict[str, Any] = {"user": lists.USERS["amy"], "procedure": "post", "set": 2}
# The same of Ben, whose rights no check uses up to the next night.
BEN: dict[str, Any] = {**AMY, "user": lists.USERS["ben"]}


def tell(day: Day, who: str, name: str, /, **body: Any) -> None:
    """A command of the policy that has to be carried out."""
    require(day.branch.ask(who, f"/policy/{name}", body), (200, f'{{"done":"{name}"}}'), f"{name} of {who}: {body}")


def hand_over(day: Day) -> None:
    """The front's trail on its way to the office, by the script of its unit."""
    with open(day.branch.folder / "etc/badges.map", encoding="ascii") as valid:
        found = ran(day.files.share / "hand-trail", env=day.machine.environment(), stdin=valid)
    require(found, (0, ""), "hand-trail")


def night(day: Day) -> tuple[int, str]:
    """A night, and what the office says of the policy's log."""
    day.night()
    hand_over(day)
    return day.command("take-policy")


def version_of(day: Day) -> int:
    """How often the policy was changed."""
    return int(day.branch.one("SELECT policy FROM bank"))


def careless(day: Day) -> Settings:
    """The settings of another office beside, whose log is another."""
    folder = day.files.top / "careless"
    (folder / "trail").mkdir(parents=True, exist_ok=True)
    text = day.settings_file.read_text().replace(str(day.settings.file), str(folder / "office")).replace(str(day.settings.trail), str(folder / "trail"))
    (folder / "settings.toml").write_text(text)
    return read_settings(folder / "settings.toml")


def take_beside(settings: Settings, day: Day, lines: list[str]) -> int:
    """The other office takes these lines; the status of its command."""
    (settings.trail / "policy.log").write_text("".join(lines))
    return day.command("take-policy", settings=settings.file.with_name("settings.toml"))[0]


def policy_nights(day: Day) -> None:
    """Replay of the policy's log equals each night's copy, for each command; with one line less the page is red."""
    for who in ("olga", "carl", "cora"):
        day.branch.begin(who, drawer=False)
    status, said = night(day)
    require((status, said), (0, f"night 1: version {version_of(day)}, begun\n"), "the first night")
    beside = careless(day)
    require(take_beside(beside, day, []), 0, "the first night of the other office")
    tell(day, "carl", "define-set", set=60, members=[[1, 101, 103], [3, 1, 1]])
    tell(day, "carl", "certify", procedure="balance", set=60)
    tell(day, "carl", "grant", user=8, procedure="balance", set=60, limit=0, first=7, last=99_999_999_998)
    tell(day, "olga", "enrol", user=61, name="Ida", officer=False)
    tell(day, "olga", "appoint", user=61, procedure="release")
    tell(day, "olga", "dismiss", user=61, procedure="release")
    require(day.branch.ask("amy", "/policy/suspend", {"user": 61})[0], 403, "Amy is no officer")
    tell(day, "olga", "suspend", user=61)
    tell(day, "olga", "restore", user=61)
    tell(day, "cora", "withdraw", procedure="balance", set=60)
    tell(day, "cora", "certify", procedure="balance", set=60)
    for name in ("revoke", "grant"):
        tell(day, "carl", name, **BEN, **({"limit": lists.HIGHEST} if name == "grant" else {}))
    status, said = night(day)
    require((status, said), (0, f"night 2: version {version_of(day)}, replayed\n"), "the second night")
    page = day.get("olga", "rights")
    require(("Ida (61)" in page, "Certified by" in page, 'class="fault"' in page), (True, True, False), "rights")
    for path in ("rights", "rights/changes", "controls", "reviews"):
        day.get("kim", path, 403)
    lines = (day.settings.trail / "policy.log").read_text().splitlines(keepends=True)
    require(take_beside(beside, day, [it for it in lines if "appoint" not in it]), 1, "a line is missing")
    page = make_app(beside).test_client().get("/office/rights/changes", headers={"Bank-Badge": "olga"}).text
    require('class="fault"' in page and "1 of 12 commands are missing in the log" in page, True, "the page is red")


def limit_put_back(day: Day) -> None:
    """A limit is raised, used and put back, and the card of runs used without a run: red rows, and none of runs."""
    status, said = day.command("controls")
    require((status, [it for it in said.splitlines() if it.endswith("RED")]), (0, []), f"controls before: {said}")
    require('class="fault"' in day.get("olga", "rights/changes"), False, "the page before")
    day.do("amy", "drawer-on", branch=1, cash=0, teller=11)
    tell(day, "carl", "revoke", **AMY)
    tell(day, "carl", "grant", **AMY, limit=lists.HIGHEST)
    entry = day.do("amy", "post", account=109, branch=1, delta=900_000, teller=11)["entry"]
    tell(day, "carl", "revoke", **AMY)
    tell(day, "carl", "grant", **AMY, limit=lists.LIMIT)
    day.do("amy", "drawer-off", branch=1, counted=900_000, teller=11)
    day.branch.begin("office", drawer=False)
    day.do("office", "drawer-on", branch=1, teller=90, cash=0)
    day.do("office", "transfer", branch=1, teller=90, amount=250_000, source=900, target=101)
    day.do("office", "drawer-off", branch=1, teller=90, counted=0)
    require(night(day)[0], 0, "the log is whole")
    page = day.get("olga", "rights/changes")
    red = [it for it in page.split("<tr") if it.startswith(' class="fault"')]
    wanted = f"entry 1/{entry} of Amy Ångström (7): 9,000.00 is above the limit before or after"
    require((len(red), all(wanted in it and "carl" in it for it in red)), (2, True), f"red rows: {red}")
    status, said = day.command("controls")
    require((status, "15 put-back: 2, RED" in said, "1 above-limit: 1\n" in said), (1, True, True), said)
    require("18 no-run: 2, RED" in said and "amount -2,500.00" in said, True, said)
    require('<p class="fault" role="alert">rights that were another' in day.get("olga", "controls"), True, "the page of controls")


def copy_put_back(day: Day) -> None:
    """The bank goes on from the night's copy: the log is cut there, and what was cut is listed."""
    tell(day, "olga", "enrol", user=62, name="Lost", officer=False)
    day.branch.signal_bank(signal.SIGTERM)
    day.branch.end_bank()
    for file in day.machine.bank.glob("bank*"):
        file.unlink()
    shutil.copy(day.copies / "present", day.branch.file)
    day.branch.file.chmod(0o600)
    day.branch.keep()
    day.branch.begin("olga", drawer=False)
    tell(day, "olga", "enrol", user=63, name="Found", officer=False)
    status, said = night(day)
    require((status, "restored" in said, "1 commands after it are cut" in said), (1, True, True), said)
    page = day.get("olga", "rights/changes")
    require("Lost" in page and page.index("Lost") < page.index("Found"), True, "what was cut is listed")
    require(("Found" in day.get("olga", "rights"), "Lost" in day.get("olga", "rights")), (True, False), "rights")
    with opened_policy(day.settings) as found:
        last = nights_of(found)[-1]
    require(day.command("explain", str(last.night), "the disk failed"), (0, ""), "explained")
    require("the disk failed" in day.get("olga", "rights/changes"), True, "the reason")
    require("14 policy-log: 0\n" in day.command("controls")[1], True, "no longer red")


def second_card(day: Day) -> None:
    """Ben has a second card: the command says so, and the review sheet has both, with their uses."""
    first = day.files.serial("ben")
    made = ended(day.files.top / "certificates", "teller", day.files.top / "ca", "ben")
    second = day.files.serial("ben")
    require((made.returncode, "ben has 2 valid cards" in made.stderr), (0, True), made.stderr)
    require((first in made.stderr, second in made.stderr), (True, True), made.stderr)
    shutil.copy(day.files.top / "ca/front/badges.map", day.branch.folder / "etc")
    day.branch.reload()
    require(day.branch.ask("ben", "/do/balance", {"account": 101})[0], 200, "the second card works")
    hand_over(day)
    page = day.get("olga", "reviews?user=8")
    rows = [it for it in page.split("<tr") if f"<td>{first}</td>" in it or f"<td>{second}</td>" in it]
    require((len(rows), all('class="differs"' in it and "never" not in it for it in rows)), (2, True), f"cards: {rows}")
    require("17 several-cards: 1\n" in day.command("controls")[1], True, "the control")

