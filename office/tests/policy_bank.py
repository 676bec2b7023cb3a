"""A bank whose policy is changed by commands, written by SQL and without the program, and the front's log of them."""
import datetime
import json
import os
import time
from typing import Any

from tespiorvu.office import policy_file
from tespiorvu.procedures import NUMBERS
from office.tests.conftest import BADGES, Office

# Tess may post up to 1,000.00 on set 1. Olga, the officer, is user 1; Carl and Cora certify.
OLGA, CARL, CORA, TESS = 1, 2, 4, 7
LIMIT = 100_000
BEGUN = int(time.time()) - 30 * 86_400


def below_heading(page: str) -> str:
    """What a page has below its heading; above it stands that the copy is old, as those of these tests are."""
    return page.partition("<h1>")[2]


class PolicyBank:
    """The bank, at a moment of its own, and the log."""

    def __init__(self, office: Office) -> None:
        self.office, self.clock, self.lines = office, BEGUN, list[str]()
        self.bank = office.bank()
        sql = self.bank.bank
        sql.executemany("INSERT OR IGNORE INTO users VALUES (?, ?, ?, 0, 1, 1, 0)", [(OLGA, "Olga", 1), (CARL, "Carl", 0), (CORA, "Cora", 0)])
        sql.execute("INSERT INTO sets SELECT DISTINCT set_no FROM members")
        sql.execute("INSERT INTO relations SELECT DISTINCT procedure, set_no, ? FROM grants", (CARL,))
        sql.execute("INSERT OR IGNORE INTO relations VALUES (?, 2, ?)", (NUMBERS["release"], CARL))
        sql.executemany("INSERT INTO certifiers VALUES (?, ?)", [(user, it) for user in (CARL, CORA) for it in NUMBERS.values()])
        office.settings.trail.mkdir(exist_ok=True)

    def command(self, badge: str, name: str, status: str = "200", bank: str = "200", /, **body: Any) -> None:
        """A command a minute later, as the bank carries it out, and its line in the log."""
        self.clock += 60
        if "200" in (status, bank):
            self.carry_out(BADGES[badge], name, body)
            self.bank.bank.execute("UPDATE bank SET policy = policy + 1")
        self.lines.append(self.line(badge, name, body, status, bank))

    def line(self, badge: str, name: str, body: dict[str, Any], status: str, bank: str) -> str:
        """A line of the log."""
        when = datetime.datetime.fromtimestamp(self.clock).astimezone().isoformat(timespec="seconds")
        return json.dumps({"time": when, "ended": self.clock + 0.25, "seconds": 0.01, "request": f"{len(self.lines)}-{self.clock}", "badge": badge,
                           "path": f"/policy/{name}", "status": status, "bank": bank, "body": json.dumps(body)})  # fmt: skip

    def carry_out(self, user: int, name: str, body: dict[str, Any]) -> None:
        """What the bank does for a command."""
        sql = self.bank.bank
        one, procedure, number = body.get("user"), NUMBERS.get(body.get("procedure", "")), body.get("set")
        if name == "define-set":
            sql.execute("INSERT INTO sets VALUES (?)", (number,))
            sql.executemany("INSERT INTO members VALUES (?, ?, ?, ?, ?)", [(number, place, *it) for place, it in enumerate(body["members"], 1)])
        elif name == "certify":
            sql.execute("INSERT INTO relations VALUES (?, ?, ?)", (procedure, number, user))
        elif name == "withdraw":
            for table in ("relations", "grants"):
                sql.execute(f"DELETE FROM {table} WHERE procedure = ? AND set_no = ?", (procedure, number))
        elif name == "grant":
            span = body.get("first", 0), body.get("last", 99_999_999_999)
            sql.execute("INSERT INTO grants VALUES (?, ?, ?, ?, ?, ?)", (one, procedure, number, body["limit"], *span))
        elif name == "revoke":
            sql.execute("DELETE FROM grants WHERE user_no = ? AND procedure = ? AND set_no = ?", (one, procedure, number))
        elif name == "appoint":
            sql.execute("INSERT INTO certifiers VALUES (?, ?)", (one, procedure))
        elif name == "dismiss":
            sql.execute("DELETE FROM certifiers WHERE user_no = ? AND procedure = ?", (one, procedure))
        elif name == "enrol":
            sql.execute("INSERT INTO users VALUES (?, ?, ?, 0, 0, 0, 0)", (one, body["name"], int(body["officer"])))
        else:
            sql.execute("UPDATE users SET suspended = ? WHERE user_no = ?", (int(name == "suspend"), one))

    def raise_and_use(self, amount: int = 900_000) -> None:
        """A limit is raised, used and put back, within minutes."""
        key = {"user": TESS, "procedure": "post", "set": 1}
        self.command("carl", "revoke", **key)
        self.command("carl", "grant", **key, limit=999_999)
        self.post(amount)
        self.command("carl", "revoke", **key)
        self.command("carl", "grant", **key, limit=LIMIT)

    def later(self, seconds: int = 60) -> None:
        """Lets the time pass."""
        self.clock += seconds
        self.bank.moment = self.clock

    def post(self, amount: int, account: int = 101, user: int = TESS) -> int:
        """A post of a user, a minute later."""
        self.later()
        return self.bank.post(1, account, amount, user=user)

    def night(self, lines: list[str] | None = None) -> policy_file.Night:
        """A night an hour later: the copy has its moment, and the office takes the log, or these lines of it."""
        self.clock += 3600
        os.utime(self.office.copies / "present", (self.clock, self.clock))
        (self.office.settings.trail / "policy.log").write_text("".join(f"{it}\n" for it in (self.lines if lines is None else lines)))
        return policy_file.take(self.office.settings, self.office.settings.trail / "policy.log")
