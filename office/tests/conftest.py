"""What the tests share: an office over copies of a bank, and its pages as a browser asks for them."""
import json
import re
import sqlite3
from collections.abc import Callable, Iterator
from contextlib import closing, contextmanager
from decimal import Decimal
from pathlib import Path
from typing import Any

import hypothesis
import pytest

from office.tests.bank_file import BankFile
from tespiorvu.office import register
from tespiorvu.office.commands import main
from tespiorvu.office.languages import Sentence, as_kept
from tespiorvu.office.runs_file import opened_runs
from tespiorvu.office.settings import Scheme, Settings
from tespiorvu.office.store import changing, opened
from tespiorvu.office.web import make_app
from tespiorvu.office.web_runs import make_runs_app

hypothesis.settings.register_profile("office", database=None, deadline=None)
hypothesis.settings.load_profile("office")
EVERYTHING = [(1, 1, 999_999), (2, 1, 999), (3, 1, 99), (4, 1, 99), (5, 1, 999), (6, 1, 99)]
BRANCH_1 = [(1, 101, 199), (2, 11, 12), (3, 1, 1), (4, 1, 1), (5, 11, 12), (6, 1, 1)]
# What a run keeps of why it made a transfer.
INTEREST = as_kept(Sentence("interest of {amount} at {rate} %", amount=Decimal("0.77"), rate=Decimal("1.25")))
BADGES = {"olga": 1, "carl": 2, "kim": 3, "cora": 4, "tess": 7, "tom": 8, "sue": 9, "sam": 10, "sam2": 10, "cai": 11,
          "far": 20, "office": 50}  # fmt: skip
PROGRAMS = Path(__file__).resolve().parents[2] / "programs"
POST: dict[str, Any] = {"procedure": "post", "account": 101, "branch": 1, "delta": 200_000, "teller": 11}
PUTS: dict[type, Callable[..., bool]] = {
    register.Holder: register.put_holder, register.Holding: register.put_holding, register.User: register.put_user,
}  # fmt: skip


@contextmanager
def earlier_register(file: Path) -> Iterator[sqlite3.Connection]:
    """A register of the first version, to be filled."""
    with closing(sqlite3.connect(file)) as found, found:
        found.executescript(Path(__file__).with_name("register-0.sql").read_text(encoding="utf-8"))
        yield found


def make_program(file: Path, text: str) -> None:
    """A program of the shell, in the place of one of the machine's."""
    file.write_text(f"#!/bin/sh\n{text}\n")
    file.chmod(0o755)


class Office:
    """An office: its settings, its copies, and its pages."""

    def __init__(self, folder: Path) -> None:
        self.root = folder / "root"
        self.copies = self.root / "var/lib/bank-office-copies"
        (self.copies / "years").mkdir(parents=True)
        (self.copies / "badges.csv").write_text("badge,user\n" + "".join(f"{badge},{user}\n" for badge, user in BADGES.items()))
        self.settings = Settings(
            folder / "office", self.copies, frozenset({"kim"}), frozenset({"sue", "sam", "sam2", "carl"}),
            runs=folder / "runs-of-their-own" / "runs", trail=folder / "trail", reasons=folder / "reasons",
            morning=self.root / "var/lib/bank-office-morning",
            schemes=(Scheme("interest", 1, 101, 199, 900, 90, millionths=12_500), Scheme("fee", 1, 101, 199, 900, 90, cents=250)),
        )  # fmt: skip
        self.settings.runs.parent.mkdir()
        self.app, self.runs_app = make_app(self.settings), make_runs_app(self.settings)

    def bank(self, name: str = "present", before: BankFile | None = None) -> BankFile:
        """A bank whose file is a copy, and may go on from a year before."""
        bank = BankFile(self.copies / ("present" if name == "present" else f"years/{name}"), before)
        for user, ranges in ((7, BRANCH_1), (8, BRANCH_1), (9, EVERYTHING), (10, EVERYTHING)):
            bank.grant(user, [1, 2, 3, 9, 10, 11] if user < 9 else [1, 2, 9, 10, 11], ranges, 100_000)
        bank.grant(9, [8, 12], EVERYTHING)
        bank.grant(10, [8, 12], EVERYTHING)
        return bank

    def keep(self, *rows: register.Holder | register.Holding | register.User, badge: str = "kim") -> None:
        """Puts rows into the register."""
        with self.opened() as found, changing(found):
            for it in rows:
                PUTS[type(it)](found, badge, it)

    def note(self, row: str, number: int, kind: str, text: str = "why", day: int = 1) -> None:
        """Tess's note on a row of a day of branch 1."""
        with self.opened() as found:
            columns = "moment, badge, branch, day, row, number, kind, text"
            values = 1, "tess", 1, day, row, number, kind, text
            found.execute(f"INSERT INTO notes ({columns}) VALUES (?, ?, ?, ?, ?, ?, ?, ?)", values)

    def pay_interest(self, bank: BankFile, first: str, last: str) -> None:
        """A run pays interest to 101, as the bank's file and that of reasons have it."""
        number = bank.transfer(1, 900, 101, 77, user=50)
        reply = json.dumps({"branch": 1, "first": number, "second": number + 1, "source": 0, "target": 0}).encode()
        bank.bank.execute("INSERT INTO slips (user_no, slip, form, reply) VALUES (50, 100001, 2, ?)", (reply,))
        lines = [[100_001, "interest", first, last, INTEREST, 900, 101, 77]]
        self.settings.reasons.write_text(json.dumps({"user": 50, "lines": lines}))

    def ask(self, badge: str, path: str, method: str = "GET", **more: Any) -> Any:
        """A request of a badge's browser, by the one or the other service, as the front leads it."""
        app = self.runs_app if path.startswith("/office/runs") else self.app
        return app.test_client().open(path, method=method, headers={"Bank-Badge": badge, **more.pop("headers", {})}, **more)

    def form(self, badge: str, path: str, **fields: Any) -> Any:
        """A form of a page, with its token."""
        page = "/office/runs" if path.startswith("/office/runs") else "/office/"
        token = re.search(r'name="token" value="([^"]+)"', self.ask(badge, page).text)
        return self.ask(badge, path, "POST", data={"token": token[1] if token else "", **fields})

    def api(self, badge: str, path: str, body: Any) -> Any:
        """A request of the teller's page."""
        return self.ask(badge, f"/office/api/{path}", "POST", json=body, headers={"Desk-Badge": badge})

    def command(self, *arguments: str, more: str = "") -> int:
        """The status of a command, by a file of these settings, which may have more."""
        it, file = self.settings, self.settings.file.with_name("settings.toml")
        paths = "".join(f'{name} = "{getattr(it, name)}"\n' for name in ("file", "copies", "runs", "trail", "reasons"))
        file.write_text(f'{more}{paths}keepers = ["kim"]\napprovers = ["sue", "sam"]\n')
        return main(["--settings", str(file), *arguments])

    def change(self, text: str, copy: str = "present") -> None:
        """Changes rows of a copy."""
        with closing(sqlite3.connect(self.copies / copy)) as found, found:
            found.execute(text)

    def opened(self) -> Any:
        """The office's file."""
        return opened(self.settings.file)

    def opened_runs(self) -> Any:
        """The file of runs."""
        return opened_runs(self.settings)


@pytest.fixture
def office(tmp_path: Path) -> Iterator[Office]:
    """An office."""
    yield Office(tmp_path)
