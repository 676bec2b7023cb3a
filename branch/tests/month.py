"""A bank's days and nights without a front: requests by `bank_cli run` at a moment each, the nights by the scripts of the units, and the
lines that a front would have written of the requests."""
import contextlib
import json
import random
import shutil
import sqlite3
import subprocess
import time
from collections.abc import Callable, Sequence
from pathlib import Path
from typing import Any, NamedTuple

from branch.tests.branches import TELLERS, USERS, Files, Machine, write_lists
from checks import Wrong, require

BADGES = {user: badge for badge, user in USERS.items()}
SUPERVISOR = {"post": 999999, "release": 999999, "new-account": 0, "correct": 999999}


class Asked(NamedTuple):
    """A request: its badge, path and body, and a slip, or 0."""

    badge: str
    path: str
    body: dict[str, Any] | str
    slip: int = 0


class Month(Machine):
    """A bank with its copies and the lines of its trail."""

    def __init__(self, files: Files, name: str) -> None:
        super().__init__(files, name)
        self.lists = self.folder / "lists"
        write_lists(self.lists)
        self.badges.symlink_to(self.lists / "badges.csv")
        with open(self.lists / "triples.csv", "a", encoding="utf-8") as file:
            file.writelines(f"13,{name},1,{limit}\n" for name, limit in SUPERVISOR.items() if name != "post")
            file.writelines(f"{USERS[it]},move-cash,1,99999999\n{USERS[it]},correct,1,999999\n" for it in TELLERS)
        sets = self.lists / "sets.csv"
        sets.write_text(sets.read_text().replace("1,account,101,106", "1,account,101,120")) # with room for new accounts
        self.file, self.chance = self.bank / "bank", random.Random(1)
        self.clock: Callable[[], float] = time.time
        self.sessions: dict[str, int] = {}
        self.drawers: dict[str, int] = {}
        self.slips = self.entries = 0
        (self.folder / "etc/bank-seal").mkdir()
        self.said("seal", "begin")
        self.cli("init", self.file, self.lists, "--sums")

    def cli(self, *arguments: Any, given: bytes = b"") -> bytes:
        """What bank_cli writes, which has to succeed."""
        ran = subprocess.run([self.files.top / "bank_cli", *arguments], capture_output=True, input=given, check=False)
        require((ran.returncode, ran.stderr), (0, b""), f"bank_cli {arguments[0]}")
        return ran.stdout

    # ---- days

    def bytes_of(self, asked: Asked) -> bytes:
        """A request as the front passes it on."""
        text = (asked.body if isinstance(asked.body, str) else json.dumps(asked.body)).encode()
        slip = f"Bank-Slip: {asked.slip}\r\n" if asked.slip else ""
        return (f"POST {asked.path} HTTP/1.1\r\nHost: bank\r\nBank-Badge: {asked.badge}\r\nBank-Session: {self.sessions.get(asked.badge, 1)}\r\n"
                f"{slip}Content-Length: {len(text)}\r\n\r\n").encode() + text

    def ask(self, *asked: Asked, is_traced: bool = True) -> list[dict[str, Any]]:
        """The replies to requests, which all have to be carried out; the trail gets their lines. (A user's next session is one more
        than the one before.)"""
        begun, given = self.clock(), b""
        for it in asked:
            if it.path == "/session":
                self.sessions[it.badge] = self.sessions.get(it.badge, 0) + 1
            given += self.bytes_of(it)
        said = self.cli("run", self.file, "--badges", self.badges, "--moment", str(int(begun)), given=given)
        replies, ended = [], self.clock()
        for it, reply in zip(asked, said.split(b"HTTP/1.1 ")[1:], strict=True):
            head, _, body = reply.partition(b"\r\n\r\n")
            require(head[:3], b"200", f"{it}: {body!r}")
            replies.append(json.loads(body))
        if is_traced:
            for it in asked:
                self.trace(it, begun, ended)
        return replies

    def trace(self, asked: Asked, begun: float, ended: float, status: str = "200") -> None:
        """Adds a request's line to the trail, and to the log of the policy."""
        text = asked.body if isinstance(asked.body, str) else json.dumps(asked.body)
        line = {"time": time.strftime("%Y-%m-%dT%H:%M:%S+00:00", time.gmtime(ended)), "ended": round(ended, 3),
                "seconds": round(ended - begun, 3), "certificate": f"{USERS[asked.badge]:040X}", "badge": asked.badge,
                "session": str(self.sessions.get(asked.badge, 1)), "slip": str(asked.slip or ""), "verified": "SUCCESS",
                "method": "POST", "path": asked.path, "status": status, "bank": status}
        names = ["audit", *(["policy"] if asked.path.startswith("/policy/") else [])]
        for name in names:
            with open(self.trail / f"{name}.log", "a", encoding="utf-8") as file:
                file.write(json.dumps({**line, "body": text} if name == "policy" else line, separators=(",", ":")) + "\n")

    def slip(self) -> int:
        self.slips += 1
        return self.slips

    def post(self, who: str, delta: int, slip: int = 0, account: int | None = None) -> Asked:
        """A post at a teller's own drawer, which takes the cash."""
        i = TELLERS.index(who)
        self.entries, self.drawers[who] = self.entries + 1, self.drawers.get(who, 0) + delta
        return Asked(who, "/do/post", {"account": account or 101 + i, "branch": 1, "delta": delta, "teller": 11 + i}, slip)

    def opening(self, *tellers: str) -> list[Asked]:
        """The sessions of tellers, with their drawers, and of the supervisor."""
        self.drawers = dict.fromkeys(tellers, 1000)
        on = [Asked(it, "/do/drawer-on", {"branch": 1, "cash": 1000, "teller": 11 + TELLERS.index(it)}) for it in tellers]
        return [*(Asked(it, "/session", "") for it in (*tellers, "sue")), *on]

    def closing(self) -> list[Asked]:
        """The drawers put off, as they are, and the day closed."""
        off = [Asked(it, "/do/drawer-off", {"branch": 1, "counted": cash, "teller": 11 + TELLERS.index(it)}) for it, cash in self.drawers.items()]
        return [*off, Asked("sue", "/do/close-day", {"branch": 1}, self.slip())]

    def moves(self) -> list[Asked]:
        """Two transfers, a correction between them, and cash from the vault."""
        amount, first = self.chance.randint(1, 9999), self.entries + 1
        transfer = {"amount": amount, "branch": 1, "source": 101, "target": 102, "teller": 11}
        correction = {"branch": 1, "entry": first, "account": 101, "other": 102, "teller": 12, "delta": -amount}
        self.entries += 6
        self.drawers["amy"] += 5
        return [Asked("amy", "/do/transfer", transfer, self.slip()), Asked("ben", "/do/correct", correction, self.slip()),
                Asked("amy", "/do/move-cash", {"amount": 5, "branch": 1, "source": 0, "target": 11}),
                Asked("amy", "/do/transfer", {**transfer, "source": 102, "target": 103}, self.slip())]

    def day(self, posts: int = 4, closed: bool = True, more: Sequence[Asked] = ()) -> list[dict[str, Any]]:
        """A day of three tellers: posts with and without slips, transfers, a correction, cash, and more; then it is closed. The replies."""
        tellers, asked = TELLERS[:3], []
        asked += self.opening(*tellers)
        for who in tellers:
            slips = [self.slip() if it % 2 else 0 for it in range(posts)]
            asked += [self.post(who, self.chance.randint(1, 99999), it, 101 + self.chance.randrange(3)) for it in slips]
        return self.ask(*asked, *self.moves(), *more, *(self.closing() if closed else []))

    # ---- nights

    def audit(self, before: Path, now: Path, lines: Sequence[str] | None = None) -> list[str]:
        """What bank-audit says of two copies and the trail, or other lines in its place."""
        trail = self.trail / "audit.log"
        if lines is not None:
            trail = self.folder / "lines"
            trail.write_text("".join(f"{it}\n" for it in lines))
        ran = self.run("audit", "--before", before / "bank", now / "bank", self.badges, trail)
        require((ran.returncode, ran.stderr), (1 if ran.stdout else 0, ""), "bank-audit")
        return ran.stdout.splitlines()

    def accept(self, *given: str) -> int:
        """The status of root's word that what differs is accepted."""
        return self.run("accept", *given).returncode

    def night(self) -> tuple[int, str]:
        """A night: a copy is made, and checked. The status of the check, and what it says."""
        require(self.status("units/keep-copy"), (0, ""), "keep-copy")
        return self.status("units/check-copy")

    def good_night(self) -> Path:
        """A night in which nothing is said. The copy."""
        status, said = self.night()
        require((status, set(said.splitlines())), (0, {"books hold"}), f"the check of the night's copy: {said}")
        return self.checked()[-1]

    def checked(self) -> list[Path]:
        """The copies that were checked, the oldest first."""
        return sorted(it for it in self.copies.iterdir() if it.name.endswith("-checked"))

    def forward(self, year: str) -> None:
        require(self.status("forward", year), (0, "carried forward\n"), "bank-forward")
        self.entries = 0

    def opened(self) -> contextlib.closing[sqlite3.Connection]:
        """The bank's file, for reading, while nothing serves it."""
        return contextlib.closing(sqlite3.connect(f"file:{self.file}?mode=ro&immutable=1", uri=True))

    def restore(self, copy: Path) -> None:
        """Takes a copy for the bank's file. Sessions and entries go on from there."""
        for part in self.bank.glob("bank*"):
            part.unlink()
        shutil.copy(copy / "bank", self.file)
        with self.opened() as found:
            self.sessions = {BADGES[user]: session for user, session in found.execute("SELECT user_no, session FROM users")}
            self.entries, = found.execute("SELECT entries FROM branches").fetchone()

    def hold(self) -> None:
        """Passes if the bank's books hold."""
        said = self.cli("check", self.file)
        if said != b"books hold\n":
            raise Wrong(f"check: {said!r}")
