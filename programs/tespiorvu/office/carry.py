"""Carries out approved runs as any client of the bank: over https, by a certificate of its own, each transfer with its slip.

A transfer that got no reply is sent again with the same slip, and acts once. What the bank refuses is kept with its reply, and
the run goes on with the next account.
"""
import fcntl
import http.client
import json
import sqlite3
import ssl
import time
from collections.abc import Iterator
from contextlib import contextmanager
from pathlib import Path
from typing import NamedTuple, Protocol
from urllib.parse import urlsplit

from . import runs
from .languages import Term
from .settings import Settings
from .store import Refused

# How often, and how many seconds apart, what got no reply is sent again before the run is left for later.
TRIES, PAUSE = 60, 2.0
SECONDS = 90


class Unanswered(Exception):
    """The bank gave no reply of its own: the run goes on another time, with the same slips."""


class Reply(NamedTuple):
    """A reply of the bank."""

    status: int
    body: dict[str, object]


def decides(reply: Reply | None) -> bool:
    """Whether a reply says that a request was done or refused for good. No reply of the front does, nor F1, F3 or F4."""
    if reply is None:
        return False
    if reply.status == 200:
        return True
    fault = reply.body.get("fault")
    return "rule" in reply.body or fault == "F2" or isinstance(fault, str) and fault.startswith("M")


class Asked(Protocol):
    """What can be asked for an operation."""

    def ask(self, name: str, body: dict[str, int], slip: int = 0) -> Reply:
        """The reply that decides it."""


class Bank:
    """The bank as the service's own user reaches it."""

    def __init__(self, settings: Settings, pause: float = PAUSE) -> None:
        context = ssl.create_default_context(cafile=str(settings.authority))
        context.load_cert_chain(str(settings.certificate), str(settings.key))
        address = urlsplit(settings.front)
        if address.scheme != "https" or not address.hostname:
            raise Refused("front is an address of https, and not {front}", front=settings.front)
        self.connection = http.client.HTTPSConnection(address.hostname, address.port or 443, timeout=SECONDS, context=context)
        self.session, self.pause = 0, pause

    def once(self, path: str, body: str, fields: dict[str, str]) -> Reply | None:
        """Asks once; nothing where no reply came that can be read."""
        try:
            self.connection.request("POST", path, body.encode(), fields)
            got = self.connection.getresponse()
            found = json.loads(got.read())
        except (OSError, http.client.HTTPException, ValueError):
            self.connection.close()
            return None
        return Reply(got.status, found) if isinstance(found, dict) else None

    def until_decided(self, path: str, body: str, fields: dict[str, str]) -> Reply:
        """Asks the very same until a reply decides it."""
        for _ in range(TRIES):
            reply = self.once(path, body, fields)
            if reply is not None and decides(reply):
                return reply
            time.sleep(self.pause)
        raise Unanswered(f"{path} got no reply of the bank")

    def open_session(self) -> None:
        """Opens a session of the service's user, which ends the one before."""
        reply = self.until_decided("/session", "", {})
        number = reply.body.get("session")
        if reply.status != 200 or not isinstance(number, int):
            raise Refused("The bank opens no session: {reply}", reply=json.dumps(reply.body))
        self.session = number

    def ask(self, name: str, body: dict[str, int], slip: int = 0) -> Reply:
        """An operation, in a new session where the present one is known no more."""
        for _ in range(2):
            if not self.session:
                self.open_session()
            fields = {"Bank-Session": str(self.session), **({"Bank-Slip": str(slip)} if slip else {})}
            reply = self.until_decided(f"/do/{name}", json.dumps(body), fields)
            if reply.body.get("rule") != 1:
                return reply
            self.session = 0
        raise Refused("The bank does not know the service's badge in a session that it has just opened")


@contextmanager
def alone(file: Path) -> Iterator[None]:
    """One carrier at a time."""
    with open(file.with_name(file.name + "-carrier"), "w", encoding="ascii") as lock:
        try:
            fcntl.flock(lock, fcntl.LOCK_EX | fcntl.LOCK_NB)
        except BlockingIOError as error:
            raise Refused("Runs are being carried out already") from error
        yield


def carry_out(found: sqlite3.Connection, bank: Asked, run: int) -> tuple[int, int]:
    """Carries out an approved run from the first transfer without a reply on; how many of all are done, and how many refused."""
    row = runs.run_of(found, run)
    if row["state"] != "approved":
        raise Refused("Run {run} is {state}", run=run, state=Term(row["state"]))
    drawer = {"branch": row["branch"], "teller": row["teller"]}
    # A transfer needs a drawer that its user holds. It has no cash. If it is on already, the bank refuses this.
    bank.ask("drawer-on", {**drawer, "cash": 0})
    runs.note_begun(found, run)
    while (line := runs.next_waiting(found, run)) is not None:
        body = {**drawer, "amount": line.amount, "source": line.source, "target": line.target}
        reply = bank.ask("transfer", body, line.slip)
        runs.strike(found, line, reply.status == 200, json.dumps(reply.body, sort_keys=True))
    bank.ask("drawer-off", {**drawer, "counted": 0})
    runs.finish(found, run)
    lines = runs.lines_of(found, run)
    return sum(it.state == "done" for it in lines), sum(it.state == "refused" for it in lines)
