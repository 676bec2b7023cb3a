"""Tellers who post one after another, and the book of what they sent and what was acknowledged."""
import json
import threading
import time
from collections import Counter
from collections.abc import Callable, Collection, Mapping
from pathlib import Path
from typing import NamedTuple

from branch.tests.branches import TELLERS, USERS, Client, context_of
from checks import wait_until
from branch.tests.pair.machines import MACHINES

HOST, ADDRESS = "bank.branch", "10.0.0.1"
# Who posts at the branch's address, with slips and without; and who asks each machine by its own address, with slips.
WITH_SLIPS, WITHOUT_SLIPS = TELLERS[:3], TELLERS[3:4]
PROBERS = {TELLERS[4]: "a", TELLERS[5]: "b"}
# Seconds between a teller's posts, twice as many at a machine's own address; and seconds to wait for a reply at each.
PAUSE, PATIENCE, PROBE_PATIENCE = 0.25, 8, 2


def client_of(authority: Path, who: str, address: str = ADDRESS, seconds: float = 60, host: str = HOST) -> Client:
    """A teller at an address, by a name of the branch, who waits at most these seconds for a reply."""
    return Client(context_of(authority, who), 1, 443, host, address, seconds, 2)


class Acknowledged(NamedTuple):
    """When a post was acknowledged, and at which machine's own address, if at one."""

    moment: float
    machine: str | None


class Book:
    """What was sent and acknowledged, by user and amount. Each amount is sent for one post alone. A file keeps it, so that a later
    trial goes on."""

    def __init__(self, path: Path) -> None:
        self.path = path
        self.lock = threading.Lock()
        self.got: dict[int, tuple[int, int]] = {}
        self.twice: list[str] = []
        self.open: set[tuple[int, int]] = set()
        self.last: Counter[int] = Counter()
        self.moments: list[Acknowledged] = []
        self.statuses: Counter[int] = Counter()
        self.count: Counter[int] = Counter() # of what was acknowledged in this trial, by user
        for line in path.read_text().splitlines() if path.exists() else ():
            word, *numbers = line.split()
            user, amount, *entry = map(int, numbers) if numbers else (0, 0)
            if word == "sent":
                self.take(user, amount)
            elif word == "got":
                self.give(user, amount, entry[0])
            else:
                self.got.clear()
                self.open.clear()

    def write(self, *words: object) -> None:
        """Appends a line to the file, by one call."""
        with open(self.path, "ab", buffering=0) as file:
            file.write((" ".join(map(str, words)) + "\n").encode())

    def take(self, user: int, amount: int) -> None:
        """An amount is under way."""
        self.open.add((user, amount))
        self.last[user] = max(self.last[user], amount)

    def give(self, user: int, amount: int, entry: int) -> None:
        """An amount is acknowledged."""
        if self.got.get(entry, (user, amount)) != (user, amount):
            self.twice.append(f"entry {entry} for {self.got[entry]} and for {user, amount}")
        self.got[entry] = user, amount
        self.open.discard((user, amount))

    def next(self, user: int, has_slips: bool) -> int:
        """The next amount of a user: with slips the one under way, if there is one."""
        with self.lock:
            under_way = [amount for it, amount in self.open if it == user] if has_slips else []
            amount = under_way[0] if under_way else self.last[user] + 1
            self.take(user, amount)
            if not under_way:
                self.write("sent", user, amount)
            return amount

    def acknowledge(self, user: int, amount: int, entry: int, machine: str | None) -> None:
        """Notes that a post was acknowledged."""
        with self.lock:
            self.give(user, amount, entry)
            self.count[user] += 1
            self.moments.append(Acknowledged(time.monotonic(), machine))
            self.write("got", user, amount, entry)

    def begin_anew(self) -> None:
        """The bank goes on in a new file, whose entries have numbers from 1 on; what is in the old one was compared before."""
        with self.lock:
            self.got.clear()
            self.open.clear()
            self.write("anew")

    def forget_pauses(self) -> None:
        """Pauses are looked for from the last acknowledgment on."""
        with self.lock:
            self.moments[:] = [it for it in self.moments if it.machine is None][-1:]

    def unanswered(self, users: set[int]) -> set[tuple[int, int]]:
        """What these users sent and nobody acknowledged."""
        with self.lock:
            return {it for it in self.open if it[0] in users}

    def longest_pause(self, since: float) -> float:
        """The longest time without an acknowledgment at the branch's address, from a moment on."""
        with self.lock:
            times = [it.moment for it in self.moments if it.machine is None and it.moment >= since - 1]
        return max((later - earlier for earlier, later in zip(times, times[1:])), default=float("nan"))

    def machines_in_turn(self, since: float) -> list[str]:
        """Which machines acknowledged at their own address from a moment on, each once per turn."""
        with self.lock:
            found = [it.machine for it in self.moments if it.machine and it.moment >= since]
        return [name for i, name in enumerate(found) if i == 0 or found[i - 1] != name]


class Load:
    """All tellers, each with a thread of its own, and a client for the branch's address, or for that of a machine."""

    def __init__(self, book: Book, client_of: Callable[[str, str | None], Client], bare: Collection[str],
                 probers: Mapping[str, str], pause: float) -> None:
        self.book, self.client_of, self.bare, self.pause = book, client_of, bare, pause
        self.going, self.idle = threading.Event(), dict.fromkeys(TELLERS, False)
        for who in TELLERS:
            threading.Thread(target=self.work, args=(who, probers.get(who)), daemon=True).start()

    def work(self, who: str, own: str | None) -> None:
        """Posts as long as that is asked, at the own address of a machine, if there is one."""
        client, machine = self.client_of(who, own), own
        while True:
            self.idle[who] = not self.going.is_set()
            if self.idle[who]:
                client.close()
                self.going.wait()
                continue
            amount = self.book.next(USERS[who], who not in self.bare)
            while not self.post(client, who, amount, machine) and who not in self.bare:
                time.sleep(self.pause * (2 if machine else 1))
                if machine and not self.going.is_set():
                    # A reply may still be due: it is asked for at the branch's address.
                    client.close()
                    client, machine = self.client_of(who, None), None
            if machine != own:
                client.close()
                client, machine = self.client_of(who, own), own
            time.sleep(self.pause * (2 if machine else 1))

    def post(self, client: Client, who: str, amount: int, machine: str | None) -> bool:
        """Sends a post once; whether it was acknowledged."""
        i = TELLERS.index(who)
        body = {"account": 101 + i, "branch": 1, "delta": amount, "teller": 11 + i}
        status, text = client.ask("/do/post", body, None if who in self.bare else amount)
        with self.book.lock:
            self.book.statuses[status] += 1
        if status != 200:
            return False
        self.book.acknowledge(USERS[who], amount, json.loads(text)["entry"], machine)
        return True

    def start(self) -> None:
        """Has all post."""
        self.going.set()

    def stop(self, seconds: float) -> None:
        """Has all stop, once what was sent with slips is acknowledged."""
        self.going.clear()
        wait_until(lambda: all(self.idle.values()), seconds, f"all is acknowledged ({self.idle})", 0.1)


def load_of(authority: Path, book: Book) -> Load:
    """The tellers of a pair, by its authority."""
    def client(who: str, machine: str | None) -> Client:
        place = (f"10.0.2.{MACHINES[machine]}", PROBE_PATIENCE) if machine else (ADDRESS, PATIENCE)
        return client_of(authority, who, *place)

    return Load(book, client, WITHOUT_SLIPS, PROBERS, PAUSE)
