"""Hands the bank over to the office: the newest copy that was checked, and the files of closed years.

What a folder beside the bank is goes by its content. From the copy back, each year is the file whose balances are the copy's openings
and whose proofs the copy has; so a folder may have any name. All is handed over at once, by a link that leads to it, so that nobody
sees the one without the other.
"""
import datetime
import hashlib
import json
import os
import re
import shutil
import sqlite3
import subprocess
import sys
import time
from collections.abc import Iterator
from contextlib import closing
from pathlib import Path
from typing import NamedTuple

from ..bank_file import checked, days_of, moment_of, opened
from ..files import write_whole
from ..places import BADGES, BANK, COPIES, OFFICE_COPIES

HANDED = "handed"
# Folders beside the bank that have no closed year: a file that is being made, and what was put aside for a copy.
NO_YEARS = re.compile(r"next|before\..*")


class NotHanded(Exception):
    """Nothing is handed over, and why."""


class Places(NamedTuple):
    """The folders: the bank's, that of its copies, and the office's; and the list of badges."""

    bank: Path = BANK
    copies: Path = COPIES
    office: Path = OFFICE_COPIES
    badges: Path = BADGES


class Books(NamedTuple):
    """What a file of the bank has, as far as it says which file came before: by account and by branch at its beginning and its end."""

    openings: dict[int, int]
    balances: dict[int, int]
    cash: dict[int, int]
    vaults: dict[int, int]
    proofs: frozenset[tuple[int, ...]]
    days: int
    first: int
    last: int
    lacks_earlier: bool


class Year(NamedTuple):
    """A folder beside the bank that may have a closed year: the sum of what is in it, its file as it is handed over, and its books."""

    folder: Path
    digest: str
    file: Path
    books: Books


def pairs(bank: sqlite3.Connection, text: str) -> dict[int, int]:
    """The rows of a SELECT of two columns."""
    return dict(bank.execute(text).fetchall())


def lacks_earlier(bank: sqlite3.Connection) -> bool:
    """Whether a file has a proof over entries of an earlier file: of a day before its own first entry, and not of none."""
    begins = pairs(bank, "SELECT branch, min(day) FROM entries GROUP BY branch")
    proofs = bank.execute("SELECT branch, day FROM proofs WHERE entries > 0").fetchall()
    return any(day < begins.get(branch, day + 1) for branch, day in proofs)


def books_of(file: Path) -> Books:
    """What a file of the bank has."""
    with closing(opened(file)) as bank:
        moments = "SELECT min(moment), max(moment) FROM (SELECT moment FROM entries UNION ALL SELECT moment FROM lines)"
        first, last = bank.execute(moments).fetchone()
        return Books(
            pairs(bank, "SELECT account, opening FROM accounts"),
            pairs(bank, "SELECT account, balance FROM accounts"),
            pairs(bank, "SELECT branch, cash FROM branches"),
            pairs(bank, "SELECT branch, vault FROM branches"),
            frozenset(bank.execute("SELECT branch, day, entries, balance, cash FROM proofs").fetchall()),
            days_of(bank),
            first or int(file.stat().st_mtime),
            last or int(file.stat().st_mtime),
            lacks_earlier(bank),
        )


def precedes(year: Books, later: Books) -> bool:
    """Whether a file was carried forward into another: what it ends with the other begins with, and its proofs are there. An account
    that was opened later begins with nothing."""
    return (
        all(later.openings.get(account) == balance for account, balance in year.balances.items())
        and not any(opening for account, opening in later.openings.items() if account not in year.balances)
        and year.vaults == later.cash
        and year.proofs <= later.proofs
    )


def years_before(present: Books, years: list[Year]) -> list[Year]:
    """The closed years that lead to the present file, the oldest first."""
    chain, left, later = list[Year](), list(years), present
    while found := [it for it in left if precedes(it.books, later)]:
        year = max(found, key=lambda it: (it.books.days, it.books.last))
        left.remove(year)
        chain.insert(0, year)
        later = year.books
    return chain


def name_of(books: Books) -> str:
    """The name of a year in the office: the dates of its first and last entry or cash line."""
    first, last = (datetime.date.fromtimestamp(it) for it in (books.first, books.last))
    return f"{first}-to-{last}"


def names_of(chain: list[Year]) -> list[str]:
    """The names of years in their order; of several of the same dates the later have a number."""
    names = list[str]()
    for year in chain:
        name = name_of(year.books)
        count = sum(it == name or it.startswith(f"{name}-no-") for it in names)
        names.append(f"{name}-no-{count + 1}" if count else name)
    return names


def digest_of(folder: Path) -> str:
    """The sum of a bank and its log, byte by byte."""
    found = hashlib.sha256()
    for part in ("bank", "bank-wal"):
        found.update(f"{part}\n".encode())
        if (folder / part).is_file():
            with open(folder / part, "rb") as file:
                while piece := file.read(1 << 20):
                    found.update(piece)
    return found.hexdigest()


def carry_out(folder: Path, *arguments: str) -> None:
    """Has the bank's program do something in a folder."""
    ran = subprocess.run(["bank_cli", *arguments], cwd=folder, stdin=subprocess.DEVNULL, capture_output=True, text=True, check=False)
    if ran.returncode:
        raise NotHanded(f"bank_cli {arguments[0]}: {(ran.stdout + ran.stderr).strip()}")


def taken_in(source: Path, room: Path) -> Path:
    """A copy of a year's file, with its log taken in, as `run` over no requests does, and checked."""
    room.mkdir()
    for part in ("bank", "bank-wal"):
        if (source / part).exists():
            shutil.copy2(source / part, room)
    (room / "nobody.csv").write_text("badge,user\n", encoding="ascii")
    carry_out(room, "run", "bank", "--badges", "nobody.csv", "--moment", "0")
    carry_out(room, "check", "bank")
    return room / "bank"


def handed_before(office: Path) -> dict[str, Path]:
    """The files of years that the office has, by the sum of what was in their folders."""
    folder = office / HANDED
    try:
        sums: dict[str, str] = json.loads((folder / "sums").read_text(encoding="ascii"))
    except FileNotFoundError:
        return {}
    return {digest: folder / "years" / name for digest, name in sums.items() if (folder / "years" / name).is_file()}


def years_of(places: Places, begun: Path) -> Iterator[Year | str]:
    """What the folders beside the bank have, each content once; of one that can't be taken, why."""
    before, seen = handed_before(places.office), set[str]()
    for folder in sorted(it for it in places.bank.iterdir() if it.is_dir() and not NO_YEARS.fullmatch(it.name)):
        if not (folder / "bank").is_file() or (digest := digest_of(folder)) in seen:
            continue
        seen.add(digest)
        try:
            file = before.get(digest) or taken_in(folder, begun / digest)
            yield Year(folder, digest, file, books_of(file))
        except (NotHanded, sqlite3.Error) as error:
            yield f"{folder}: {error}: bring this folder back from another copy"


def newest_copy(copies: Path) -> Path:
    """The newest copy that was checked."""
    found = checked(copies) if copies.exists() else []
    if not found:
        raise NotHanded(f"there is no checked copy in {copies} yet: it comes with `systemctl start bank-night`")
    return found[-1]


def put_present(copy: Path, to: Path) -> None:
    """The copy as the office has it, with its time: commands of the same second lie before or after it."""
    made = moment_of(copy / "bank")
    if made is None:
        raise NotHanded(f"{copy}: the name of a copy is its moment")
    shutil.copyfile(copy / "bank", to)
    os.utime(to, (made, made))


def put_years(chain: list[Year], to: Path) -> None:
    """The files of years by their names, and the sums of what they are of. A file that was handed over before is the same one."""
    (to / "years").mkdir()
    sums = dict[str, str]()
    for year, name in zip(chain, names_of(chain)):
        os.link(year.file, to / "years" / name)
        sums[year.digest] = name
    (to / "sums").write_text(json.dumps(sums), encoding="ascii")


def lead_to(office: Path, folder: Path) -> None:
    """Leads the office to what is handed over, in one step; of an earlier version's folder the parts are taken away first."""
    os.sync()
    for name in ("present", "years"):
        place = office / name
        if place.is_dir() and not place.is_symlink():
            shutil.rmtree(place)
        if not place.is_symlink():
            place.unlink(missing_ok=True)
            place.symlink_to(f"{HANDED}/{name}")
    link = office / "leads"
    link.unlink(missing_ok=True)
    link.symlink_to(folder.name)
    link.rename(office / HANDED)


def faults_of(present: Books, chain: list[Year], left: list[Year]) -> Iterator[str]:
    """What is not handed over though it should be: a year that is missing."""
    if (chain[0].books if chain else present).lacks_earlier:
        first = chain[0].folder if chain else "the newest copy"
        others = f"; {', '.join(str(it.folder) for it in left)} does not lead to it" if left else ""
        yield f"the year before {first} is missing{others}: bring its folder back, by any name, and `systemctl start bank-office-copy`"


def hand_over(places: Places) -> list[str]:
    """Hands over, and returns what is missing."""
    before = (places.office / HANDED).resolve().name
    for old in places.office.glob("handed-*"):
        if old.name != before:
            shutil.rmtree(old)
    begun = places.office / f"handed-{time.time_ns()}"
    begun.mkdir()
    try:
        put_present(newest_copy(places.copies), begun / "present")
        found = list(years_of(places, begun))
        present, years = books_of(begun / "present"), [it for it in found if isinstance(it, Year)]
        chain = years_before(present, years)
        put_years(chain, begun)
        for it in years:
            shutil.rmtree(begun / it.digest, ignore_errors=True)
        for file in (begun / "present", *(begun / "years").iterdir()):
            file.chmod(0o640)
        lead_to(places.office, begun)
    except BaseException:
        shutil.rmtree(begun, ignore_errors=True)
        raise
    return [it for it in found if isinstance(it, str)] + list(faults_of(present, chain, [it for it in years if it not in chain]))


def hand_badges(places: Places) -> None:
    """Hands over the list of badges."""
    write_whole(places.office / "badges.csv", places.badges.read_bytes(), 0o640)


def hand(places: Places) -> int:
    """Hands over all; the status is 1 if something is missing, which is said."""
    os.umask(0o027)
    try:
        faults = hand_over(places)
        hand_badges(places)
    except (NotHanded, OSError, sqlite3.Error) as error:
        faults = [f"nothing is handed over: {error}"]
    for it in faults:
        print(f"hand-copies: {it}", file=sys.stderr)
    return int(bool(faults))


def main() -> int:
    """Hands over from and to the places of the machine."""
    return hand(Places())
