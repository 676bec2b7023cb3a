"""Seals the closed days of a bank, in a chain, and verifies such seals. The package has it as bank-seal.

    bank-seal begin
    bank-seal night
    bank-seal newest
    bank-seal stamp URL
    bank-seal verify --paper CHARACTERS [--trail FILE]... [--stamps AUTHORITY] SEALS PUBLIC FILE...

`begin` makes the key, of a user of its own, as root. `night`, which systemd starts after the check of the night's copy, makes a seal of
each day that was closed and has none. `newest` prints the last one's 24 hexadecimal characters, which belong on paper. `stamp` has a
server of RFC 3161 stamp each seal that has no time stamp; `verify` is verify_seals.py.

A seal is a line of JSON: number; sum of the seal before; branch, day, copy; sums over the day's rows in the order of their keys, over
what never changes of the accounts, over the openings and over the policy's five lists; which bytes of the audit trail and of the
policy's log are new, by the sum of their file's first line, as the files are renamed; and what bank-accept took since. Its signature
is beside it.
"""
import json
import os
import re
import subprocess
import sys
import tempfile
from collections.abc import Callable, Iterator
from pathlib import Path
from sqlite3 import Connection
from typing import Any

from ..bank_file import checked, opened, version_of
from ..files import become, logs_of, name_whole, write_whole
from ..places import COPIES, LOGS, ROOT, SEALS
from . import verify_seals

KEY = ROOT / "etc/bank-seal/seal.key"
USER = "bank-seal"
TRAILS = ("audit", "policy")
# What makes and verifies the sums. The types stand here, as that file has none.
accounts_of: Callable[[Connection, set[int]], str] = verify_seals.accounts_of
characters: Callable[[str], str] = verify_seals.characters
days_of: Callable[[Connection], dict[tuple[int, int], dict[str, str]]] = verify_seals.days_of
line: Callable[[dict[str, Any]], bytes] = verify_seals.line
named: Callable[[dict[str, str], Connection], dict[str, str]] = verify_seals.named
openssl: Callable[..., bool] = verify_seals.openssl
read: Callable[[Path], bytes] = verify_seals.read
seals_in: Callable[[Path], list[Path]] = verify_seals.seals_in
sum_of: Callable[[bytes], str] = verify_seals.sum_of
verify: Callable[[list[str]], int] = verify_seals.main


class Refused(Exception):
    """Why no seal is made."""


def begin() -> None:
    """Makes the key, which nobody else reads, and leaves its public half with the seals."""
    if KEY.exists():
        raise Refused(f"{KEY} is there already")
    become(USER)
    os.umask(0o077)
    begun = KEY.with_suffix(".begun")
    if not openssl("genpkey", "-algorithm", "ed25519", "-out", begun):
        raise Refused("openssl made no key")
    begun.chmod(0o400)
    if not openssl("pkey", "-in", begun, "-pubout", "-out", SEALS / "public.pem"):
        raise Refused("openssl wrote no public key")
    (SEALS / "public.pem").chmod(0o644)
    begun.rename(KEY)
    print(f"the public key: {characters(sum_of((SEALS / 'public.pem').read_bytes()))}")


def chain() -> list[dict[str, Any]]:
    """The seals that are there, each the next of the one before."""
    found: list[dict[str, Any]] = []
    before = ""
    for number, file in enumerate(seals_in(SEALS), 1):
        seal = json.loads(file.read_text(encoding="utf-8"))
        if (file.stem, seal["seal"], seal["before"]) != (f"{number:06}", number, before):
            raise Refused(f"{file} is not the next of the chain")
        found.append(seal)
        before = sum_of(file.read_bytes())
    return found


# ---- the trail

def head_of(text: bytes) -> str:
    """The name of a file of a trail: the sum of its first line."""
    return sum_of(text[: text.find(b"\n") + 1])


def is_at(file: Path, head: str) -> bool:
    """Whether a file begins with a line of this sum."""
    return head_of(read(file)) == head


def new_bytes(name: str, last: dict[str, Any] | None) -> list[dict[str, Any]]:
    """Which bytes of a trail are new since the last range, whole lines alone. If the file of that is not there any more, what is there
    begins with a mark."""
    files, found = (logs_of(name) if LOGS.exists() else []), []
    place = next((number for number, it in reversed(list(enumerate(files))) if last and is_at(it, last["file"])), None)
    if last and place is None:
        found.append({"file": last["file"], "from": last["to"], "to": last["to"], "sum": sum_of(b""), "is_gone": True})
    for number, it in enumerate(files[place or 0 :]):
        text = read(it)
        begun = last["to"] if last and place is not None and number == 0 else 0
        end = text.rfind(b"\n") + 1
        if end > begun or number == 0 and place is not None:
            found.append({"file": head_of(text), "from": begun, "to": end, "sum": sum_of(text[begun:end])})
    return found


def last_range(name: str, made: list[dict[str, Any]]) -> dict[str, Any] | None:
    """The last range of a trail that has a seal."""
    return next((it["trail"][name][-1] for it in reversed(made) if it["trail"][name]), None)


# ---- the copies

def unsealed(made: list[dict[str, Any]], bank: Connection) -> list[tuple[int, int]]:
    """The branches and days that are closed and have no seal. A chain begins with the year that its first copy is in."""
    last = {it["branch"]: it["day"] for it in made}
    first = dict(bank.execute("SELECT branch, min(day) FROM (SELECT branch, day FROM entries UNION ALL SELECT branch, day FROM lines) GROUP BY branch"))
    return [(branch, day) for branch, day in bank.execute("SELECT branch, day FROM proofs ORDER BY day, branch")
            if day >= (last[branch] + 1 if branch in last else first.get(branch, day + 1))]


def accepted(copies: list[Path]) -> list[dict[str, Any]]:
    """What root's word took in these copies, with the sum of what differed."""
    return [{**json.loads((it / "accepted").read_text(encoding="utf-8")), "copy": it.name, "differs": sum_of((it / "differs").read_bytes())}
            for it in copies if (it / "accepted").exists()]


def content(made: list[dict[str, Any]], bank: Connection, day: tuple[int, int], taken: list[dict[str, Any]]) -> dict[str, Any]:
    """What the next seal says of a day, but for its place in the chain."""
    accounts = {it for it, in bank.execute("SELECT account FROM accounts")}
    new = sorted(accounts.difference(*(it["accounts"]["new"] for it in made)))
    policy = {"version": version_of(bank), "lists": named(verify_seals.POLICY, bank)}
    return {"branch": day[0], "day": day[1], "rows": days_of(bank)[day], "accounts": {"new": new, "sum": accounts_of(bank, accounts)},
            "opening": named(verify_seals.OPENING, bank), "policy": policy,
            "trail": {it: new_bytes(it, last_range(it, made)) for it in TRAILS}, "accepted": taken}


def write(seal: dict[str, Any]) -> Path:
    """Writes a seal, with its signature first, so that one which has its name is whole. Its file."""
    file = SEALS / f"{seal['seal']:06}.json"
    with tempfile.TemporaryDirectory(dir=SEALS) as folder:
        begun = Path(folder) / file.name
        begun.write_bytes(line(seal))
        if not openssl("pkeyutl", "-sign", "-rawin", "-inkey", KEY, "-in", begun, "-out", begun.with_suffix(".sig")):
            raise Refused("openssl did not sign")
        for it in (begun.with_suffix(".sig"), begun):
            name_whole(it, SEALS / it.name, 0o644)
    return file


def night() -> None:
    """Seals each day that was closed and has no seal, of each copy that was checked since the last one was made."""
    made = chain()
    copies = checked(COPIES)
    copies = [it for it in copies if it.name > made[-1]["copy"]] if made else copies[-1:]
    taken: list[dict[str, Any]] = []
    for copy in copies:
        bank, taken = opened(copy / "bank"), taken + accepted([copy])
        for day in unsealed(made, bank):
            before = sum_of(seals_in(SEALS)[-1].read_bytes()) if made else ""
            made.append({"seal": len(made) + 1, "before": before, "copy": copy.name, **content(made, bank, day, taken)})
            print(said_of(made[-1], write(made[-1])))
            taken = []


def said_of(seal: dict[str, Any], file: Path) -> str:
    """What is printed of a seal, and belongs on paper."""
    gone = "".join(f"; a file of {name}.log is gone" for name in TRAILS if any(it.get("is_gone") for it in seal["trail"][name]))
    return f"seal {seal['seal']}, branch {seal['branch']}, day {seal['day']}: {characters(sum_of(file.read_bytes()))}{gone}"


def newest() -> None:
    """Prints the last seal's characters."""
    made = chain()
    print(said_of(made[-1], seals_in(SEALS)[-1]) if made else "no day is sealed")


def unstamped() -> Iterator[Path]:
    """The seals that have no time stamp."""
    return (it for it in seals_in(SEALS) if not it.with_suffix(".tsr").exists())


def stamp(url: str) -> None:
    """Has a server stamp each seal that has no time stamp yet."""
    become(USER)
    for file in unstamped():
        query = subprocess.run(["openssl", "ts", "-query", "-data", file, "-sha256", "-cert"], check=True, capture_output=True).stdout
        ask = ["curl", "-sSf", "-H", "Content-Type: application/timestamp-query", "--data-binary", "@-", url]
        reply = subprocess.run(ask, input=query, check=True, capture_output=True).stdout
        write_whole(file.with_suffix(".tsr"), reply, 0o644)
        print(f"{file.stem} is stamped")


def main() -> int:
    """Does what is asked for."""
    command, *given = sys.argv[1:] or [""]
    commands = {"begin": begin, "night": night, "newest": newest}
    try:
        if command == "verify":
            return verify(given)
        if command in commands and not given:
            commands[command]()
        elif command == "stamp" and len(given) == 1 and re.match("https?://", given[0]):
            stamp(given[0])
        else:
            print(__doc__, file=sys.stderr)
            return 2
    except (Refused, OSError, subprocess.CalledProcessError) as error:
        print(f"bank-seal: {error}", file=sys.stderr)
        return 1
    return 0
