#!/usr/bin/python3
"""Verifies the seals of a bank's days, with nothing but Python and openssl, on any machine. The package has it as `bank-seal verify`.

    verify_seals.py --paper CHARACTERS [--trail FILE]... [--stamps AUTHORITY] SEALS PUBLIC FILE...

SEALS is the folder of seals, PUBLIC the key that has signed them, FILE.. a copy of the bank and the files of closed years. CHARACTERS are
the 24 hexadecimal ones of a seal, from a signed paper: who has the key could make all seals anew, and not that. With --trail files of
the audit trail and of the policy's log are compared, too; with --stamps time stamps, by the certificates of who made them.
"""
import argparse
import gzip
import hashlib
import json
import sqlite3
import subprocess
import sys
from collections import defaultdict
from pathlib import Path
DAY = {"entries": "branch, number", "lines": "branch, number", "proofs": "branch, day", "releases": "user_no, number"}
OPENING = {"branches": "branch, opening, cash", "tellers": "teller, branch, opening"}
POLICY = {"users": "user_no, name, officer, suspended", "members": "set_no, place, kind, low, high", "relations": "procedure, set_no, by_user",
          "grants": "user_no, procedure, set_no, ceiling, first_at, last_at", "certifiers": "user_no, procedure"}
def line(row): return json.dumps(row, separators=(",", ":")).encode() + b"\n"
def sum_of(data): return hashlib.sha256(data).hexdigest()
def characters(text): return "-".join(text[it:it + 4] for it in range(0, 24, 4))
def opened(file): return sqlite3.connect(f"{Path(file).resolve().as_uri()}?mode=ro&immutable=1", uri=True)
def read(file): return (gzip.open if str(file).endswith(".gz") else open)(file, "rb").read()
def seals_in(folder): return sorted(Path(folder).glob("[0-9]*.json"))
def openssl(*given): return subprocess.run(["openssl", *map(str, given)], capture_output=True).returncode == 0
def named(tables, bank): return {name: sum_of(b"".join(map(line, bank.execute(f"SELECT {it} FROM {name} ORDER BY {it}")))) for name, it in tables.items()}

def days_of(bank):
    """The sums over the rows of each day, by branch and day."""
    found = defaultdict(lambda: {table: hashlib.sha256() for table in DAY})
    for table, key in DAY.items():
        for row in bank.execute(f"SELECT branch, day, * FROM {table} ORDER BY {key}"):
            found[row[:2]][table].update(line(row[2:]))
    return {day: {table: it.hexdigest() for table, it in sums.items()} for day, sums in found.items()}
def accounts_of(bank, known): return sum_of(b"".join(line(row) for row in bank.execute("SELECT account, home, opening, floor FROM accounts ORDER BY account") if row[0] in known))

def faults_of(seal, banks, known, trail):
    """What of a seal is otherwise in the files."""
    days = [it["days"].get((seal["branch"], seal["day"]), {}) for it in banks]
    for table, it in seal["rows"].items(): # proofs and releases stay in the files of later years
        sums = {found.get(table) for found in days}
        yield from [f"{table} are not as sealed"] * (it not in sums or table in ("proofs", "releases") and not sums <= {it, None, sum_of(b"")})
    yield from ["accounts are not as sealed"] * all(accounts_of(it["bank"], known) != seal["accounts"]["sum"] for it in banks)
    yield from ["openings are not as sealed"] * all(it["opening"] != seal["opening"] for it in banks)
    yield from ["the policy is not as sealed"] * any((it["version"] == seal["policy"]["version"]) and it["policy"] != seal["policy"]["lists"] for it in banks)
    for name, ranges in seal["trail"].items():
        for it in ranges if trail else ():
            if sum_of(trail.get(it["file"], b"")[it["from"]:it["to"]]) != it["sum"]:
                yield f"{name}.log is not as sealed, bytes {it['from']} to {it['to']} of the file that begins with a line of sum {it['file'][:8]}"

def main(arguments=None):
    """Prints each fault, and the seal of the paper."""
    reader = argparse.ArgumentParser(description=__doc__, formatter_class=argparse.RawDescriptionHelpFormatter)
    for name, more in {"--paper": {"required": True}, "--trail": {"action": "append", "default": []}, "--stamps": {}, "seals": {}, "public": {}, "files": {"nargs": "+"}}.items():
        reader.add_argument(name, **more)
    given = reader.parse_args(arguments)
    paper = given.paper.replace("-", "").replace(" ", "").lower()
    banks = [{"bank": it, "days": days_of(it), "opening": named(OPENING, it), "policy": named(POLICY, it),
              "version": it.execute("SELECT policy FROM bank").fetchone()[0]} for it in map(opened, given.files)]
    trail = {sum_of(it[:it.find(b"\n") + 1]): it for it in map(read, given.trail)}
    before, known, at, faults, files = "", set(), 0, 0, seals_in(given.seals)
    for number, file in enumerate(files, 1):
        seal, found = json.loads(file.read_text()), []
        known.update(seal["accounts"]["new"])
        found += ["not the next of the chain"] * ((seal["before"], seal["seal"], file.stem) != (before, number, f"{number:06}"))
        found += ["not signed by that key"] * (not openssl("pkeyutl", "-verify", "-rawin", "-pubin", "-inkey", given.public, "-in", file, "-sigfile", file.with_suffix(".sig")))
        found += ["no valid time stamp"] * bool(given.stamps and not openssl("ts", "-verify", "-data", file, "-in", file.with_suffix(".tsr"), "-CAfile", given.stamps))
        found += faults_of(seal, banks, known, trail)
        before, faults = sum_of(file.read_bytes()), faults + len(found)
        at = number if len(paper) == 24 and before.startswith(paper) else at
        found += [f"(accepted by {it['by']}: {it['reason']})" for it in seal["accepted"]]
        print("".join(f"seal {number}, branch {seal['branch']}, day {seal['day']}: {it}\n" for it in found), end="")
    print(f"{len(files)} seals, {faults} faults; " + (f"the paper is of seal {at}, {len(files) - at} came after it" if at else "no seal has the characters of the paper"))
    return 1 if faults or not at else 0
if __name__ == "__main__":
    sys.exit(main())
