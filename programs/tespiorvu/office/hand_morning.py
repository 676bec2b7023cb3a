"""Hands to the office what stands on the sheet for the morning: the newest seal, as `bank-seal newest` prints it, and which of the bank's
units have failed.
"""
import json
import subprocess
import sys
import time

from ..files import write_whole
from ..places import OFFICE_MORNING as FOLDER

FAILED = ("systemctl", "list-units", "--state=failed", "--plain", "--no-legend", "--full", "--no-pager", "bank*")


def printed(*words: str) -> tuple[str, str]:
    """What a command prints, and if it fails, the last line of why."""
    try:
        ran = subprocess.run(words, stdin=subprocess.DEVNULL, capture_output=True, text=True, check=False)
    except OSError as error:
        return "", str(error)
    lines = ran.stderr.strip().splitlines() or [f"{words[0]} has ended with {ran.returncode}"]
    return (ran.stdout, "") if ran.returncode == 0 else ("", lines[-1])


def main() -> int:
    """Hands both over in one file, which gets its name once it is whole. The status is 1 if something is not known, which is said."""
    (seal, why), (units, whence) = printed("bank-seal", "newest"), printed(*FAILED)
    failed = [it.split()[0].removesuffix(".service") for it in units.splitlines() if it.strip()]
    found = {"made": int(time.time()), "seal": seal.strip(), "seal_fault": why, "failed": failed, "failed_fault": whence}
    write_whole(FOLDER / "morning", json.dumps(found), 0o640)
    for it in filter(None, (why, whence)):
        print(f"hand-morning: {it}", file=sys.stderr)
    return int(bool(why or whence))
