"""Hands to the office the commands of the policy that the bank has carried out since the newest copy, so that rights that end there
end in the office, too. Standard input is the front's log of these commands; what of an earlier log was handed, stays handed.
"""
import datetime
import json
import re
import sys
from typing import Any

from ..files import write_whole
from ..places import OFFICE_COPIES as FOLDER

RIGHTS, PRESENT = FOLDER / "rights", FOLDER / "present"
COMMANDS = ("suspend", "restore", "revoke", "withdraw", "grant")


def handed() -> list[str]:
    """What was handed before."""
    return RIGHTS.read_text(encoding="utf-8").splitlines() if RIGHTS.exists() else []


def moment_of_copy() -> int:
    """When the newest copy was made."""
    return int(PRESENT.stat().st_mtime) if PRESENT.exists() else 0


def record_of(line: str) -> dict[str, Any] | None:
    """The command of a line, if the bank carried one out that ends rights, or gives back one that ended."""
    try:
        said = json.loads(line)
        name = re.fullmatch("/policy/([a-z]+)", said["path"])
        if name is None or name[1] not in COMMANDS or "200" not in re.findall("[0-9]+", f"{said['status']} {said.get('bank')}"):
            return None
        moment = int(datetime.datetime.fromisoformat(said["time"]).timestamp())
        body = json.loads(said["body"])
    except (ValueError, KeyError, TypeError):  # a line that was cut, or that says how many were lost
        return None
    return {"moment": moment, "command": name[1], "body": body} if isinstance(body, dict) else None


def main() -> int:
    """Puts what was handed and what is new into one file, which gets its name once it is whole."""
    made, before = moment_of_copy(), handed()
    log = sys.stdin.buffer.read().decode("utf-8", "replace")
    new = [json.dumps(it, sort_keys=True) for it in map(record_of, log.split("\n")) if it]
    lines = [*(it for it in before if it not in new), *new]
    lines = [it for it in lines if json.loads(it)["moment"] >= made]
    if lines != before:
        write_whole(RIGHTS, "".join(f"{it}\n" for it in lines), 0o640)
    return 0
