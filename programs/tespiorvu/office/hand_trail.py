"""Hands to the office what its audit needs of the front's trail: the policy's log, all of it, and of each card from when to when it was
used. Standard input is the front's map of the cards that are valid. Of the audit trail no more than that goes out.
"""
import csv
import io
import json
import re
import sys
from collections.abc import Iterator

from ..files import lines_of, logs_of, rows_of, write_whole
from ..places import OFFICE_TRAIL as FOLDER

# A file of the trail that was not written to for so long before the last hand-over has nothing new.
OVERLAP = 86_400
CARDS = FOLDER / "cards.csv"
Card = tuple[str, str]


def whole_lines(name: str, since: float = 0.0) -> Iterator[str]:
    """The whole lines of a log's files that were written to since a moment. The rest of a torn one may still come."""
    return (it for it in lines_of(logs_of(name, since)) if it.endswith("\n"))


def handed() -> tuple[float, dict[Card, tuple[int, int]]]:
    """When the use of cards was handed over last, and what it was."""
    if not CARDS.exists():
        return OVERLAP, {}
    rows = [it for it in rows_of(CARDS) if it["last"] != "0"]
    return CARDS.stat().st_mtime, {(it["badge"], it["serial"]): (int(it["first"]), int(it["last"])) for it in rows}


def used(line: str) -> tuple[Card, int] | None:
    """The card of a request, and its moment."""
    try:
        said = json.loads(line)
        return ((said["badge"], said["certificate"]), int(float(said["ended"]))) if said["certificate"] and said["badge"] else None
    except (ValueError, KeyError, TypeError):  # a line that was cut, or that says how many were lost
        return None


def uses() -> dict[Card, tuple[int, int]]:
    """The first and the last use of each card, by what was handed before and what is new."""
    last, found = handed()
    for card, moment in filter(None, map(used, whole_lines("audit", last - OVERLAP))):
        first, late = found.get(card, (0, 0))
        found[card] = min(first or moment, moment), max(late, moment)
    return found


def main() -> int:
    """Hands both over."""
    valid = {(badge, serial) for serial, badge in re.findall(r'^"([0-9A-F]+)" "([^"]+)";$', sys.stdin.read(), re.MULTILINE)}
    found, sheet = uses(), io.StringIO()
    writer = csv.writer(sheet)
    writer.writerow(("badge", "serial", "valid", "first", "last"))
    writer.writerows((*it, int(it in valid), *found.get(it, (0, 0))) for it in sorted(valid | set(found)))
    write_whole(CARDS, sheet.getvalue(), 0o640)
    write_whole(FOLDER / "policy.log", "".join(whole_lines("policy")), 0o640)
    return 0
