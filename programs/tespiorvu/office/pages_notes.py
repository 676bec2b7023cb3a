"""What the teller's page asks and keeps of notes on entries and cash lines.

Below /office/api/. A note is of a branch, the bank's day and the entry's number (`row` entry) or a cash line's (`row` line).

- POST notes: `branch`, `day` (null is the open one by the newest copy), `row`, `numbers` or `number`, `kind` (purpose, reason,
  difference), `text`, one line of 200 characters. `kept` comes: how many are new.
- GET notes?branch=1&day=3: all of that day.
- GET purposes?account=101: of each entry the last purpose of whoever made it, with the entry's moment; and in `made` those since the newest
  copy, of any account, those of others with their writers' names.
- GET day?branch=1: the day that was open when the newest copy was made.
"""
from typing import Any

from flask import Blueprint, Response, jsonify, request

from ..policy import sees_branch
from . import notes, register
from .books import ENTRIES, Entry
from .languages import Term
from .notes import Note, Place
from .store import Refused, now
from .web import Forbidden, asked_object, desk, number_of

pages = Blueprint("notes", __name__)


def require_work(branch: int) -> None:
    """Refuses all whom the bank lets do and see nothing at a branch."""
    if not notes.works_at(desk().copy, desk().user, branch, now()):
        raise Forbidden("The bank shows you nothing of branch {branch}", branch=branch)


def number_in(given: dict[str, Any], name: str) -> int:
    """A number of an object."""
    number = given.get(name)
    if type(number) is not int:
        raise Refused("{name} is a number", name=Term(name))
    register.require_number(name, number)
    return number


def text_in(given: dict[str, Any], name: str, otherwise: str = "") -> str:
    """A text of an object."""
    text = given.get(name, otherwise)
    if not isinstance(text, str):
        raise Refused("{name} is a text", name=Term(name))
    return text


def name_of(note: Note) -> str:
    """The name of who wrote a note."""
    here = desk()
    return register.names_of_users(here.found).get(note.writer(here.copies.badges()) or 0, note.badge)


def shown(note: Note) -> dict[str, Any]:
    """A note with the name of who wrote it."""
    return {**note._asdict(), "name": name_of(note)}


@pages.get("/api/day")
def day_answer() -> Response:
    """The day of a branch that was open when the newest copy was made."""
    branch = number_of(request.args.get("branch"), "branch")
    require_work(branch)
    return jsonify(branch=branch, day=notes.open_day(desk().copy, branch))


@pages.post("/api/notes")
def keep_answer() -> Response:
    """Keeps a note on rows of a branch, for whoever the bank lets do or see anything there. Without a day it is the open one."""
    here, given = desk(), asked_object()
    branch = number_in(given, "branch")
    require_work(branch)
    day = number_in(given, "day") if given.get("day") is not None else notes.open_day(here.copy, branch)
    numbers = given.get("numbers", [given.get("number")])
    if not isinstance(numbers, list) or not all(type(it) is int for it in numbers):
        raise Refused("numbers is a list of numbers")
    place = Place(branch, day, text_in(given, "row", "entry"))
    who, kind, text = (here.badge, here.user), text_in(given, "kind"), text_in(given, "text")
    kept = notes.add(here.found, here.years, who, place, numbers, kind, text)
    return jsonify(kept=kept, branch=branch, day=day)


@pages.get("/api/notes")
def notes_answer() -> Response:
    """The notes of a day of a branch, to whom the bank lists its proof."""
    branch, day = number_of(request.args.get("branch"), "branch"), number_of(request.args.get("day"), "day")
    desk().require_branch(branch)
    return jsonify(notes=[shown(it) for it in notes.of_day(desk().found, branch, day)])


def purposes_since() -> list[dict[str, Any]]:
    """The purposes of entries that are in no copy yet: one's own, and with their writers' names those of the branches
    whose proof one sees. Who made such an entry, and at which account, only the bank knows, so they have no moment."""
    here, texts = desk(), dict[tuple[int, int], dict[str, str]]()
    for row in here.copy.rows("SELECT branch, day, entries FROM branches"):
        sees_all = sees_branch(here.copy.policy, here.user, row["branch"], now())
        rows = here.found.execute(
            "SELECT * FROM notes WHERE branch = ?1 AND (day > ?2 OR day = ?2 AND number > ?3) AND row = 'entry' "
            "AND kind = 'purpose' ORDER BY note", (*row,))  # fmt: skip
        for it in (Note(*one) for one in rows):
            is_own = it.badge == here.badge
            if is_own or sees_all:
                text = it.text if is_own else f"{it.text} ({name_of(it)})"
                texts.setdefault((it.branch, it.number), {})[it.badge] = text
    return [{"branch": branch, "entry": entry, "moment": None, "text": "; ".join(it.values())}
            for (branch, entry), it in texts.items()]  # fmt: skip


@pages.get("/api/purposes")
def purposes_answer() -> Response:
    """The purposes of the entries of an account in the year of the newest copy, each with the entry's moment, to whom the bank lists
    its statement; and those since that copy was made, of any account."""
    here, account = desk(), number_of(request.args.get("account"), "account")
    here.require_statement(account)
    entries = [Entry(*it) for it in here.copy.rows(f"{ENTRIES} WHERE it.account = ? ORDER BY it.turn", account)]
    texts = notes.purposes(here.found, here.copies, entries)
    found = [
        {"branch": it.branch, "entry": it.number, "moment": it.moment, "text": texts[it.branch, it.day, it.number]}
        for it in entries
        if (it.branch, it.day, it.number) in texts
    ]
    return jsonify(made=here.copy.made, purposes=found + purposes_since())
