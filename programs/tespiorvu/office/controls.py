"""Controls: what an auditor asks of the newest copy, of the policy's log, of cards and of notes, each with its rows. A red one has no
innocent row."""
import datetime
import re
import sqlite3
from collections.abc import Iterator, Mapping
from contextlib import ExitStack
from dataclasses import replace
from pathlib import Path
from typing import NamedTuple

from . import apart, cards, day_notes, reasons, rights
from .books import clock
from .copies import Copies, Copy
from .languages import Language, Sentence, Term, from_kept
from .policy_file import explained, left_by, nights_of, opened_policy
from .settings import Settings
from .store import Refused, opened

QUERIES = Path(__file__).with_name("audit-queries.sql")
HEAD = re.compile(r"^\.print (\d+) ([a-z-]+)(, red)?: (.*)$", re.MULTILINE)
IN_ONE_HAND, LEFT = "in-one-hand", "commands that are left"
# The columns that are cents, and those that are numbers of users.
CENTS = {"amount", "limit today", "delta", "sum", "largest", "turnover", "stays"}
USERS = {"user no", "made by", "corrected by", "one user", "other user"}
# Those that are moments, as SQLite writes them, and those that are terms of the office.
MOMENTS = {"time", "first row", "last row", "copy of", "changed", "put back"}
TERMS = {"what", "procedure", "one of the pair", "other of the pair"}
OF_USER = """
SELECT branch, number, day, datetime(moment, 'unixepoch', 'localtime'), account, delta FROM entries WHERE user_no = ?
"""
Row = tuple[object, ...]


class Control(NamedTuple):
    """A control: what it lists, whether a row of it is red, and what it found."""

    number: int
    name: str
    title: Sentence
    is_red: bool
    heading: list[str]
    rows: list[Row]

    @property
    def fails(self) -> bool:
        """Whether it is red."""
        return self.is_red and bool(self.rows)


def shown(name: str, value: object, language: Language) -> str:
    """A value of a column as people read it."""
    if name in CENTS and isinstance(value, int):
        return language.amount(value)
    if name in MOMENTS and value:
        return language.written(datetime.datetime.fromisoformat(str(value)))
    if name in TERMS:
        return language.written(Term(str(value)))
    if name == LEFT and isinstance(value, list):
        return ", ".join(f"{badge} {language.written(Term(command))}" for badge, command in value)
    return language.written(value)


class Query(NamedTuple):
    """A query of the file of queries."""

    number: int
    name: str
    title: str
    is_red: bool
    text: str


def queries() -> Iterator[Query]:
    """The queries, each with what its line says."""
    number, name, red, title, text = "", "", "", "", ""
    _, *parts = HEAD.split(QUERIES.read_text(encoding="utf-8"))
    while parts:
        number, name, red, title, text, *parts = parts
        yield Query(int(number), name, title, bool(red), text.strip())


def default_pairs() -> tuple[tuple[str, str], ...]:
    """What the file of queries keeps apart, for settings that say nothing of it."""
    line = next(it for it in QUERIES.read_text(encoding="utf-8").splitlines() if it.startswith("INSERT INTO apart"))
    return tuple((one, other) for one, other in re.findall(r"\('([a-z-]+)', '([a-z-]+)'\)", line))


def with_pairs(settings: Settings) -> Settings:
    """Settings that say what must not meet in one hand."""
    return settings if settings.apart else replace(settings, apart=default_pairs())


def by_query(copy: Copy, it: Query, runs: int | None) -> Control:
    """A control by its query, which may leave the user of runs out."""
    found = copy.bank.execute(it.text, {"runs": runs})
    heading = [column[0].replace("_", " ") for column in found.description]
    return Control(it.number, it.name, Term(it.title), it.is_red, heading, [tuple(row) for row in found])


def in_one_hand(settings: Settings, copy: Copy, it: Query, badges: Mapping[str, int]) -> Control:
    """The control of what must not meet in one hand, by the settings."""
    rows: list[Row] = [*apart.pairs_by_user(copy, with_pairs(settings), badges)]
    return Control(it.number, it.name, Sentence("users who have what must not meet in one hand"), it.is_red,
                   ["user no", "one of the pair", "other of the pair"], rows)  # fmt: skip


def policy_gaps(found: sqlite3.Connection) -> Iterator[Row]:
    """The nights whose commands the log does not have as the copy has them, or that cut some, and are not explained."""
    known = explained(found)
    for night in nights_of(found):
        if night.is_red and night.night not in known:
            left = [(it.badge, it.name) for it in left_by(found, night.night)]
            yield night.night, clock(int(night.made)), from_kept(night.fault), left


def put_back(found: sqlite3.Connection, copies: list[Copy]) -> Iterator[Row]:
    """Rights that were another for a day or less, and were used meanwhile."""
    changes = list(rights.changes_of(found))
    for place, marks in rights.undone_of(found, copies, changes).items():
        command = changes[place].command
        for mark in marks:
            for entry in mark.above:
                when = clock(int(command.moment)), clock(int(mark.by.moment))
                yield *when, command.badge, mark.by.badge, *mark.key[1:], entry.branch, entry.number, abs(entry.delta)


def of_log(settings: Settings, copies: list[Copy]) -> Iterator[Control]:
    """The controls by the policy's log."""
    with opened_policy(settings) as found:
        yield Control(14, "policy-log", Sentence("nights whose policy the log does not explain"), True,
                      ["night", "copy of", "what is wrong", LEFT], list(policy_gaps(found)))  # fmt: skip
        title = Sentence("rights that were another for a day or less, and the entries above the limit before or after")
        yield Control(15, "put-back", title, True,
                      ["changed", "put back", "by", "put back by", "user no", "procedure", "set", "branch", "entry", "amount"],
                      list(put_back(found, copies)))  # fmt: skip


def of_office(settings: Settings, copy: Copy) -> Iterator[Control]:
    """The controls by cards and notes."""
    with opened(settings.file) as found:
        rows: list[Row] = [*day_notes.missing(found, copy)]
    yield Control(16, "no-reason", Sentence("corrections and differences of closed days without a reason"), False,
                  ["branch", "day", "what", "number", "user no", "amount"], rows)  # fmt: skip
    several: list[Row] = [*cards.several(cards.cards_in(settings.trail))]
    yield Control(17, "several-cards", Sentence("badges of which more than one card is valid"), False,
                  ["badge", "cards", "serial numbers"], several)  # fmt: skip


def without_run(settings: Settings, copies: list[Copy], runs: int) -> Control:
    """The newest copy's entries of the user of runs that no transfer of a run explains."""
    by_run, copy, rows = reasons.of_entries(copies, settings), copies[-1], list[Row]()
    for it in copy.rows(f"{OF_USER} ORDER BY branch, number", runs):
        branch, number, *_, account, delta = it
        reason = by_run.get((copy.name, branch, number))
        if reason is None or not reason.explains(account, delta):
            rows.append((*it,))
    return Control(18, "no-run", Sentence("entries of the user of runs that are of no run"), True,
                   ["branch", "entry", "day", "time", "account", "amount"], rows)  # fmt: skip


def controls_of(settings: Settings, year: str = "") -> list[Control]:
    """All controls over the newest copy, or the queries over the file of a closed year."""
    copies = Copies(settings.copies)
    with ExitStack() as stack:
        opened_ = [stack.enter_context(it) for it in copies.all()]
        copy = next((it for it in opened_ if it.name == (year or opened_[-1].name)), None)
        if copy is None:
            raise Refused("There is no file of {year}", year=year)
        badges = copies.badges()
        runs = badges.get(settings.badge) or reasons.handed(settings.reasons)[0]
        found = [by_query(copy, it, runs) if it.name != IN_ONE_HAND else in_one_hand(settings, copy, it, badges)
                 for it in queries()]  # fmt: skip
        if not year:
            found += [*of_log(settings, opened_), *of_office(settings, copy), without_run(settings, opened_, runs or 0)]
    return sorted(found, key=lambda it: it.number)
