"""The day book of a branch: entries and cash lines of a day by teller, with sums that have to be those of its proof."""
import time
from bisect import bisect_right
from collections.abc import Mapping, Sequence
from typing import NamedTuple

from ..procedures import NAMES
from .copies import PRESENT, Copy
from .languages import Sentence, Term
from .store import Refused

POST, LEG, CORRECTION = 1, 2, 3
WITH_ENTRY, DRAWER_ON, DRAWER_OFF, MOVE, DIFFERENCE = 1, 2, 3, 4, 5
FORMS = {POST: "post", LEG: "transfer", CORRECTION: "correction"}
CASH_FORMS = {WITH_ENTRY: "entry", DRAWER_ON: "drawer on", DRAWER_OFF: "drawer off", MOVE: "moved", DIFFERENCE: "difference"}

ENTRIES = """
SELECT it.branch, it.number, it.day, it.teller, it.account, it.turn, accounts.home, it.delta, it.moment, it.user_no AS user,
    it.form, it.partner, coalesce(other.account, 0) AS other, it.undoes, coalesce(undone.user_no, 0) AS undoes_user,
    coalesce(undoing.number, 0) AS undone_by, coalesce(undoing.user_no, 0) AS undone_by_user, it.balance_after
FROM entries AS it JOIN accounts USING (account)
    LEFT JOIN entries AS other ON it.partner != 0 AND other.branch = it.branch AND other.number = it.partner
    LEFT JOIN entries AS undone ON it.undoes != 0 AND undone.branch = it.branch AND undone.number = it.undoes
    LEFT JOIN entries AS undoing ON undoing.branch = it.branch AND undoing.undoes = it.number AND it.undoes = 0
"""


class Entry(NamedTuple):
    """One entry: `other` is the account of its partner; `undone_by` the entry that corrects it."""

    branch: int
    number: int
    day: int
    teller: int
    account: int
    turn: int
    home: int
    delta: int
    moment: int
    user: int
    form: int
    partner: int
    other: int
    undoes: int
    undoes_user: int
    undone_by: int
    undone_by_user: int
    balance_after: int

    def what(self) -> str:
        """What it is called."""
        if self.form == POST:
            return "deposit" if self.delta >= 0 else "withdrawal"
        return FORMS[self.form]

    def has_cash(self) -> bool:
        """Whether a cash line goes with it: with a post, and with the correction of one."""
        return self.partner == 0


class CashLine(NamedTuple):
    """One line of the cash book; place 0 is the vault."""

    branch: int
    number: int
    day: int
    place: int
    amount: int
    form: int
    moment: int
    user: int


class Sums(NamedTuple):
    """What a branch's books and cash are at the end of a day."""

    entries: int
    balance: int
    vault: int
    drawers: int
    cash_entries: int
    differences: int


class DayBook(NamedTuple):
    """A day of a branch. `faults` says what of its sums is not as the bank's own, `year` begins the numbers of its documents,
    `home_days` has the day of the home's branch for each entry at an account of another, and `file` is the copy that has the day."""

    branch: int
    day: int
    is_closed: bool
    entries: list[Entry]
    lines: list[CashLine]
    before: Sums
    after: Sums
    faults: list[Sentence]
    year: str = ""
    home_days: Mapping[int, int] = {}
    file: str = PRESENT

    def document(self, number: int, kind: str = "") -> str:
        """The number of a document: that of an entry or a cash line, with year and branch, as numbers begin anew each year."""
        return f"{self.year or PRESENT}-{self.branch}-{kind}{number}"

    def tellers(self) -> list[int]:
        """All tellers who have an entry or a cash line."""
        return sorted({it.teller for it in self.entries} | {it.place for it in self.lines if it.place})

    def by_teller(self, teller: int) -> list[Entry]:
        """The entries of a teller."""
        return [it for it in self.entries if it.teller == teller]

    def cash_of(self, place: int) -> list[CashLine]:
        """The cash lines of a drawer, or of the vault."""
        return [it for it in self.lines if it.place == place]


def entries_of(copy: Copy, branch: int, day: int) -> list[Entry]:
    """The entries of a day."""
    return [Entry(*it) for it in copy.rows(f"{ENTRIES} WHERE it.branch = ? AND it.day = ? ORDER BY it.number", branch, day)]


def lines_of(copy: Copy, branch: int, day: int) -> list[CashLine]:
    """The cash lines of a day."""
    return [
        CashLine(*it)
        for it in copy.rows(
            "SELECT branch, number, day, place, amount, form, moment, user_no FROM lines "
            "WHERE branch = ? AND day = ? ORDER BY number",
            branch,
            day,
        )
    ]


def sums_of(copy: Copy, branch: int, day: int) -> Sums:
    """What the rows of all days up to one add up to."""
    opened = copy.row("SELECT opening, cash FROM branches WHERE branch = ?", branch)
    if opened is None:
        raise Refused("There is no branch {branch}", branch=branch)
    entries = copy.row("SELECT count(*), coalesce(sum(delta), 0) FROM entries WHERE branch = ? AND day <= ?", branch, day)
    cash = copy.row(
        "SELECT coalesce(sum(amount) FILTER (WHERE place = 0), 0), coalesce(sum(amount) FILTER (WHERE place != 0), 0), "
        "coalesce(sum(amount) FILTER (WHERE form = 1), 0), coalesce(sum(amount) FILTER (WHERE form = 5), 0) "
        "FROM lines WHERE branch = ? AND day <= ?",
        branch,
        day,
    )
    assert entries is not None and cash is not None
    return Sums(entries[0], opened["opening"] + entries[1], opened["cash"] + cash[0], cash[1], cash[2], cash[3])


def faults_of(copy: Copy, branch: int, day: int, after: Sums, is_closed: bool) -> list[Sentence]:
    """What of the sums disagrees: with the proof of a closed day, or with what the bank keeps of the present one."""
    kept = (
        copy.row("SELECT entries, balance, cash AS vault FROM proofs WHERE branch = ? AND day = ?", branch, day)
        if is_closed
        else copy.row("SELECT entries, balance, vault, drawers, cash_entries, differences FROM branches WHERE branch = ?", branch)
    )
    if kept is None:
        return [Sentence("proof: there is none of a closed day")]
    found = after._asdict()
    return [Sentence("{name}: {found} by the rows, {kept} by the proof", name=Term(it), found=found[it], kept=kept[it])
            for it in kept.keys() if found[it] != kept[it]]  # fmt: skip


def first_moment(copy: Copy) -> int | None:
    """The moment of the first entry or cash line of a file."""
    query = "SELECT min(moment) AS moment FROM branches JOIN {0} ON {0}.branch = branches.branch AND {0}.number = 1"
    firsts = [row["moment"] for it in ("entries", "lines") if (row := copy.row(query.format(it)))]
    return min((int(it) for it in firsts if it is not None), default=None)


def years_of(copies: Sequence[Copy]) -> list[str]:
    """The year of each file, by its first entry or cash line, whatever the file is called. A second file of a year has a letter."""
    years = [time.localtime(first_moment(it) or it.made or time.time()).tm_year for it in copies]
    return [f"{year}{' bcdefghijklmnopqrstuvwxyz'[years[:at].count(year)].strip()}" for at, year in enumerate(years)]


def home_days_of(copy: Copy, entries: list[Entry]) -> dict[int, int]:
    """Of each entry at an account of another branch, the day that was that branch's: of the last row there by then."""
    starts = {
        home: copy.rows(
            "SELECT min(moment) AS moment, day FROM (SELECT moment, day FROM entries WHERE branch = ?1 "
            "UNION ALL SELECT moment, day FROM lines WHERE branch = ?1) GROUP BY day ORDER BY day",
            home,
        )
        for home in {it.home for it in entries if it.home != it.branch}
    }
    found = dict[int, int]()
    for it in entries:
        if rows := starts.get(it.home):
            found[it.number] = int(rows[max(bisect_right([row["moment"] for row in rows], it.moment) - 1, 0)]["day"])
    return found


def day_book(copy: Copy, branch: int, day: int, year: str = "") -> DayBook:
    """The book of a day."""
    present = copy.row("SELECT day FROM branches WHERE branch = ?", branch)
    if present is None:
        raise Refused("There is no branch {branch}", branch=branch)
    if not 1 <= day <= present["day"]:
        raise Refused("Branch {branch} has days 1 to {last}", branch=branch, last=present["day"])
    is_closed = day < present["day"]
    before, after = sums_of(copy, branch, day - 1), sums_of(copy, branch, day)
    faults = faults_of(copy, branch, day, after, is_closed)
    entries = entries_of(copy, branch, day)
    homes = home_days_of(copy, entries)
    return DayBook(branch, day, is_closed, entries, lines_of(copy, branch, day), before, after, faults, year, homes, copy.name)


class Release(NamedTuple):
    """A release that was given on a day: its number, who gave it, for whom and what, and whether it was used."""

    number: int
    giver: int
    user: int
    procedure: str
    used: bool


def releases_of(copies: list[Copy], branch: int, day: int) -> list[Release]:
    """The releases of a day of a branch. Each year's file has those of the years before, too, so the newest has all."""
    rows = copies[-1].rows(
        "SELECT number, giver, user_no, form, used FROM releases WHERE branch = ? AND day = ? ORDER BY user_no, number", branch, day
    )
    return [Release(it["number"], it["giver"], it["user_no"], NAMES[it["form"]], bool(it["used"])) for it in rows]


class Day(NamedTuple):
    """One day in the list of a branch's days; the moments are those of its first and last row, or 0."""

    day: int
    first: int
    last: int
    entries: int
    is_closed: bool


class Span(NamedTuple):
    """The days of a branch that one file has: a year's file up to its last, the present one up to the day that is open."""

    copy: Copy
    first: int
    last: int


def spans_of(copies: list[Copy], branch: int) -> list[Span]:
    """Which file has which days: the next year goes on with the number after the last day of this one."""
    spans, first = list[Span](), 1
    for copy in copies:
        row = copy.row("SELECT day FROM branches WHERE branch = ?", branch)
        if row is not None:
            spans.append(Span(copy, first, row["day"] - (copy is not copies[-1])))
            first = row["day"]
    if not spans:
        raise Refused("There is no branch {branch}", branch=branch)
    return spans


def day_book_of(copies: list[Copy], branch: int, day: int) -> DayBook:
    """The book of a day of whichever year."""
    spans = spans_of(copies, branch)
    for span in spans:
        if span.first <= day <= span.last:
            return day_book(span.copy, branch, day, years_of(copies)[copies.index(span.copy)])
    raise Refused("Branch {branch} has days 1 to {last}", branch=branch, last=spans[-1].last)


def days_of(copies: list[Copy], branch: int) -> list[Day]:
    """The days of a branch over all years, the newest first."""
    return [day for span in reversed(spans_of(copies, branch)) for day in days_in(span, branch)]


def days_in(span: Span, branch: int) -> list[Day]:
    """The days of a branch that one file has, the newest first."""
    copy = span.copy
    present = copy.row("SELECT day FROM branches WHERE branch = ?", branch)
    assert present is not None
    found = {
        it["day"]: it
        for it in copy.rows(
            "SELECT day, min(moment) AS first, max(moment) AS last, sum(is_entry) AS entries FROM "
            "(SELECT day, moment, 1 AS is_entry FROM entries WHERE branch = ? "
            "UNION ALL SELECT day, moment, 0 FROM lines WHERE branch = ?) "
            "GROUP BY day",
            branch,
            branch,
        )
    }
    return [
        Day(
            day,
            *((found[day]["first"], found[day]["last"], found[day]["entries"]) if day in found else (0, 0, 0)),
            day < present["day"],
        )
        for day in range(span.last, span.first - 1, -1)
    ]


def branches_of(copy: Copy) -> list[int]:
    """All branches."""
    return [it["branch"] for it in copy.rows("SELECT branch FROM branches ORDER BY branch")]


def clock(moment: int) -> str:
    """A moment as people read it, by the machine's own clock."""
    return time.strftime("%Y-%m-%d %H:%M:%S", time.localtime(moment)) if moment else ""


def date_of(moment: int) -> str:
    """The date of a moment."""
    return clock(moment)[:10]
