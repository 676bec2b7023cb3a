"""Runs of interest and fees: a list of transfers that is proposed, approved by two persons, and carried out, each transfer once.

The slip of a transfer is made of run and line, so what is sent again acts once. A run gets a number that no run has in the
office's file and, by the slips, none in the newest copy of the bank.
"""
import datetime
import json
import sqlite3
from contextlib import ExitStack
from typing import NamedTuple

from . import apart, run_rights
from .copies import Copies, Copy
from .interest import transfers_of
from .languages import Count, Sentence, Term, as_kept
from .periods import require_period
from .settings import Scheme, Settings
from .store import Refused, changes_of, changing, note_change, now

LINES_PER_RUN = 100_000
MOST_RUNS = 9_999
APPROVALS = 2
KINDS = ("interest", "fee")
# In the changes of a run: when the first of its transfers was sent.
BEGUN = "begun"


class Line(NamedTuple):
    """One transfer of a run as it is kept."""

    run: int
    line: int
    account: int
    part: int
    parts: int
    source: int
    target: int
    amount: int
    slip: int
    why: str
    state: str
    reply: str
    answered: int | None


def run_of(found: sqlite3.Connection, run: int) -> sqlite3.Row:
    """A run, which has to be there."""
    row: sqlite3.Row | None = found.execute("SELECT * FROM runs WHERE run = ?", (run,)).fetchone()
    if row is None:
        raise Refused("There is no run {run}", run=run)
    return row


def lines_of(found: sqlite3.Connection, run: int) -> list[Line]:
    """The transfers of a run, in their order."""
    return [Line(*it) for it in found.execute("SELECT * FROM run_lines WHERE run = ? ORDER BY line", (run,))]


def approvals_of(found: sqlite3.Connection, run: int) -> list[sqlite3.Row]:
    """Who approved a run, and when."""
    return found.execute("SELECT badge, user, moment FROM approvals WHERE run = ? ORDER BY moment, badge", (run,)).fetchall()


def next_number(found: sqlite3.Connection, copy: Copy, user: int) -> int:
    """The number of the next run: above all of the office's file, and above those that took a slip by the copy of the bank."""
    own = found.execute("SELECT coalesce(max(run), 0) FROM runs").fetchone()[0]
    taken = copy.row("SELECT coalesce(max(slip), 0) AS slip FROM slips WHERE user_no = ?", user)
    number = max(own, taken["slip"] // LINES_PER_RUN if taken else 0) + 1
    if number > MOST_RUNS:
        raise Refused("There have been {most} runs: the service needs another badge and user", most=Count(MOST_RUNS))
    return int(number)


def require_new_period(found: sqlite3.Connection, kind: str, branch: int, first: datetime.date, last: datetime.date) -> None:
    """Refuses a run over days that another has."""
    other = found.execute(
        "SELECT run, first, last FROM runs WHERE kind = ? AND branch = ? AND state != 'withdrawn' AND first <= ? AND last >= ?",
        (kind, branch, last.isoformat(), first.isoformat()),
    ).fetchone()
    if other:
        dates = {name: datetime.date.fromisoformat(other[name]) for name in ("first", "last")}
        raise Refused("Run {run} of branch {branch} has {kind} from {first} to {last} already",
                      run=other["run"], branch=branch, kind=Term(kind), **dates)  # fmt: skip


def schemes_of(settings: Settings, kind: str, branch: int) -> list[Scheme]:
    """What the settings say of a branch: of one teller, and no account twice."""
    schemes = sorted((it for it in settings.schemes if (it.kind, it.branch) == (kind, branch)), key=lambda it: it.low)
    if not schemes:
        raise Refused("The settings have no [[{kind}]] of branch {branch}", kind=kind, branch=branch)
    if len({it.teller for it in schemes}) > 1:
        raise Refused("[[{kind}]] of branch {branch} has two tellers", kind=kind, branch=branch)
    for one, other in zip(schemes, schemes[1:]):
        if other.low <= one.high:
            low = other.low
            raise Refused("[[{kind}]] of branch {branch} has account {low} twice", kind=kind, branch=branch, low=low)
    return schemes


def propose(
    found: sqlite3.Connection,
    copies: Copies,
    settings: Settings,
    badge: str,
    office: str,
    kind: str,
    branch: int,
    first: datetime.date,
    last: datetime.date,
) -> int:
    """Computes a run from the copies and keeps it for approval; its number. `office` is the badge that will carry it out."""
    schemes = schemes_of(settings, kind, branch)
    user = copies.user_of(office)
    if user is None:
        raise Refused("The bank knows no badge {office}", office=office)
    with ExitStack() as stack:
        opened = [stack.enter_context(it) for it in copies.all()]
        require_period(opened, first, last)
        transfers = [it for scheme in schemes for it in transfers_of(opened, scheme, first, last)]
        count, most = Count(len(transfers)), Count(LINES_PER_RUN - 1)
        if not 1 <= count <= most:
            raise Refused("A run has 1 to {most} transfers, and not {count}", most=most, count=count)
        run_rights.require_rights(opened[-1], office, user, schemes, transfers)
        with changing(found):
            require_new_period(found, kind, branch, first, last)
            run = next_number(found, opened[-1], user)
            row = (run, kind, branch, schemes[0].teller, first.isoformat(), last.isoformat(), now(), badge,
                   copies.user_of(badge), str(opened[-1].made))  # fmt: skip
            found.execute("INSERT INTO runs VALUES (?, ?, ?, ?, ?, ?, ?, ?, ?, ?, 'proposed')", row)
            found.executemany(
                "INSERT INTO run_lines VALUES (?, ?, ?, ?, ?, ?, ?, ?, ?, ?, 'waiting', '', NULL)",
                [(run, at, *it[:-1], run * LINES_PER_RUN + at, as_kept(it.why)) for at, it in enumerate(transfers, 1)],
            )
            note_change(
                found, badge, "run", str(run), None, {"kind": kind, "branch": branch, "first": str(first), "last": str(last)}
            )
    return run


def is_of(row: sqlite3.Row, badge: str, user: int) -> bool:
    """Whether a row is of a person, by whichever of their badges."""
    return bool(row["badge"] == badge or row["user"] == user)


def approve(found: sqlite3.Connection, settings: Settings, badge: str, user: int, run: int) -> bool:
    """One approval; whether the run may be carried out by now. Two users of the bank approve, and who proposed it is none of them."""
    if badge not in settings.approvers:
        raise Refused("You approve no runs")
    apart.require_apart(settings, [badge])
    with changing(found):
        row = run_of(found, run)
        if row["state"] != "proposed":
            raise Refused("Run {run} is {state}", run=run, state=Term(row["state"]))
        if is_of(row, badge, user):
            raise Refused("Who proposed a run does not approve it")
        if any(is_of(it, badge, user) for it in approvals_of(found, run)):
            raise Refused("You have approved it: somebody else has to, too")
        found.execute("INSERT INTO approvals VALUES (?, ?, ?, ?)", (run, badge, user, now()))
        is_approved = len(approvals_of(found, run)) >= APPROVALS
        if is_approved:
            found.execute("UPDATE runs SET state = 'approved' WHERE run = ?", (run,))
        note_change(found, badge, "run", str(run), None, {"approved by": badge})
    return is_approved


def may_be_withdrawn(found: sqlite3.Connection, run: int) -> bool:
    """Whether nothing of a run is carried out, nor may be: it is proposed; or approved, and no transfer was sent; or the bank refused
    each. A transfer that was sent and not answered may be done."""
    state = run_of(found, run)["state"]
    if state == "carried out":
        return all(it.state == "refused" for it in lines_of(found, run))
    return state == "proposed" or state == "approved" and not is_begun(found, run)


def acts_on(found: sqlite3.Connection, run: int) -> list[str]:
    """What an approver may do with a run."""
    own = {"proposed": ["approve"], "carried out": ["again"]}.get(run_of(found, run)["state"], [])
    return own + (["withdraw"] if may_be_withdrawn(found, run) else [])


def withdraw(found: sqlite3.Connection, settings: Settings, badge: str, run: int) -> None:
    """Withdraws a run of which nothing was carried out, so that its period can be proposed anew. Who proposed it may, until it is
    approved."""
    with changing(found):
        row = run_of(found, run)
        if badge not in settings.approvers and (badge != row["badge"] or row["state"] != "proposed"):
            raise Refused("You approve no runs")
        if not may_be_withdrawn(found, run):
            state = Term(row["state"])
            raise Refused("Run {run} is {state}, and what was sent of it may be done", run=run, state=state)
        found.execute("UPDATE runs SET state = 'withdrawn' WHERE run = ?", (run,))
        note_change(found, badge, "run", str(run), None, {"withdrawn by": badge})


def is_begun(found: sqlite3.Connection, run: int) -> bool:
    """Whether a transfer of a run was sent."""
    noted = (json.loads(it["new"] or "{}") for it in changes_of(found, "run", str(run)))
    return any(BEGUN in it for it in noted) or any(it.state != "waiting" for it in lines_of(found, run))


def note_begun(found: sqlite3.Connection, run: int) -> None:
    """Keeps, before the first transfer of an approved run is sent, that it is."""
    with changing(found):
        if (state := run_of(found, run)["state"]) != "approved":
            raise Refused("Run {run} is {state}", run=run, state=Term(state))
        if not is_begun(found, run):
            note_change(found, "(service)", "run", str(run), None, {BEGUN: now()})


def next_waiting(found: sqlite3.Connection, run: int) -> Line | None:
    """The first transfer that has no reply yet."""
    row = found.execute("SELECT * FROM run_lines WHERE run = ? AND state = 'waiting' ORDER BY line LIMIT 1", (run,)).fetchone()
    return Line(*row) if row else None


def strike(found: sqlite3.Connection, line: Line, is_done: bool, reply: str) -> None:
    """Keeps the reply to a transfer. After a part that was refused the later parts of that amount are not sent."""
    not_sent = as_kept(Sentence("not sent after part {part}", part=line.part))
    with changing(found):
        found.execute(
            "UPDATE run_lines SET state = ?, reply = ?, answered = ? WHERE run = ? AND line = ?",
            ("done" if is_done else "refused", reply, now(), line.run, line.line),
        )
        if not is_done:
            found.execute(
                "UPDATE run_lines SET state = 'refused', reply = ?, answered = ? WHERE run = ? AND account = ? AND part > ? "
                "AND state = 'waiting'",
                (not_sent, now(), line.run, line.account, line.part),
            )


def finish(found: sqlite3.Connection, run: int) -> None:
    """A run whose transfers all have a reply is carried out."""
    with changing(found):
        found.execute(
            "UPDATE runs SET state = 'carried out' WHERE run = ? AND state = 'approved' AND NOT EXISTS "
            "(SELECT 1 FROM run_lines WHERE run = ? AND state = 'waiting')",
            (run, run),
        )


def try_refused_again(found: sqlite3.Connection, settings: Settings, badge: str, run: int) -> None:
    """Has the refused transfers of a run sent once more. A request that was refused took no slip, so each keeps its own."""
    if badge not in settings.approvers:
        raise Refused("You approve no runs")
    with changing(found):
        if run_of(found, run)["state"] != "carried out":
            raise Refused("Run {run} is not carried out", run=run)
        found.execute(
            "UPDATE run_lines SET state = 'waiting', reply = '', answered = NULL WHERE run = ? AND state = 'refused'", (run,)
        )
        found.execute("UPDATE runs SET state = 'approved' WHERE run = ?", (run,))
        note_change(found, badge, "run", str(run), None, {"refused ones again by": badge})
