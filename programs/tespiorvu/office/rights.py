"""Who could what at a moment, and how that came: the policy's log as a history of rights, with what was undone within a day."""
import sqlite3
from collections.abc import Iterable, Iterator
from typing import NamedTuple

from ..branch.replay_policy import Command, replayed, said_by
from ..policy import FOREVER, Key, Kind, Operation, Policy, amount_of, has_triple, put, touched
from .copies import Copy
from .policy_file import Night, left_by, nights_of, policy_in, taken_by
from .store import Refused

SOON = 86_400
# Procedures whose entries are looked for, with the form of their entries.
FORMS = {"post": 1, "transfer": 2, "correct": 3}
ENTRIES = """
SELECT it.branch, it.number, it.day, it.moment, it.user_no, it.account, it.teller, it.delta, it.undoes,
    coalesce(other.account, 0) AS other
FROM entries AS it LEFT JOIN entries AS other ON it.partner != 0 AND other.branch = it.branch AND other.number = it.partner
WHERE it.user_no = ? AND it.form = ? AND it.moment BETWEEN ? AND ? AND (it.partner = 0 OR it.partner > it.number)
"""
RELEASED = """
SELECT 1 FROM releases WHERE user_no = ? AND used = 1 AND branch = ? AND day = ? AND form = ?
    AND (member1, member2, member3, member4, member5, member6) = (?, ?, ?, ?, ?, ?)
"""


class Rights(NamedTuple):
    """The policy at a moment: since which command each row stands, the last night that is known of, and what isn't known of it."""

    policy: Policy
    since: dict[Key, Command]
    night: Night
    fault: str

    def users(self) -> list[int]:
        """All users."""
        return sorted(key[1] for key in self.policy if key[0] == "user")

    def of(self, kind: str, *begin: object) -> list[Key]:
        """The rows of a kind whose key begins so."""
        return sorted(key for key in self.policy if key[: 1 + len(begin)] == (kind, *begin))


class Change(NamedTuple):
    """A command that a night took, with what it changed: each row before and after. `policy` is the whole before it."""

    night: Night
    version: int
    command: Command
    rows: dict[Key, tuple[list[object] | None, list[object] | None]]


class Entry(NamedTuple):
    """An entry as one that was asked for: of two legs the first."""

    branch: int
    number: int
    day: int
    moment: int
    user: int
    account: int
    teller: int
    delta: int
    undoes: int
    other: int

    def operation(self, procedure: str) -> Operation:
        """The operation that made it."""
        place: Operation = {"procedure": procedure, "teller": self.teller, "branch": self.branch}
        if procedure == "post":
            return {**place, "account": self.account, "delta": self.delta}
        if procedure == "transfer":
            return {**place, "source": self.account, "target": self.other, "amount": abs(self.delta)}
        return {**place, "account": self.account, "other": self.other, "entry": self.undoes, "delta": -self.delta}


class Undone(NamedTuple):
    """A row of a change that got its earlier value back within a day, by whose command, and the entries that neither the policy
    before nor the one after allows."""

    key: Key
    by: Command
    above: list[Entry]


def changes_of(found: sqlite3.Connection) -> Iterator[Change]:
    """All changes of the policy, in their order."""
    nights = {it.night: it for it in nights_of(found)}
    for night in nights.values():
        if night.base is None or night.state == "gap":
            continue
        base = nights[night.base]
        present = policy_in(base.policy)
        for version, command in enumerate(taken_by(found, night.night), base.version + 1):
            said = said_by(present, command)
            yield Change(night, version, command, {it: (present.get(it), said[it]) for it in said})
            put(present, said)


def policy_before(found: sqlite3.Connection, change: Change) -> Policy:
    """The policy that a change found."""
    base = next(it for it in nights_of(found) if it.night == change.night.base)
    commands = taken_by(found, change.night.night)
    return replayed(policy_in(base.policy), commands[: change.version - base.version - 1])


def cut_by(found: sqlite3.Connection, night: Night) -> set[str]:
    """The commands that a night or one before it has cut."""
    rows = found.execute("SELECT request FROM commands JOIN cuts USING (place) WHERE cuts.night <= ?", (night.night,))
    return {it["request"] for it in rows}


def rights_at(found: sqlite3.Connection, moment: float) -> Rights:
    """The policy at a moment, as far as it is known."""
    nights = nights_of(found)
    if not nights:
        raise Refused("No night's copy has been taken yet")
    if moment < nights[0].made:
        raise Refused("The policy's log begins later: the copies of that time have the policy of each night")
    before = [it for it in nights if it.made <= moment][-1]
    after = next((it for it in nights if it.made > moment), None)
    since, cut = dict[Key, Command](), cut_by(found, before)
    for change in changes_of(found):
        if change.command.moment <= moment and change.night.made <= before.made and change.command.request not in cut:
            since.update({it: change.command for it in change.rows})
    if after is None:
        return Rights(policy_in(before.policy), since, before, "")
    if after.state == "gap":
        return Rights(policy_in(before.policy), since, before, after.fault)
    known = next(it for it in nights if it.night == after.base)
    commands = [it for it in taken_by(found, after.night) if it.moment <= moment]
    if after.state == "restored" and not commands:
        known, commands = before, [it for it in left_by(found, after.night) if before.made < it.moment <= moment]
    since.update({key: it for it in commands for key in said_by(policy_in(known.policy), it)})
    return Rights(replayed(policy_in(known.policy), commands), since, before, "")


def is_released(copy: Copy, entry: Entry, procedure: str) -> bool:
    """Whether a release was used for an entry."""
    it = entry.operation(procedure)
    members = {
        "post": ("account", "teller", "branch", "delta"),
        "transfer": ("source", "target", "teller", "branch", "amount"),
        "correct": ("branch", "entry", "account", "other", "teller", "delta"),
    }[procedure]
    values = [it[name] for name in members] + [0] * (6 - len(members))
    return copy.row(RELEASED, entry.user, entry.branch, entry.day, FORMS[procedure], *values) is not None


def above(copies: Iterable[Copy], user: int, procedure: str, span: tuple[float, float], policies: list[Policy]) -> list[Entry]:
    """The entries of a user in a time that one of these policies does not allow, but for those by a release."""
    if procedure not in FORMS:
        return []
    found = list[Entry]()
    for copy in copies:
        for row in copy.rows(ENTRIES, user, FORMS[procedure], int(span[0]), int(span[1])):
            entry = Entry(*row)
            operation = entry.operation(procedure)
            items, amount = touched(operation), amount_of(operation)
            is_allowed = all(has_triple(it, user, procedure, items, entry.moment, amount) for it in policies)
            if not is_allowed and not is_released(copy, entry, procedure):
                found.append(entry)
    return found


def undone_of(found: sqlite3.Connection, copies: list[Copy], changes: list[Change]) -> dict[int, list[Undone]]:
    """What of each change, by its place in the list, was as before within a day."""
    marks = dict[int, list[Undone]]()
    for place, one in enumerate(changes):
        for key, (before, after) in one.rows.items():
            other = next((it for it in until(changes[place + 1 :], one, key) if it.rows[key][1] == before), None)
            if before != after and other:
                policies = [policy_before(found, one), replayed(policy_before(found, other), [other.command])]
                span = one.command.moment, other.command.moment
            elif ends_soon(key, one):
                policies, span, other = [policy_before(found, one)], (one.command.moment, one.command.body["last"]), one
            else:
                continue
            entries = above(copies, key[1], key[2], span, policies) if key[0] == "triple" else []
            marks.setdefault(place, []).append(Undone(key, other.command, entries))
    return marks


def ends_soon(key: Key, one: Change) -> bool:
    """Whether a triple was granted that ends by itself within a day."""
    is_grant = key[0] == "triple" and one.command.name == "grant"
    return is_grant and one.command.body.get("last", FOREVER) <= one.command.moment + SOON


def until(later: Iterable[Change], one: Change, key: Key) -> Iterator[Change]:
    """The changes of a row within a day after one."""
    for it in later:
        if it.command.moment > one.command.moment + SOON:
            return
        if key in it.rows:
            yield it


def items_in(members: Iterable[Iterable[int]]) -> list[tuple[str, int, int]]:
    """The items of a set, as a page shows them: of which kind, from which number to which."""
    return [(Kind(kind).name.lower(), low, high) for kind, low, high in members]


def items_of(known: Policy, number: int) -> list[tuple[str, int, int]]:
    """The items of a set of a policy."""
    return items_in(known.get(("set", number), []))


def is_limitless(value: list[int]) -> bool:
    """Whether a triple is valid at all moments."""
    return value[1:] == [0, FOREVER]
