"""The file of the policy's log, which grows by a night at a time: each night's commands are taken only if replayed over the policy of
the night before, or of the night whose copy was put back, they give that of the copy."""
import hashlib
import json
import re
import sqlite3
from collections.abc import Iterator, Mapping
from contextlib import contextmanager
from pathlib import Path
from typing import NamedTuple

from ..branch.replay_policy import EARLY, LATE, Command, Fit, Step, commands_in, differences, fit_of, replayed
from ..policy import Key, Policy, policy_of
from .copies import Copies, Copy
from .languages import Sentence, Term, as_kept
from .migrations import CHANGES, Tables
from .settings import Settings
from .store import Refused, changing, note_change, now, opened

POLICY = Tables(("schema_policy.sql", CHANGES))
BY_NIGHT = "(night)"
# Of how many nights a copy may be that is put back.
MOST_BACK = 60
MOST_NAMED = 8
COLUMNS = "moment, badge, user, name, body, request, is_sure"


class Night(NamedTuple):
    """A night of the file; `base` is the night over whose policy its commands were replayed."""

    night: int
    made: float
    version: int
    policy: str
    base: int | None
    state: str
    fault: str
    lost: int

    @property
    def is_red(self) -> bool:
        """Whether somebody has to look at it."""
        return self.state in ("gap", "restored")


def text_of(policy: Policy) -> str:
    """A policy as it is kept."""
    return json.dumps(sorted(([*key], value) for key, value in policy.items()), separators=(",", ":"))


def policy_in(text: str) -> Policy:
    """A policy that was kept."""
    return {tuple(key): value for key, value in json.loads(text)}


def lost_in(text: str) -> int:
    """How many lines had no room in the log, by what it says itself."""
    lost = 0
    for line in text.split("\n"):
        if '"lost":' in line and '"path"' not in line:
            found = re.search('"lost":([0-9]+)', line)
            lost += int(found[1]) if found else 0
    return lost


def path_of(settings: Settings) -> Path:
    """Where the file is: in a folder beside the register, so that its copies are apart."""
    return settings.file.with_name("policy-log") / "policy"


@contextmanager
def opened_policy(settings: Settings) -> Iterator[sqlite3.Connection]:
    """The file of the policy's log."""
    file = path_of(settings)
    file.parent.mkdir(mode=0o700, exist_ok=True)
    with opened(file, POLICY) as found:
        yield found


def nights_of(found: sqlite3.Connection) -> list[Night]:
    """All nights, in their order."""
    return [Night(*it) for it in found.execute("SELECT * FROM nights ORDER BY night")]


def explained(found: sqlite3.Connection) -> dict[int, sqlite3.Row]:
    """What was written of nights, by their numbers."""
    return {it["night"]: it for it in found.execute("SELECT * FROM explained")}


def command_in(row: sqlite3.Row) -> Command:
    """A command as it is kept."""
    moment, badge, user, name, body, request, is_sure = row[:7]
    return Command(moment, badge, user, name, json.loads(body), request, bool(is_sure))


def taken_by(found: sqlite3.Connection, night: int) -> list[Command]:
    """The commands that a night's copy has."""
    query = f"SELECT {COLUMNS} FROM commands WHERE night = ? AND version IS NOT NULL ORDER BY place"
    return [command_in(it) for it in found.execute(query, (night,))]


def left_by(found: sqlite3.Connection, night: int) -> list[Command]:
    """The commands that were in the log, and that a night's copy does not have."""
    own = f"SELECT {COLUMNS}, place FROM commands WHERE night = ?1 AND version IS NULL"
    cut = f"SELECT {COLUMNS}, place FROM commands JOIN cuts USING (place) WHERE cuts.night = ?1"
    return [command_in(it) for it in found.execute(f"{own} UNION ALL {cut} ORDER BY place", (night,))]


def standing_since(found: sqlite3.Connection, night: int) -> list[Command]:
    """The commands that nights after one took, and that none has cut."""
    query = (
        f"SELECT {COLUMNS} FROM commands WHERE night > ? AND version IS NOT NULL AND place NOT IN (SELECT place FROM cuts) ORDER BY place"
    )
    return [command_in(it) for it in found.execute(query, (night,))]


def users_of(found: sqlite3.Connection, copies: Copies) -> dict[str, int]:
    """Who each badge is: by today's list, and else by that of an earlier night."""
    before = {it["badge"]: it["user"] for it in found.execute("SELECT badge, user FROM badges")}
    return {**before, **copies.badges()}


def new_commands(found: sqlite3.Connection, log: str, users: Mapping[str, int]) -> list[Command]:
    """The commands of a log that no night has, and that need not be in the first night's copy."""
    kept = {it[0] for it in found.execute("SELECT request FROM commands")}
    first = nights_of(found)[0].made
    return [it for it in commands_in(log.split("\n"), users) if it.request not in kept and it.moment > first - EARLY]


def fit_over(found: sqlite3.Connection, new: list[Command], version: int, wanted: Policy, made: float) -> tuple[Night, Fit] | None:
    """The newest night from whose policy commands lead to that of a copy, and which. If it is not the last, its copy was put back. What
    of the log is in the first night's copy is not cut."""
    own = nights_of(found)[0].made + LATE
    for night in reversed(nights_of(found)[-MOST_BACK:]):
        commands, step = [*standing_since(found, night.night), *new], Step(policy_in(night.policy), version - night.version, wanted, made)
        if step.commands >= 0 and (fit := fit_of(step, commands, len(commands))):
            return night, Fit(fit.taken, [it for it in fit.cut if it.moment > own])
    return None


def named(key: Key) -> Sentence:
    """What a row of a policy is called."""
    user, procedure, number = key[1], Term(str(key[-2])), key[-1]
    return {
        "user": Sentence("user {user}", user=user),
        "suspended": Sentence("suspended {user}", user=user),
        "set": Sentence("set {number}", number=number),
        "relation": Sentence("relation {procedure} {number}", procedure=procedure, number=number),
        "triple": Sentence("triple {user} {procedure} {number}", user=user, procedure=procedure, number=number),
        "certifier": Sentence("certifier {user} {procedure}", user=user, procedure=Term(str(key[-1]))),
    }[key[0]]


def differs(key: Key, *policies: Policy) -> Sentence:
    """A row that a copy and the log have not alike."""
    rows = (policy.get(key, [Sentence("none")]) for policy in policies)
    copied, logged = ([str(it) if isinstance(it, list) else it for it in row] for row in rows)
    return Sentence("{row}: {copied} in the copy, {logged} by the log", row=named(key), copied=copied, logged=logged)


def fault_of(last: Night, new: list[Command], version: int, wanted: Policy) -> str:
    """What is kept if no commands of the log lead to the policy of a copy."""
    count, sure = version - last.version, [it for it in new if it.is_sure]
    found = replayed(policy_in(last.policy), sure)
    rows = [differs(it, wanted, found) for it in differences(found, wanted)]
    more = [Sentence("and {count} rows more", count=len(rows) - MOST_NAMED)] if len(rows) > MOST_NAMED else []
    number = Sentence("the copy has {count} commands since, and the log {sure}", count=count, sure=len(sure))
    if len(sure) < count:
        missing = count - len(sure)
        number = Sentence("{missing} of {count} commands are missing in the log", missing=missing, count=count)
    return as_kept([number, *rows[:MOST_NAMED], *more])


def fault_of_cut(fit: Fit) -> str:
    """What is kept of commands that a copy which was put back no longer has."""
    count = len(fit.cut)
    return as_kept(Sentence("a copy of an earlier night was put back: {count} commands after it are cut", count=count))


def keep(found: sqlite3.Connection, night: int, version: int | None, command: Command) -> int:
    """Keeps a command with a night, with the version that it made; its place. One that is there is kept as it is."""
    row = found.execute("SELECT place FROM commands WHERE request = ?", (command.request,)).fetchone()
    if row:
        return int(row["place"])
    values = (night, version, *command[:4], json.dumps(command.body), command.request, int(command.is_sure))
    made = found.execute(f"INSERT INTO commands (night, version, {COLUMNS}) VALUES (?, ?, ?, ?, ?, ?, ?, ?, ?)", values)
    return int(made.lastrowid or 0)


def add_night(found: sqlite3.Connection, copy: Copy, base: int | None, state: str, fault: str, lost: int) -> Night:
    """Adds a night."""
    values = (copy.exactly, copy.version, text_of(policy_of(copy.bank)), base, state, fault, lost)
    made = found.execute("INSERT INTO nights (made, version, policy, base, state, fault, lost) VALUES (?, ?, ?, ?, ?, ?, ?)", values)
    night = Night(int(made.lastrowid or 0), *values)
    digest = hashlib.sha256(night.policy.encode()).hexdigest()
    note_change(found, BY_NIGHT, "night", str(night.night), None, {"version": night.version, "state": state, "policy": digest})
    return night


def take_copy(found: sqlite3.Connection, copies: Copies, copy: Copy, log: str) -> Night:
    """Takes a night, within the transaction that is open."""
    found.executemany("INSERT OR IGNORE INTO badges VALUES (?, ?)", copies.badges().items())
    nights = nights_of(found)
    lost = max(lost_in(log) - sum(it.lost for it in nights), 0)
    if not nights:
        return add_night(found, copy, None, "begun", "", lost)
    last, new = nights[-1], new_commands(found, log, users_of(found, copies))
    version, wanted = copy.version, policy_of(copy.bank)
    over = fit_over(found, new, version, wanted, copy.exactly)
    if over is None:
        night = add_night(found, copy, last.night, "gap", fault_of(last, new, version, wanted), lost)
        for it in new:
            if it.moment <= copy.exactly + LATE:
                keep(found, night.night, None, it)
        return night
    base, fit = over
    is_back = bool(fit.cut) or base.night != last.night
    night = add_night(found, copy, base.night, "restored" if is_back else "replayed", fault_of_cut(fit) if is_back else "", lost)
    for it in fit.cut:
        place = keep(found, night.night, None, it)
        found.execute("INSERT OR IGNORE INTO cuts SELECT place, ? FROM commands WHERE place = ? AND version IS NOT NULL", (night.night, place))
    for version, it in enumerate(fit.taken, base.version + 1):
        keep(found, night.night, version, it)
    return night


def take(settings: Settings, log: Path) -> Night:
    """Takes the newest copy and the log's commands up to it; the night that is the last then."""
    copies = Copies(settings.copies)
    text = log.read_text(encoding="utf-8", errors="replace") if log.exists() else ""
    with opened_policy(settings) as found, copies.present() as copy, changing(found):
        nights = nights_of(found)
        if nights and nights[-1].made == copy.exactly:
            return nights[-1]
        if nights and nights[-1].made > copy.exactly:
            raise Refused("The copy is older than the last night that was taken")
        return take_copy(found, copies, copy, text)


def explain(found: sqlite3.Connection, badge: str, night: int, reason: str) -> None:
    """Keeps why a night was not replayed as it should have been."""
    if not reason.strip():
        raise Refused("A reason is a text")
    if not any(it.night == night and it.is_red for it in nights_of(found)):
        raise Refused("Nothing has to be explained of night {night}", night=night)
    with changing(found):
        try:
            found.execute("INSERT INTO explained VALUES (?, ?, ?, ?)", (night, now(), badge, reason.strip()))
        except sqlite3.IntegrityError as error:
            raise Refused("Night {night} is explained", night=night) from error
        note_change(found, badge, "night", str(night), None, {"reason": reason.strip()})
