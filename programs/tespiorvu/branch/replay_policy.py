"""Replays the log of the policy's commands over the policy of an earlier copy. The package has it as bank-policy.

    bank-policy --before FILE [--now FILE] [--at MOMENT] [--user NUMBER] BADGES LOG...

LOG.. are files of policy.log, packed or not, BADGES is the list of badges. The commands that were carried out between the two copies
give the version and the five lists of the later one; else what is missing is printed, and the exit status is 1. With --at it prints
who could do what at that moment, in seconds since 1970: user, procedure, set, limit, first and last moment, and who granted it when
('-' if that was before FILE). FILE of the night has its moment in the name of its folder.

The office replays by this module, too. Each command makes one version. So of two copies the versions say how many commands lie
between; which of the log these are goes by its order, and by moments only as far as both clocks agree.
"""
import argparse
import json
import re
from collections.abc import Iterable, Iterator, Mapping, Sequence
from datetime import datetime, timezone
from itertools import accumulate, combinations
from pathlib import Path
from typing import Any, NamedTuple

from ..bank_file import moment_of, opened, version_of
from ..files import lines_of, users_of
from ..policy import FOREVER, Key, Policy, policy_of, put
from ..procedures import NUMBERS

COMMANDS = ("define-set", "certify", "withdraw", "grant", "revoke", "appoint", "dismiss", "enrol", "suspend", "restore")
PATH = re.compile("/policy/([a-z-]+)")
# The front says of a request without a reply, and of one whose reply it could not give, a status from here on: the bank may have carried
# it out, or not.
LEAST_UNSURE = 499
# Of how many commands without a reply each choice is tried, at most.
MOST_UNSURE = 12
# How many seconds before a copy a command may be dated that came after it, as the front looks at the clock once for many lines; and for
# how many after it one may still be written that the copy has.
EARLY, LATE = 0.5, 2.0


class Command(NamedTuple):
    """A command of the log that the bank carried out, or, without a reply, may have. `user` is who the badge is, if anybody."""

    moment: float
    badge: str
    user: int | None
    name: str
    body: dict[str, Any]
    request: str
    is_sure: bool = True

    def said(self) -> str:
        """What is printed of it."""
        return f"{clock(self.moment)} {self.badge} {self.name} {json.dumps(self.body, sort_keys=True)}"


class Fit(NamedTuple):
    """Which commands of a log a copy has, and which before them it lacks, as a copy that is put back lacks what came after it."""

    taken: list[Command]
    cut: list[Command]


class Step(NamedTuple):
    """From one copy to a later one: the policy that was, how many commands later which one is, and when its copy was made."""

    base: Policy
    commands: int
    wanted: Policy
    made: float


def clock(moment: float) -> str:
    """A moment, in UTC."""
    return datetime.fromtimestamp(moment, timezone.utc).isoformat(timespec="seconds")


# ---- the log

def command_of(line: str, users: Mapping[str, int]) -> Command | None:
    """The command of a line of the log, unless the bank refused it, or the line is torn or says how many were lost."""
    try:
        said = json.loads(line)
        name, body = PATH.fullmatch(said["path"]), json.loads(said["body"])
        is_sure = "200" in re.findall("[0-9]+", f"{said['status']} {said.get('bank')}")
        if name is None or name[1] not in COMMANDS or not isinstance(body, dict) or not is_sure and int(said["status"]) < LEAST_UNSURE:
            return None
        found = Command(float(said["ended"]), said["badge"], users.get(said["badge"]), name[1], body, said.get("request", line), is_sure)
        said_by({}, found) # a body that lacks what the command has is none
        return found
    except (ValueError, KeyError, TypeError):
        return None


def commands_in(lines: Iterable[str], users: Mapping[str, int]) -> list[Command]:
    """The commands of a log, each once, in the order of time."""
    found = {it.request: it for line in lines if (it := command_of(line, users))}
    return sorted(found.values(), key=lambda it: it.moment)


# ---- what each command does

def said_by(policy: Policy, command: Command) -> dict[Key, list[Any] | None]:
    """What a command says of rows of a policy: what each is after it, or that it is gone."""
    it = command.body
    user, procedure, number = it.get("user"), it.get("procedure"), it.get("set")
    match command.name:
        case "define-set":
            return {("set", number): it["members"]}
        case "certify":
            return {("relation", procedure, number): [command.user]}
        case "withdraw":
            gone: dict[Key, list[Any] | None] = {
                key: None for key in policy if key[0] == "triple" and key[2:] == (procedure, number)
            }
            return {("relation", procedure, number): None, **gone}
        case "grant":
            return {("triple", user, procedure, number): [it["limit"], it.get("first", 0), it.get("last", FOREVER)]}
        case "revoke":
            return {("triple", user, procedure, number): None}
        case "appoint" | "dismiss" as name:
            return {("certifier", user, procedure): [True] if name == "appoint" else None}
        case "enrol":
            return {("user", user): [it["name"], it["officer"]]}
        case "suspend" | "restore" as name:
            return {("suspended", user): [True] if name == "suspend" else None}
    return {}


def is_possible(policy: Policy, command: Command) -> bool:
    """Whether a policy has what a command needs, and not yet what it makes."""
    key, value = next(iter(said_by(policy, command).items()))
    if (key in policy) != (value is None):
        return False
    match key[0]:
        case "relation":
            return value is None or ("set", key[2]) in policy
        case "triple":
            return value is None or ("relation", *key[2:]) in policy and ("user", key[1]) in policy
        case "certifier" | "suspended":
            return value is None or ("user", key[1]) in policy
    return True


def replayed(policy: Policy, commands: Iterable[Command]) -> Policy:
    """The policy after these commands."""
    found = dict(policy)
    for it in commands:
        put(found, said_by(found, it))
    return found


def impossible(policy: Policy, commands: Iterable[Command]) -> Iterator[tuple[int, Command]]:
    """Those of the commands that could not have been carried out as things stood, by their places."""
    found = dict(policy)
    for place, it in enumerate(commands):
        if is_possible(found, it):
            put(found, said_by(found, it))
        else:
            yield place, it


# ---- which commands lie between two copies

def choices(commands: Sequence[Command], count: int) -> Iterator[list[Command]]:
    """All ways to take `count` of the commands: each that had a reply, and some of the others."""
    sure, unsure = [it for it in commands if it.is_sure], [it for it in commands if not it.is_sure]
    if len(sure) == count:
        yield sure
    elif count > len(sure) and len(unsure) <= MOST_UNSURE:
        for chosen in combinations(unsure, count - len(sure)):
            yield [it for it in commands if it.is_sure or it in chosen]


def leads(step: Step, taken: Sequence[Command]) -> bool:
    """Whether commands could have been carried out one after the other, and lead to the later policy."""
    return next(impossible(step.base, taken), None) is None and replayed(step.base, taken) == step.wanted


def fit_of(step: Step, commands: Sequence[Command], most_cut: int) -> Fit | None:
    """Which commands lead from a policy to a later one, in as many steps as their versions say, if any do; at most `most_cut` before
    them are cut. What came after the later copy was made stays for the next one."""
    sure = [0, *accumulate(int(it.is_sure) for it in commands)]
    first = sum(it.moment <= step.made - EARLY for it in commands)
    last = sum(it.moment <= step.made + LATE for it in commands)
    for cut in range(min(most_cut, last) + 1):
        for end in range(max(first, cut), last + 1):
            if sure[end] - sure[cut] <= step.commands <= end - cut:
                for taken in choices(commands[cut:end], step.commands):
                    if leads(step, taken):
                        return Fit(taken, [it for it in commands[:cut] if it.is_sure])
    return None


def differences(one: Policy, other: Policy) -> list[Key]:
    """The rows that two policies have not alike."""
    return sorted((it for it in {*one, *other} if one.get(it) != other.get(it)), key=str)


def described(key: Key, wanted: Policy, found: Policy) -> str:
    """A row that differs, as text."""
    texts = ["none" if it is None else ", ".join(map(str, it)) for it in (wanted.get(key), found.get(key))]
    return f"{' '.join(map(str, key))}: {texts[0]} in the copy, {texts[1]} by the log"


# ---- the command

class Replay(NamedTuple):
    """The version and the policy of the earlier copy, when it was made (of a year's file that is not known), and the log's commands."""

    version: int
    base: Policy
    first: float | None
    commands: list[Command]

    def since(self, moment: float) -> list[Command]:
        """The commands up to a moment that came after the earlier copy, as far as moments say it."""
        return [it for it in self.commands if it.is_sure and (self.first is None or it.moment > self.first) and it.moment <= moment]

    def after(self) -> list[Command]:
        """The commands that may have come after the earlier copy."""
        return [it for it in self.commands if self.first is None or it.moment > self.first - EARLY]

    def own(self) -> int:
        """How many of these the earlier copy may have itself."""
        return sum(self.first is None or it.moment <= self.first + LATE for it in self.after())

    def nearest(self, count: int, made: float) -> list[Command]:
        """The commands that lie between the copies by their moments, and as many of those close by as make `count`."""
        between = self.since(made)
        if self.first is None:
            return between[max(len(between) - count, 0) :]
        close = [it for it in self.after() if it.is_sure and it not in between and it.moment <= made + LATE]
        return sorted([*between, *close[: max(count - len(between), 0)]], key=lambda it: it.moment)


def unknown(replay: Replay, commands: Sequence[Command]) -> list[str]:
    """What is said of commands that could not have been carried out, as things stood, or by a badge that nobody has."""
    wrong = {*(place for place, _ in impossible(replay.base, commands)), *(place for place, it in enumerate(commands) if it.user is None)}
    return [f"a command before version {replay.version + place + 1}: {commands[place].said()}" for place in sorted(wrong)]


def compared(replay: Replay, version: int, wanted: Policy, made: float) -> list[str]:
    """What is missing between the earlier copy and a later one, of this version and policy."""
    count = version - replay.version
    if fit := fit_of(Step(replay.base, count, wanted, made), replay.after(), replay.own()):
        return unknown(replay, fit.taken)
    taken = replay.nearest(count, made)
    found, by_log = replayed(replay.base, taken), replay.version + len(taken)
    number = [] if by_log == version else [f"version {by_log} by the log, and {version} in the copy"]
    return [*unknown(replay, taken), *number, *(described(it, wanted, found) for it in differences(found, wanted))]


def rights_at(replay: Replay, moment: float) -> tuple[Policy, dict[Key, Command]]:
    """The policy at a moment, and since which command each of its rows stands. (A triple need not be valid then.)"""
    found, stands = dict(replay.base), dict[Key, Command]()
    for it in replay.since(moment):
        said = said_by(found, it)
        put(found, said)
        stands.update(dict.fromkeys(said, it))
    return found, stands


def replay_of(before: Path, badges: Mapping[str, int], lines: Iterable[str]) -> Replay:
    """What is replayed over an earlier copy."""
    bank = opened(before)
    return Replay(version_of(bank), policy_of(bank), moment_of(before), commands_in(lines, badges))


def said_of_rights(policy: Policy, stands: Mapping[Key, Command], user: int | None) -> Iterator[str]:
    """A line per triple of a policy."""
    for key in sorted((it for it in policy if it[0] == "triple"), key=lambda it: (it[1], NUMBERS[it[2]], it[3])):
        if user in (None, key[1]):
            by = stands.get(key)
            yield " ".join(map(str, (*key[1:], *policy[key], by.badge if by else "-", clock(by.moment) if by else "-")))


def main() -> int:
    """Prints what is missing, or rights."""
    reader = argparse.ArgumentParser(prog="bank-policy", description=__doc__, formatter_class=argparse.RawDescriptionHelpFormatter)
    reader.add_argument("--before", metavar="FILE", type=Path, required=True, help="the earlier copy")
    reader.add_argument("--now", metavar="FILE", type=Path, help="the later copy")
    reader.add_argument("--at", metavar="MOMENT", type=float, help="print the rights of that moment")
    reader.add_argument("--user", metavar="NUMBER", type=int, help="of this user alone")
    reader.add_argument("badges", metavar="BADGES", type=Path)
    reader.add_argument("log", metavar="LOG", type=Path, nargs="+")
    given = reader.parse_args()
    replay = replay_of(given.before, users_of(given.badges), lines_of(given.log))
    if given.at is not None:
        if replay.first is None:
            reader.error("--at needs a copy of a night before that moment, in its folder")
        print(*said_of_rights(*rights_at(replay, given.at), given.user), sep="\n")
        return 0
    if given.now:
        bank = opened(given.now)
        last = version_of(bank)
        missing = compared(replay, last, policy_of(bank), moment_of(given.now) or float(FOREVER))
    else:
        taken = replay.since(float(FOREVER))
        last, missing = replay.version + len(taken), unknown(replay, taken)
    print(*(missing or [f"version {replay.version} to {last}: nothing is missing"]), sep="\n")
    return 1 if missing else 0
