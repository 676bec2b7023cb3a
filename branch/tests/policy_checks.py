"""Checks of the replay of the policy's log: over the copy of a night it gives the lists of the next one, and says what is missing."""
import json
from collections.abc import Callable, Sequence
from pathlib import Path

from branch.tests.branches import USERS, Files
from branch.tests.commands import printed
from checks import require
from branch.tests.month import Asked, Month
from tespiorvu.bank_file import moment_of, opened, version_of
from tespiorvu.branch.replay_policy import EARLY, Replay, compared, replay_of, rights_at
from tespiorvu.policy import policy_of


def by(who: str, name: str, /, **body: object) -> Asked:
    """A command of the policy."""
    return Asked(who, f"/policy/{name}", dict(body))


def all_commands() -> list[Asked]:
    """Each command once at least, and a limit that is raised and put back."""
    raised = [by("carl", "revoke", user=7, procedure="post", set=1), by("carl", "grant", user=7, procedure="post", set=1, limit=999999999)]
    back = [raised[0], by("carl", "grant", user=7, procedure="post", set=1, limit=999999)]
    return [Asked("olga", "/session", ""), Asked("carl", "/session", ""), Asked("cora", "/session", ""),
            by("carl", "define-set", set=7, members=[[1, 101, 103], [3, 1, 1]]), by("cora", "certify", procedure="proof", set=7),
            by("carl", "grant", user=8, procedure="proof", set=7, limit=0, first=5, last=99), *raised, *back,
            by("cora", "withdraw", procedure="proof", set=7), by("olga", "enrol", user=21, name="Zo\u0065", officer=False),
            by("olga", "appoint", user=21, procedure="release"), by("olga", "dismiss", user=21, procedure="release"),
            by("olga", "suspend", user=21), by("olga", "restore", user=21), by("olga", "suspend", user=12)]


def said(month: Month, *given: str | Path) -> tuple[int, list[str]]:
    """The status of bank-policy, and what it prints."""
    return printed(month.files.share / "policy", *given)


def policy_is_replayed(files: Files) -> None:
    """Replay equals the night's copy, also across a year's end; each line that is taken out is missing; rights at a moment between are as
    they were, with who granted them; and what was refused is left out."""
    month = Month(files, "policy")
    before = month.good_night()
    month.ask(*all_commands(), is_traced=False)
    now, badges, log = month.good_night(), month.badges, month.trail / "policy.log"
    commands = [it for it in all_commands() if it.path != "/session"]
    moments = dates_around(before, now, len(commands))
    for it, moment in zip(commands, moments):
        month.trace(it, moment - 0.01, moment)
    month.trace(by("amy", "suspend", user=9), moments[0], moments[0] + 1, "403")
    given = ["--before", before / "bank", "--now", now / "bank", badges, log]
    require(said(month, *given), (0, ["version 0 to 14: nothing is missing"]), "a replay")
    lines = log.read_text().splitlines()
    each_line_is_missed(before, now, lines)
    rights_between(month, before, lines)
    month.day(posts=1)
    month.forward("2026")
    month.ask(Asked("olga", "/session", ""), by("olga", "restore", user=12))
    require(said(month, "--before", now / "bank", "--now", month.good_night() / "bank", badges, log), (0, ["version 14 to 15: nothing is missing"]), "a year's end")


def dates_around(before: Path, now: Path, count: int) -> list[float]:
    """Moments of n commands: the first just before the earlier copy's and the last just after the later one's, as the front's clock may
    date what lies between these (the versions say which), the others after the earlier copy's."""
    first, last = moment_of(before / "bank"), moment_of(now / "bank")
    assert first is not None and last is not None
    step = (last + EARLY - first) / (count - 1)
    return [first - EARLY / 2, *(first + step * number for number in range(1, count))]


def each_line_is_missed(before: Path, now: Path, lines: Sequence[str]) -> None:
    """Without any line of a command that was carried out, the version differs; if a line is changed, what it changed."""
    bank = opened(now / "bank")
    version, later, made = version_of(bank), policy_of(bank), moment_of(now / "bank")

    def missing(these: Sequence[str]) -> list[str]:
        assert made is not None
        return compared(replay_of(before / "bank", USERS, these), version, later, made)

    require(missing(lines), [], "all lines")
    carried_out = [it for it in lines if '"status":"200"' in it]
    for line in carried_out:
        found = missing([it for it in lines if it != line])
        require(f"version {version - 1} by the log, and {version} in the copy" in found, True, f"without {line}: {found}")
    last = next(it for it in reversed(carried_out) if '999999}"' in it)
    found = missing([it.replace('999999}"', '999998}"') if it == last else it for it in lines])
    require(found, ["triple 7 post 1: 999999, 0, 99999999999 in the copy, 999998, 0, 99999999999 by the log"], "another limit")
    unknown = [it.replace('"badge":"carl"', '"badge":"gone"') for it in lines]
    require("a command before version 1:" in missing(unknown)[0], True, "a badge that nobody has")
    revoke, grant = (json.loads(it) for it in carried_out[3:5])
    twice = [json.dumps({**grant, "ended": revoke["ended"]}) if it == carried_out[3] else it for it in lines]
    wanted = [f"a command before version {it}" for it in (4, 5)]
    require([it.partition(":")[0] for it in missing(twice)], wanted, "grants of what was there")
    lost = [it.replace('"status":"200","bank":"200"', '"status":"504","bank":"-"') if it == last else it for it in lines]
    require(missing(lost), [], "a command whose reply was lost, and that was carried out")


def rights_between(month: Month, before: Path, lines: Sequence[str]) -> None:
    """The limit that was raised and put back, at the moments of its commands."""
    replay = replay_of(before / "bank", USERS, lines)
    changes, key = [it.moment for it in replay.commands if it.body.get("user") == 7], ("triple", 7, "post", 1)

    def limit_at(known: Replay, moment: float) -> tuple[int, str] | None:
        policy, stands = rights_at(known, moment)
        return (policy[key][0], stands[key].badge if key in stands else "-") if key in policy else None

    found = [limit_at(replay, it) for it in (changes[0] - 1, *changes)]
    require(found, [(999999, "-"), None, (999999999, "carl"), None, (999999, "carl")], "limits of user 7")
    status, rights = said(month, "--before", before / "bank", "--at", str(changes[1]), "--user", "7", month.badges, month.trail / "policy.log")
    require((status, [it.split()[:7] for it in rights if it.split()[1] == "post"]), (0, ["7 post 1 999999999 0 99999999999 carl".split()]), "rights then")


CHECKS: list[Callable[[Files], None]] = [policy_is_replayed]
