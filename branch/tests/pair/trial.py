"""The trial of a pair: round after round, each followed by the comparison of disks and book."""
import subprocess
import time
from collections.abc import Iterable
from pathlib import Path

from branch.tests.branches import USERS
from checks import Report, Wrong, reason
from branch.tests.pair.branch_pair import Pair
from branch.tests.pair.comparison import ENTRIES, sql
from branch.tests.pair.figures import Round, add, next_kind, read
from branch.tests.pair.machines import say
from branch.tests.pair.rounds import Kind
from branch.tests.pair.tellers import WITHOUT_SLIPS

LOOK = "cat /proc/drbd; systemctl --failed --no-legend; journalctl -n 90 --no-pager -p info | grep -v sshd"
BARE = {USERS[who] for who in WITHOUT_SLIPS}


def both_served(pair: Pair, since: float, kind: Kind) -> str:
    """What is said if the machines, asked by their own addresses, served in turn more often than the kind of round has it."""
    turns = pair.book.machines_in_turn(since)
    return f"both served: by their own addresses acknowledged, in turn, {'-'.join(turns)}" if len(turns) > kind.turns + 1 else ""


def make_round(pair: Pair, kind: Kind, file: Path) -> str | None:
    """Makes a round, and adds it to the file. What is wrong, if anything."""
    since, before = time.monotonic(), pair.book.unanswered(BARE)
    text, result, entries, unanswered, there = "", "passed", 0, set[tuple[int, int]](), 0
    why, pause = None, float("nan")
    try:
        text = kind.make(pair)
        pause = pair.book.longest_pause(since) # without the one of the comparison
        if both_served(pair, since, kind):
            raise Wrong("two served")
        entries = pair.check()
        unanswered = pair.book.unanswered(BARE) - before
        found = {(int(user), int(delta)) for _, user, delta in sql(pair.serving(), ENTRIES)} if unanswered else set()
        there = len(unanswered & found)
        text += "".join(f"; the switch turned {it.name} off" for it in pair.switch.turned_off(since))
    except Exception as error:  # noqa: BLE001 - whatever goes wrong is a round that failed
        result, why = "FAILED", f"{both_served(pair, since, kind)} {reason(error)}".strip()
        text = f"{why} {text} {pair.states()}"
    add(file, pair.folder.name, Round(kind.name, result, pause, entries, there, len(unanswered) - there, text))
    say(f"{kind.name}: {result}, {pause:.1f} s without service, {entries} posts more, {len(unanswered)} without a slip not answered; {text}")
    return why


def look_around(pair: Pair) -> None:
    """Prints what the machines say of a round that failed."""
    for each in pair.machines.values():
        if each.is_on():
            said = each.sh(LOOK, timeout=30).stdout
            print(f"---- {each.name}\n{said[-9000:]}", flush=True)


def rounds_of(pair: Pair, file: Path, count: int, names: tuple[str, ...]) -> Iterable[tuple[str, str | None]]:
    """Makes n rounds of these kinds, or of all, one after another; the name of each, and what is wrong with it."""
    for number in range(count):
        kind = next_kind(read(file), pair.way, names)
        why = make_round(pair, kind, file)
        yield f"{number + 1}, {kind.name}", why
        if why:
            look_around(pair)
            if pair.plant:
                return
            pair.repair()


def tried(pair: Pair, packages: list[Path], file: Path, count: int, names: tuple[str, ...]) -> int:
    """Makes the pair, or goes on with it, and makes rounds. The exit status."""
    report = Report(count)
    try:
        if (pair.folder / "made").exists():
            pair.go_on()
        else:
            pair.make(packages)
        pair.serve()
        for name, why in rounds_of(pair, file, count, names):
            report.add(name, why)
        return report.end() if not pair.plant else found(pair, report)
    except (Wrong, OSError, subprocess.SubprocessError) as error:
        look_around(pair)
        report.add("the pair, which could not be made or mended", reason(error))
        return report.end()
    finally:
        pair.end()


def found(pair: Pair, report: Report) -> int:
    """Says whether the planted fault was found. The exit status."""
    is_found = report.failed > 0
    print(f"{'found' if is_found else 'NOT FOUND'}: {pair.plant.name if pair.plant else ''}, in round {report.passed + 1}")
    print(f"{int(is_found)} passed, {int(not is_found)} failed", flush=True)
    return 0 if is_found else 1
