"""Random requests as tools draw them, sent to the built programs, whose replies are compared with those of the reference model."""
import argparse
import os
import re
import subprocess
import tempfile
from collections import Counter
from collections.abc import Callable, Iterable, Sequence
from concurrent.futures import ProcessPoolExecutor
from random import Random
from typing import NamedTuple

from checks import Check, Report, Wrong, outcome, reader, reason, refuse
from model.answers import is_allowed
from model.bank import BADGES, COMMANDS, OPERATIONS, RULES, Bank, Body, without_member
from model.requests import DRAWN, Request, again, any_slip, slips_of, spoiled
from repository import are_built
from sample_file import make_sample, require_sound, run_arguments

# How often each reply was given, by its status or the rule that denies, by `report` and by `again`.
Counts = Counter[str | int]
# The paths of programs, and of the sample bank in a file.
Programs = tuple[str, ...]

SECONDS = 240

# How often each kind is drawn.
WEIGHTS = {
    "session": 3,
    "end": 1,
    "post": 20,
    "transfer": 12,
    "correct": 8,
    "drawer-on": 6,
    "drawer-off": 6,
    "move-cash": 8,
    "new-account": 4,
    "balance": 16,
    "statement": 5,
    "accounts": 4,
    "proof": 4,
    "listing": 3,
    "close-day": 4,
    "release": 6,
    "use of a release": 6,
    "slip again": 10,
    "define-set": 3,
    "certify": 3,
    "withdraw": 1,
    "grant": 6,
    "revoke": 3,
    "appoint": 1,
    "dismiss": 1,
    "enrol": 2,
    "suspend": 1,
    "restore": 2,
}
# So often a request is sent as it was drawn first, whether it is allowed or not. So often of these it comes from anyone, in a
# session that may be another, and so often its body is spoiled.
ANY = 0.35
BY_ANYONE = 0.4
SPOILED = 0.1
# Otherwise requests of a kind are drawn until one is allowed: DRAWS of each kind at most, of KINDS_TRIED kinds.
KINDS_TRIED = 4
DRAWS = 20
# What stands in a reply that denies, and in one that is a report.
DENIED = re.compile(rb'\r\n\r\n\{"name":"([a-z ]+)","rule":\d+\}')
REPORT = b"\r\nContent-Type: text/plain\r\n"


def absolute(path: str) -> str:
    """A path from the root on."""
    return os.path.abspath(path)


def arguments(description: str | None, streams: int, *, has_stores: bool = False, **programs: str) -> argparse.Namespace:
    """What the command line says: how many streams, by which seed, and over which programs; or else these, and the seed 1; and
    whether stores are left out, if some are sent to those."""
    arguments = reader(description, program=None, has_checks=False, has_stores=has_stores)
    arguments.add_argument("streams", metavar="N", nargs="?", type=int, default=streams)
    arguments.add_argument("seed", metavar="SEED", nargs="?", type=int, default=1)
    for name, program in programs.items():
        arguments.add_argument(name, metavar=name.upper(), nargs="?", type=absolute, default=program)
    return arguments.parse_args()


def of_kind(bank: Bank, kind: str, rng: Random, moment: int) -> Request:
    """A request of this kind at a moment, as it is drawn first."""
    user, release = rng.choice(list(BADGES)), 0
    body: Body = {}
    if kind == "slip again":
        user = rng.choice([it for it in BADGES if slips_of(bank, it)] or [user])
        return again(bank, user, rng, moment) or of_kind(bank, "balance", rng, moment)
    given = [(key, it.operation) for key, it in bank.releases.items() if key[0] in BADGES and key not in bank.used]
    if kind == "use of a release" and given:
        (user, release), operation = rng.choice(given)
        kind, body = operation["procedure"], without_member(operation, "procedure")
    elif kind == "session":
        user = rng.choice([it for it in BADGES if it not in bank.open] or list(BADGES))
    elif kind in COMMANDS:
        body = DRAWN[kind](bank, user, rng)
    elif kind not in ("end", "listing"):
        kind = kind if kind in OPERATIONS else "release"
        user = rng.choice([it for it in bank.users_of(kind) if it in BADGES] or list(BADGES))
        body = DRAWN[kind](bank, user, rng)
    return Request(bank, kind, user, body, release, moment, any_slip(bank, user, rng))


def drawn(bank: Bank, rng: Random, moment: int) -> Request:
    """A request at a moment, most often one that is allowed."""
    kinds = rng.choices(list(WEIGHTS), list(WEIGHTS.values()), k=KINDS_TRIED)
    if rng.random() < ANY:
        request = of_kind(bank, kinds[0], rng, moment)
        if rng.random() < BY_ANYONE:
            request.user = rng.choice(list(BADGES))
            request.session = max(bank.sessions[request.user] + rng.choice([0, 0, 0, 0, -1, 1]), 1)
        if request.body and rng.random() < SPOILED:
            request.body = spoiled(request.body, rng)
        return request
    requests = (of_kind(bank, kind, rng, moment) for kind in kinds for _ in range(DRAWS))
    allowed = (it for it in requests if is_allowed(bank, it))
    return next(allowed, of_kind(bank, "session", rng, moment))


def count(told: Counts, status: int, reply: bytes, is_again: bool) -> None:
    """Counts a reply, which may be one that was given before."""
    denied = DENIED.search(reply)
    told[denied[1].decode() if denied else status] += 1
    told["report"] += REPORT in reply
    told["again"] += is_again


class Part:
    """What is sent at one moment of a stream, and the replies of the model."""

    def __init__(self, moment: int) -> None:
        self.moment = moment
        self.sent: list[bytes] = []
        self.replies: list[bytes] = []

    def add(self, request: Request, reply: bytes) -> None:
        self.sent.append(request.message())
        self.replies.append(reply)


def compare(store: str, words: list[str], part: Part) -> None:
    """Sends what a stream has at a moment to a store, which has to write its replies."""
    sent, replies = part.sent, part.replies
    run = subprocess.run(words, input=b"".join(sent), capture_output=True, timeout=SECONDS, check=False)
    if (run.returncode, run.stderr) != (0, b""):
        raise Wrong(f"{store} ended with status {run.returncode} and wrote {run.stderr!r}")
    if run.stdout != b"".join(replies):
        raise Wrong(f"{store}: {first_difference(run.stdout, sent, replies)}")


def compare_file(name: str, program: str, file: str, parts: Iterable[Part]) -> None:
    """Sends the parts of a stream to a bank in a file, each by a run of its moment. `check` has to find its books sound then."""
    for part in parts:
        compare(name, [program, *run_arguments(file, part.moment)], part)
    require_sound(program, file)


def first_difference(wrote: bytes, sent: list[bytes], replies: list[bytes]) -> str:
    """The first message that was answered otherwise."""
    for message, reply in zip(sent, replies):
        if not wrote.startswith(reply):
            return f"to {message!r} it wrote {wrote[: len(reply) + 40]!r} and not {reply!r}"
        wrote = wrote[len(reply) :]
    return f"it wrote {wrote[:200]!r} after the last reply"


class Kind(NamedTuple):
    """A kind of streams: its name, what sends the one of a seed and returns how often each reply was given, and of how many seeds
    one is sent."""

    name: str
    send: Callable[[Programs, str], Counts]
    of_seeds: int = 1


def judge(send: Callable[[Programs, str], Counts], programs: Programs, seed: str) -> tuple[Counts, str | None]:
    """How often each reply was given in a stream, and what was wrong."""
    found: list[Counts] = []
    _, error = outcome(lambda: found.append(send(programs, seed)))
    return found[0] if found else Counts(), reason(error)


def judge_all(report: Report, kind: Kind, programs: Programs, seeds: Sequence[str]) -> None:
    """Sends the streams of a kind, takes each as a check, and that half of their requests were allowed as another."""
    told = Counts()
    with ProcessPoolExecutor(len(os.sched_getaffinity(0))) as pool:
        found = pool.map(judge, [kind.send] * len(seeds), [programs] * len(seeds), seeds)
        for seed, (replies, why) in zip(seeds, found):
            told += replies
            report.add(f"stream {seed} {kind.name}", why)
    said, is_half = as_text(told)
    print(f"{kind.name}: {said}", flush=True)
    report.add(f"requests {kind.name}", None if is_half else "fewer than half were allowed")


def as_text(told: Counts) -> tuple[str, bool]:
    """How often each reply was given, as text, and whether half of the requests were allowed."""
    allowed, requests = told[200], sum(told[it] for it in told if it not in ("report", "again"))
    kinds = f"{told['report']} reports and {told['again']} answers given again"
    denied = ", ".join(f"{told[it]} {it}" for it in RULES if told[it])
    said = f"{allowed} of {requests} requests were allowed, {kinds} among them\n    denied: {denied}; {told[422]} were not stated"
    return said, 0 < requests <= 2 * allowed


def run_streams(given: argparse.Namespace, kinds: Sequence[Kind], programs: Programs, skipped: Sequence[Check] = ()) -> int:
    """Sends the streams of each kind, over these programs, of which one that is left out has no path, and the sample bank in a file.
    What is skipped for want of one is said. The exit status."""
    if not are_built(*filter(None, programs)):
        return refuse("there is no program")
    seeds = [f"{given.seed} {number}" for number in range(1, given.streams + 1)]
    of_kinds = [seeds[: -(-len(seeds) // it.of_seeds)] for it in kinds]
    report = Report(sum(map(len, of_kinds)) + len(kinds))
    report.able(skipped)
    with tempfile.TemporaryDirectory(prefix="bank-streams-") as room:
        bank = os.path.join(room, "bank")
        try:
            make_sample(given.bank, bank)
        except (Wrong, OSError, subprocess.TimeoutExpired) as error:
            return refuse(f"the sample bank in a file: {reason(error)}")
        for kind, seeds_of_kind in zip(kinds, of_kinds):
            judge_all(report, kind, (*programs, bank), seeds_of_kind)
    return report.end()
