"""Sends random requests over the turn of a year: the bank that goes on and the one that begins the next year have to answer alike.

    tools/model/years [N [SEED [BANK]]]

N pairs are tried, 300 where it is left out; SEED is 1, and BANK, the program, crates/bank_cli/out/bank_cli where they are left out.
Of each, a copy of the sample bank in a file is sent a stream of random requests (tools/model/streams), and then what closes its
days. As long as a branch is open by the reference model, `forward` has to name the least one, and to make no file; then it has to
make the bank of the next year and to leave the bytes of the old one. A second stream, at a later moment, goes to both: to
the new bank as it is drawn, and to the old one with the numbers that its entries and turns have there (turn.py). Each has to write the
bytes of the model, and both the same ones but for these numbers, the entries that a closing counts, and what a proof shows of what
begins anew. After that `check` has to say of both that their books hold. Half the new banks are made with `--sums`: each page has to
end in its sum at the end, or none says so.

A stream whose days can't be closed, since nobody may close them any more, is drawn anew. A line says how many requests were allowed
in the second streams, and how often each rule denied one. The last line is 'N passed, M failed', counted in pairs, and one for the
requests allowed; the exit status is 1 where M is not 0.
"""
import os
import tempfile
from collections.abc import Iterable
from pathlib import Path
from random import Random

from checks import Wrong, require
from model.answers import answer, is_allowed, is_repeat, is_stated
from model.bank import BADGES, MOMENT, Bank, Body
from model.requests import Request
from model.sending import Counts, Kind, Part, Programs, arguments, compare_file, count, drawn, run_streams
from model.turn import Turn, forward, least_open, told_of_old
from page_sums import require_pages
from repository import PROGRAM
from sample_file import copy_bank, require_sound, run_to_end

PAIRS = 300
REQUESTS = 100
LATER = 750
# How long a page of a new file is, in bytes.
PAGE = 512
# The set of the sample that holds everything.
ALL = 1
# A first stream that can't be closed is drawn anew so often.
TRIES = 20
CARRIED = (0, b"carried forward\n", b"")


def attempt(bank: Bank, sent: Part, kind: str, users: Iterable[int], body: Body) -> Bank | None:
    """The bank after a request of this kind by the first of the users to whom it is allowed, or none."""
    for user in users:
        request = Request(bank, kind, user, body)
        if is_allowed(bank, request):
            bank, _, reply = answer(bank, request)
            sent.add(request, reply)
            return bank
    return None


def with_leave(bank: Bank, sent: Part, procedure: str, user: int) -> Bank:
    """The bank in which the user may do this everywhere, as far as anyone may let them."""
    if (procedure, ALL) not in bank.relations:
        bank = attempt(bank, sent, "certify", BADGES, {"procedure": procedure, "set": ALL}) or bank
    body: Body = {"limit": 0, "procedure": procedure, "set": ALL, "user": user}
    return attempt(bank, sent, "grant", BADGES, body) or bank


def done(bank: Bank, sent: Part, kind: str, users: Iterable[int], body: Body) -> Bank | None:
    """The bank after a request by one of the users, who is given leave where nobody has it; or none."""
    made = attempt(bank, sent, kind, users, body)
    for user in users:
        if made is not None:
            break
        bank = with_leave(bank, sent, kind, user)
        made = attempt(bank, sent, kind, [user], body)
    return made


def with_sessions(bank: Bank, sent: Part) -> Bank:
    """The bank in which each user has a session, as far as anyone may let them."""
    for user in BADGES:
        if user in bank.suspended:
            bank = attempt(bank, sent, "restore", BADGES, {"user": user}) or bank
        if user not in bank.open:
            bank = attempt(bank, sent, "session", [user], {}) or bank
    return bank


def closed(bank: Bank, sent: Part) -> Bank | None:
    """The bank once each drawer is off and each day that has a row is closed, or none."""
    bank = with_sessions(bank, sent)
    for teller in bank.tellers:
        holder = bank.holder(teller)
        if holder is not None:
            home = bank.branch_of(teller)
            body: Body = {"branch": home, "counted": bank.cash(home, teller), "teller": teller}
            after = done(bank, sent, "drawer-off", [holder] if holder in BADGES else [], body)
            if after is None:
                return None
            bank = after
    while (branch := least_open(bank)) is not None:
        after = done(bank, sent, "close-day", list(BADGES), {"branch": branch})
        if after is None:
            return None
        bank = after
    return bank


def drawn_stream(rng: Random, moment: int, bank: Bank) -> tuple[Bank, Part]:
    """A bank after random requests at a moment, and these with their replies."""
    sent = Part(moment)
    for _ in range(REQUESTS):
        request = drawn(bank, rng, moment)
        bank, _, reply = answer(bank, request)
        sent.add(request, reply)
    return bank, sent


def year_of(seed: str) -> tuple[Random, Bank, Part, Part, Bank]:
    """A first stream, what closes its days, the bank before that and the bank after it."""
    for number in range(TRIES):
        rng = Random(f"year {seed} {number}")
        bank, sent = drawn_stream(rng, MOMENT, Bank())
        ending = Part(MOMENT)
        after = closed(bank, ending)
        if after is not None:
            return rng, bank, sent, ending, after
    raise Wrong("no stream could be closed")


def second_streams(rng: Random, old: Bank) -> tuple[Part, Part, Counts]:
    """A stream to the bank that begins the next year and the same to the one that goes on, and how often each reply was given."""
    turn, new, told = Turn(old), forward(old), Counts()
    to_old, to_new = Part(LATER), Part(LATER)
    for _ in range(REQUESTS):
        request = drawn(new, rng, LATER)
        moved = turn.at_old(request)
        # a number that was moved may be past the greatest one
        if is_stated(request) and not is_stated(moved):
            continue
        is_again = is_repeat(new, request)
        before, (new, status, reply) = new, answer(new, request)
        old, other_status, other = answer(old, moved)
        if (status, turn.told_at_old(before, request, reply)) != (other_status, told_of_old(moved, other)):
            raise Wrong(f"the rules answer {request.message()!r} by {reply!r}, and the bank that goes on by {other!r}")
        to_new.add(request, reply)
        to_old.add(moved, other)
        count(told, status, reply, is_again)
    return to_old, to_new, told


def require_forward(program: str, file: str, new: str, sums: list[str], due: tuple[int, bytes, bytes]) -> None:
    """Passes if `forward` ends so and leaves the bytes of the old file."""
    before = Path(file).read_bytes()
    require(run_to_end([program, "forward", file, new, *sums]), due, "forward")
    if Path(file).read_bytes() != before:
        raise Wrong("forward changed the old file")


def compared(programs: Programs, seed: str) -> Counts:
    """Tries the pair of a seed, and returns how often each reply was given in its second stream."""
    program, bank = programs
    rng, open_bank, sent, ending, old = year_of(seed)
    to_old, to_new, told = second_streams(rng, old)
    sums = ["--sums"] * rng.choice([0, 1])
    with tempfile.TemporaryDirectory(prefix="bank-year-") as room:
        file, new = os.path.join(room, "old"), os.path.join(room, "new")
        copy_bank(bank, file)
        compare_file("the old bank", program, file, [sent])
        if least_open(open_bank) is not None:
            line = f"year: not closed, branch {least_open(open_bank)}\n".encode()
            require_forward(program, file, new, sums, (1, line, b""))
            if os.path.exists(new):
                raise Wrong("forward made a file of a year that is not closed")
        compare_file("the old bank", program, file, [ending])
        require_forward(program, file, new, sums, CARRIED)
        require_sound(program, new)
        compare_file("the new bank", program, new, [to_new])
        require_pages(new, PAGE, bool(sums))
        compare_file("the old bank", program, file, [to_old])
    return told


def main() -> int:
    given = arguments(__doc__, PAIRS, bank=PROGRAM)
    return run_streams(given, [Kind("over the turn of a year", compared)], (given.bank,))
