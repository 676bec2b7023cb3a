"""Sends streams of random requests to the sample bank in lists, in lists with a cache in front, in SQL tables in memory, and in a
file, and compares the replies with those of the reference model, which is written down from the rules alone (bank_model,
bank_answers). Then it sends streams whose moment moves on, so that triples begin and end within them, to the bank in a file;
and one user's operations and sessions, whose moment moves on, too, to two banks in files that differ in all that they don't
touch (bank_pairs): both have to write the same bytes.

    tools/model/streams [--no-stores] [N [SEED [PROGRAM [BANK]]]]

N streams are sent, 200 where it is left out, each of 300 requests, and a fourth as many of either other kind. SEED is 1,
PROGRAM is crates/test_stores/out/test_stores and BANK, the program that has banks in files, crates/bank_cli/out/bank_cli where
they are left out. Streams of one seed are the same ones each time. Requests are drawn by what the model has come to, so
that most of them are allowed. Half bear a slip, and some ask once more for what was asked for with one. Each of the four stores
is given all of one moment in one piece, and has to write the bytes of the model. The file is a copy of the bank that
`init` and an earlier `run` made; a stream whose moment moves on is sent to it by one `run` for each moment. After each stream
`check` has to say that its books hold.

A line says how many requests were allowed, which is a status 200; where it is fewer than half, that has failed. A further
line says how often each rule denied one, and two more say the same of each other kind. The last line is 'N passed, M
failed', counted in streams, and one for each line on what was allowed; the exit status is 1 where M is not 0.
"""
import os
import tempfile
from collections.abc import Sequence
from random import Random

from checks import Check, Wrong, lacks_stores
from model.answers import answer, is_repeat
from model.bank import MOMENT, MOMENTS, Bank
from model.pairs import Made, by_user, pair_of, write_lists
from model.sending import Counts, Kind, Part, Programs, arguments, compare, compare_file, count, drawn, run_streams
from repository import OVER, PROGRAM
from sample_file import copy_bank, ended, run_arguments

STREAMS = 200
REQUESTS = 300
# Of how many streams one has a moment that moves on, and one is of two banks.
OF_OTHERS = 4
# The stores that have to answer so.
STORES = ["list", "cached", "sql"]


def moments_of_requests(parts: list[Part]) -> list[Part]:
    """The part of each request of a stream."""
    return [part for part in parts for _ in range(REQUESTS // len(parts))]


def stream_of(seed: str, moments: Sequence[int]) -> tuple[list[Part], Counts]:
    """The parts of a stream, one for each moment, and how often the model gave each reply."""
    bank, rng, told = Bank(), Random(seed), Counts()
    parts = [Part(it) for it in moments]
    for part in moments_of_requests(parts):
        request = drawn(bank, rng, part.moment)
        is_again = is_repeat(bank, request)
        bank, status, reply = answer(bank, request)
        part.add(request, reply)
        count(told, status, reply, is_again)
    return parts, told


def stream_to_two(seed: str) -> tuple[list[Made], list[Part], Counts]:
    """Two banks, the parts of a stream of one user to both, and how often the model gave each reply."""
    rng, told = Random(f"two {seed}"), Counts()
    user, pair = pair_of(rng)
    banks = [it.bank for it in pair]
    parts = [Part(it) for it in MOMENTS]
    for part in moments_of_requests(parts):
        request = by_user(banks, user, rng, part.moment)
        is_again = is_repeat(banks[0], request)
        answers = [answer(it, request) for it in banks]
        banks = [it for it, _, _ in answers]
        (_, status, reply), (_, _, other) = answers
        if reply != other:
            raise Wrong(f"the rules answer {request.message()!r} by {reply!r} and by {other!r}")
        part.add(request, reply)
        count(told, status, reply, is_again)
    return pair, parts, told


def compare_copy(programs: Programs, parts: list[Part]) -> None:
    """Sends the parts of a stream to a copy of the sample bank in a file."""
    _, program, bank = programs
    with tempfile.TemporaryDirectory(prefix="bank-stream-") as room:
        file = os.path.join(room, "bank")
        copy_bank(bank, file)
        compare_file("file", program, file, parts)


def compared(programs: Programs, seed: str) -> Counts:
    """Sends the stream of a seed to each store, unless they are left out, and to a file, and returns how often each reply was given."""
    parts, told = stream_of(seed, [MOMENT])
    for store in STORES if programs[0] else ():
        compare(store, [programs[0], store, str(MOMENT)], parts[0])
    compare_copy(programs, parts)
    return told


def compared_moving(programs: Programs, seed: str) -> Counts:
    """Sends the stream of a seed whose moment moves on to a file, and returns how often each reply was given."""
    parts, told = stream_of(f"moving {seed}", MOMENTS)
    compare_copy(programs, parts)
    return told


def compared_two(programs: Programs, seed: str) -> Counts:
    """Sends the stream of a seed to both banks of a pair, and returns how often each reply was given."""
    _, program, _ = programs
    pair, parts, told = stream_to_two(seed)
    with tempfile.TemporaryDirectory(prefix="bank-pair-") as room:
        for number, made in enumerate(pair):
            file, lists = os.path.join(room, f"bank-{number}"), os.path.join(room, f"lists-{number}")
            write_lists(made.opening, lists)
            ended(program, ["init", file, lists])
            before = ended(program, run_arguments(file, MOMENT), b"".join(made.before))
            if before.count(b"HTTP/1.1 200 OK") != len(made.before):
                raise Wrong("not all that comes before was allowed")
            compare_file(f"bank {number}", program, file, parts)
    return told


def main() -> int:
    given = arguments(__doc__, STREAMS, has_stores=True, program=OVER, bank=PROGRAM)
    over = "" if given.no_stores else given.program
    skipped = [] if over else [Check(f"streams to a store, {it}", lambda: None, lacks_stores(given)) for it in STORES]
    kinds = [Kind("at one moment", compared), Kind("at moments that move on", compared_moving, OF_OTHERS)]
    return run_streams(given, [*kinds, Kind("to two banks", compared_two, OF_OTHERS)], (over, given.bank), skipped)
