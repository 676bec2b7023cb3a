"""Sends random requests over several connections of `counter` at once: some order of them has to explain all replies, and the file.

    tools/model/connections [N [SEED [BANK]]]

N streams are sent, 20 where it is left out; SEED is 1, and BANK, the program, crates/bank_cli/out/bank_cli where they are left out. Of
each, `counter` serves a copy of the sample bank in a file on six connections, for 25 rounds. In a round each is sent up to four messages
and, at times, the beginning of one more, whose rest comes in the next round; all in pieces, those of one connection between those of
others. In half of the rounds the program is held up meanwhile, so that it finds all of them at once. At times a connection is broken
off inside a message, and another takes its place.

Once the replies of a round have come, there has to be an order of its requests, those of each connection in their own order, by which
the reference model gives each reply, and after which its rows are those of the file in every table, but for moments, which are the
clock's. Entries and cash lines bear their numbers, and so the order of what writes them; what is only read has to fit some place
between. In the end `check` has to say that the books hold.

A line says how many requests were allowed, and how often each rule denied one. The last line is 'N passed, M failed', counted in
streams, and one for the requests allowed; the exit status is 1 where M is not 0.
"""
import os
import signal
import tempfile
import time
from collections.abc import Iterable, Mapping
from random import Random
from socket import socket
from subprocess import Popen

from checks import Wrong
from faults.earlier_files import difference_of, without_moments
from model.answers import answer, is_repeat
from model.bank import Bank
from model.requests import Request
from model.sending import REPORT, Counts, Kind, Programs, arguments, count, drawn, run_streams
from replies import next_reply
from repository import PROGRAM
from sample_file import copy_bank, require_sound
from serving import Counter as Served
from serving import connected
from simulation.ledger import Ledger, Row
from simulation.table_rows import rows_of_file, rows_over

# What one connection asked for in a round, each with its reply.
Exchanges = list[tuple[Request, bytes]]

STREAMS = 20
CONNECTIONS = 6
ROUNDS = 25
MOST_AT_ONCE = 4
MOST_PIECES = 3
# So often a message is begun in one round and sent to its end in the next, a connection that has begun one is broken off, and the
# program is held up while messages are sent.
BEGUN, BROKEN, HELD = 0.3, 0.2, 0.5
# The columns of a line of a statement that hold its moment.
MOMENT_OF_LINE = slice(40, 51)


class Connection:
    """A connection, with what came of its next reply, and a request whose message was begun, with the rest of its bytes."""

    def __init__(self, port: int) -> None:
        self.client: socket = connected(port)
        self.got, self.rest = b"", b""
        self.begun: list[Request] = []

    def draw(self, bank: Bank, rng: Random, moment: int) -> tuple[list[Request], bytes]:
        """Draws the requests of a round: those whose messages become whole in it, and the bytes that are sent."""
        more = [drawn(bank, rng, moment) for _ in range(rng.randint(0, MOST_AT_ONCE))]
        whole, given = [*self.begun, *more], self.rest + b"".join(it.message() for it in more)
        self.begun, self.rest = [], b""
        if rng.random() < BEGUN:
            self.begun = [drawn(bank, rng, moment)]
            message = self.begun[0].message()
            at = rng.randrange(1, len(message))
            given, self.rest = given + message[:at], message[at:]
        return whole, given

    def reply(self) -> bytes:
        """The next reply."""
        reply, self.got = next_reply(lambda: self.client.recv(65536), self.got)
        return reply


def in_pieces(given: bytes, rng: Random) -> list[bytes]:
    """Bytes in a few pieces."""
    cuts = sorted(rng.randrange(len(given) + 1) for _ in range(rng.randrange(MOST_PIECES)))
    return [given[low:high] for low, high in zip([0, *cuts], [*cuts, len(given)]) if low < high]


def send_between(sent: Iterable[tuple[Connection, bytes]], rng: Random) -> None:
    """Sends bytes on several connections, in pieces, those of one between those of others."""
    left = [(connection, in_pieces(given, rng)) for connection, given in sent]
    while left := [it for it in left if it[1]]:
        connection, pieces = rng.choice(left)
        connection.client.sendall(pieces.pop(0))


def conversed(run: Popen[bytes], connections: list[Connection], bank: Bank, rng: Random, moment: int) -> list[Exchanges]:
    """Has a round: what each connection asked for, and the replies to that."""
    drawn_ones = [it.draw(bank, rng, moment) for it in connections]
    is_held = rng.random() < HELD
    if is_held:
        run.send_signal(signal.SIGSTOP)
    send_between([(connection, given) for connection, (_, given) in zip(connections, drawn_ones)], rng)
    if is_held:
        run.send_signal(signal.SIGCONT)
    return [[(it, connection.reply()) for it in whole] for connection, (whole, _) in zip(connections, drawn_ones)]


def without_line_moments(request: Request, reply: bytes) -> bytes:
    """A reply; if it is a statement, without the moments of its lines."""
    if request.kind != "statement" or REPORT not in reply:
        return reply
    head, *lines = reply.splitlines(True)[4:]
    return b"".join([head, *(it[: MOMENT_OF_LINE.start] + it[MOMENT_OF_LINE.stop :] for it in lines)])


class Search:
    """Looks for an order of what several connections asked for in which the reference model gives the replies that came, and after which
    it has the rows that a file has."""

    def __init__(self, talks: list[Exchanges], found: Mapping[str, list[Row]]) -> None:
        self.talks, self.found = talks, found
        self.keyed: list[dict[Row, Row]] = [{row[:2]: row for row in found[name]} for name in ("entries", "lines")]
        self.seen: dict[tuple[int, ...], list[Bank]] = {}
        self.wrong: str | None = None

    def look(self, bank: Bank, places: tuple[int, ...]) -> Bank | None:
        """The bank after all that is left from these places on, or none. What changes nothing comes as soon as it can."""
        if any(vars(it) == vars(bank) for it in self.seen.setdefault(places, [])):
            return None
        self.seen[places].append(bank)
        if all(place == len(talk) for talk, place in zip(self.talks, places)):
            difference = difference_of(self.found, without_moments(rows_over(bank, Ledger())))
            self.wrong = difference or self.wrong
            return None if difference else bank
        found = [(at, after) for at in range(len(places)) for after in self.one_more(bank, at, places[at])]
        ends = (self.look(after, (*places[:at], places[at] + 1, *places[at + 1 :])) for at, after in without_rivals(bank, found))
        return next((it for it in ends if it), None)

    def one_more(self, bank: Bank, at: int, place: int) -> list[Bank]:
        """The bank after the next request of a connection, if that is answered so, and the file has the rows that it adds."""
        if place == len(self.talks[at]):
            return []
        request, reply = self.talks[at][place]
        after, _, due = answer(bank, request)
        if without_line_moments(request, due) != without_line_moments(request, reply):
            self.wrong = f"{request.message()!r} is answered {reply!r}; due is {due!r}"
            return []
        return [after] if self.has_added(bank, after) else []

    def has_added(self, bank: Bank, after: Bank) -> bool:
        """Whether the entries and cash lines that one more request adds are in the file, by their numbers."""
        entries, lines = self.keyed
        posted = all(entries.get(it[:2], ())[2:8] == (*it[2:6], *it[7:9]) for it in after.entries[len(bank.entries) :])
        return posted and all(lines.get(it[:2], ())[2:4] == it[2:4] for it in after.lines[len(bank.lines) :])


def without_rivals(bank: Bank, found: list[tuple[int, Bank]]) -> list[tuple[int, Bank]]:
    """The ways to go on: if one changes nothing, that one alone, which may come before any other."""
    return [it for it in found if vars(it[1]) == vars(bank)][:1] or found


def explained(bank: Bank, talks: list[Exchanges], found: Mapping[str, list[Row]]) -> Bank:
    """The bank after a round, after which a file has these rows."""
    search = Search(talks, found)
    end = search.look(bank, (0,) * len(talks))
    if end is None:
        raise Wrong(f"no order explains the replies of a round and the file: {search.wrong}")
    return end


def replaced(connection: Connection, port: int, rng: Random) -> Connection:
    """A connection, or one that takes its place, as it is broken off inside a message."""
    if not connection.begun or rng.random() >= BROKEN:
        return connection
    connection.client.close()
    return Connection(port)


def stated_of(bank: Bank, talks: list[Exchanges], told: Counts) -> None:
    """Counts the replies of a round. Which are given once more is judged by the bank before it."""
    for request, reply in (it for talk in talks for it in talk):
        count(told, int(reply.split(b" ", 2)[1]), reply, is_repeat(bank, request))


def serve_rounds(counter: Served, file: str, room: str, rng: Random, told: Counts) -> None:
    """Has the rounds of a stream, each of which has to be explained."""
    bank, moment = Bank(), int(time.time())
    connections = [Connection(counter.port) for _ in range(CONNECTIONS)]
    for _ in range(ROUNDS):
        talks = conversed(counter.run, connections, bank, rng, moment)
        stated_of(bank, talks, told)
        bank = explained(bank, talks, without_moments(rows_of_file(file, room)))
        connections = [replaced(it, counter.port, rng) for it in connections]
    counter.require_done()
    for it in connections:
        it.client.close()


def compared(programs: Programs, seed: str) -> Counts:
    """Sends the stream of a seed, and returns how often each reply was given."""
    program, bank = programs
    told = Counts()
    with tempfile.TemporaryDirectory(prefix="bank-connections-") as room:
        file = os.path.join(room, "bank")
        copy_bank(bank, file)
        with Served(program, file) as counter:
            serve_rounds(counter, file, room, Random(f"connections {seed}"), told)
        require_sound(program, file)
    return told


def main() -> int:
    given = arguments(__doc__, STREAMS, bank=PROGRAM)
    return run_streams(given, [Kind("over six connections", compared)], (given.bank,))
