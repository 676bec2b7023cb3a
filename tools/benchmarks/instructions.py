"""Counts the instructions of fixed runs of the built program, which no other work on the machine changes.

    tools/benchmarks/instructions [--commit NAME] [--table FILE] [PROGRAM]
    tools/benchmarks/instructions --compare BEFORE AFTER

PROGRAM is crates/bank_cli/out/bank_cli if it is left out. Counted are messages to `run` over the sample bank in a file: a post,
one with a new slip, one whose slip was taken with it before, one that the books deny, a transfer, and a balance; a post over a
bank of 98,000 accounts, and by C SQLite the statements of such a post (peer_sqlite.c, over the same bank without sums, if it can be
compiled); `check` of 10,000 entries; and the head of a balance, of 1,000 bytes, that `counter` is sent in one piece and in 1,000. Of
each the run that makes ready for it, and in a message's case some messages before, are taken off. The program always has a cache in
front of its tables; tools/benchmarks/posts has stores without one.

The table is printed, and written to FILE; its first line names the commit, which is that of the repository if NAME is left out,
and what counted: the processor through perf, or valgrind where that shows no count. With neither nothing is counted, and the exit
status is 0.

--compare prints two tables side by side, and names what takes more than 3% more in the second: the exit status is then 1. Tables
of different counters are not compared.
"""
import argparse
import os
import subprocess
import sys
import tempfile
from collections.abc import Callable, Iterator
from typing import NamedTuple

from benchmarks.counting import Count, Counter, counter
from benchmarks.peers import lacks_sqlite, peer_of_files
from benchmarks.pieces import counted_serving, filled_message
from checks import Wrong, reader
from replies import statuses_in
from repository import TOP, are_built
from sample_file import LISTS, OPENED, copy_bank, ended, make_sample, message, run_arguments

# How many messages come before those that are counted, and how many are counted.
BEFORE, COUNTED = 10, 200
# How many accounts the large bank has.
ACCOUNTS = 98_000
# How many entries a file has whose `check` is taken off, and how many more one has that is counted.
FEW_ENTRIES, MORE_ENTRIES = 100, 10_000
HEAD, BODY = 1_000, 15
MOMENT = 1
MOST_RATIO = 1.03
FIRST_LINE = "commit {}, instructions by {}"


class Table(NamedTuple):
    """Counts by what they are of, with the commit of the program and what counted."""

    commit: str
    by: str
    rows: dict[str, int]

    def text(self) -> str:
        """The table as it is written."""
        lines = [FIRST_LINE.format(self.commit, self.by), *(f"{name:32s} {count:12d}" for name, count in self.rows.items())]
        return "\n".join(lines) + "\n"


def table_of(text: str) -> Table:
    """The table that is written so."""
    try:
        first, *lines = text.splitlines()
        commit, by = first.removeprefix("commit ").split(", instructions by ")
        pairs = [it.rsplit(None, 1) for it in lines]
        return Table(commit, by, {name: int(count) for name, count in pairs})
    except ValueError as why:
        raise Wrong(f"this is no table: {text[:80]!r}") from why


class Row(NamedTuple):
    """A line of two tables: a count in each, or none where it is not there."""

    name: str
    before: int | None
    after: int | None

    def ratio(self) -> float | None:
        """How many times the first count the second is."""
        return self.after / self.before if self.before and self.after is not None else None

    def text(self) -> str:
        """The line as it is printed."""
        before, after = ("" if it is None else str(it) for it in (self.before, self.after))
        ratio = self.ratio()
        return f"{self.name:32s} {before:>12s} {after:>12s} " + ("" if ratio is None else f"{ratio:8.3f}")


def rows_of(before: Table, after: Table) -> list[Row]:
    """The lines of two tables, in their order. They have to be of one counter."""
    if before.by != after.by:
        raise Wrong(f"counts by {before.by} and by {after.by} are not compared")
    return [Row(name, before.rows.get(name), after.rows.get(name)) for name in {**before.rows, **after.rows}]


def risen(rows: list[Row]) -> list[str]:
    """What takes more than a little more than before, or is not counted any more."""
    found = []
    for it in rows:
        ratio = it.ratio()
        if it.after is None:
            found.append(f"{it.name} is not counted any more")
        elif ratio is not None and ratio > MOST_RATIO:
            found.append(f"{it.name} takes {(ratio - 1) * 100:.1f}% more")
    return found


def compare(paths: list[str]) -> int:
    """Prints two tables side by side, and what has risen. The exit status."""
    tables = []
    for path in paths:
        with open(path, encoding="utf-8") as file:
            tables.append(table_of(file.read()))
    before, after = tables
    rows = rows_of(before, after)
    print(f"{'':32s} {before.commit:>12s} {after.commit:>12s}    ratio")
    print("\n".join(it.text() for it in rows))
    found = risen(rows)
    print("\n".join(f"RISEN {it}" for it in found) or "nothing has risen")
    return 1 if found else 0


def post(delta: int = 1, slip: int = 0) -> bytes:
    """A post to an account of the sample; it bears a slip if its number is not 0."""
    given = message("tess", "/do/post", {"account": 101, "branch": 1, "delta": delta, "teller": 11})
    return given.replace(b"\r\n\r\n", b"\r\nBank-Slip: %d\r\n\r\n" % slip, 1) if slip else given


# What is sent at each place, and the status of the reply.
POST = lambda _: post()
NEW_SLIP = lambda place: post(slip=place + 1)
REPEAT = lambda _: post(slip=1)
DENIED = lambda _: post(delta=-999_999)
TRANSFER = lambda place: message(
    "tom", "/do/transfer", {"amount": 1, "branch": 1, "source": 101 + place % 2, "target": 102 - place % 2, "teller": 12}
)
BALANCE = lambda _: message("tess", "/do/balance", {"account": 101})
MESSAGES = {
    "a post": (POST, 200),
    "a post with a new slip": (NEW_SLIP, 200),
    "a repeat of a slip": (REPEAT, 200),
    "a denied post": (DENIED, 409),
    "a transfer": (TRANSFER, 200),
    "a balance": (BALANCE, 200),
}


def write_list(folder: str, name: str, lines: list[str]) -> None:
    """Writes one list."""
    with open(os.path.join(folder, name), "w", encoding="utf-8") as file:
        file.writelines(f"{line}\n" for line in lines)


def make_lists(folder: str, accounts: int) -> None:
    """Writes the lists of a bank whose one branch has n accounts of one cent. Its policy is the sample's, but that Tess may
    see all accounts."""
    os.makedirs(folder)
    for name in os.listdir(LISTS):
        with open(os.path.join(LISTS, name), encoding="utf-8") as file:
            write_list(folder, name, file.read().replace("5,account,101,150", "5,account,1,999999").splitlines())
    write_list(folder, "branches.csv", ["branch,balance,cash", f"1,{accounts},100000"])
    write_list(folder, "tellers.csv", ["teller,branch,balance", f"11,1,{accounts}", "12,1,0"])
    rows = [f"{account},1,1,0" for account in range(1, accounts + 1)]
    write_list(folder, "accounts.csv", ["account,home,balance,floor", *rows])


def make_large(program: str, folder: str, sums: bool) -> str:
    """Makes a bank of 98,000 accounts of one branch in a folder, opened as the sample is, and returns the path of its file."""
    lists, file = os.path.join(folder, "lists"), os.path.join(folder, "bank")
    make_lists(lists, ACCOUNTS)
    ended(program, ["init", file, lists, *["--sums"] * sums])
    if (found := {*statuses_in(ended(program, run_arguments(file, 0), OPENED))}) != {200}:
        raise Wrong(f"the large bank was not opened: {found}")
    return file


class Bench:
    """The program, what counts, and a folder with the sample bank."""

    def __init__(self, by: Counter, program: str, folder: str) -> None:
        self.by, self.program, self.folder = by, program, folder
        self.sample, self.file = (os.path.join(folder, it) for it in ("sample", "bank"))
        make_sample(program, self.sample)

    def counted(self, words: list[str], given: bytes = b"") -> tuple[int, bytes]:
        """The instructions of a command, which has to end well, and what it wrote to standard output."""
        count = Count(self.by, self.folder)
        ran = subprocess.run([*count.words, *words], input=given, capture_output=True, check=False)
        if ran.returncode:
            raise Wrong(f"{words[:2]} ended with status {ran.returncode}, {ran.stderr[-200:]!r}")
        return count.read(), ran.stdout

    def of_messages(self, bank: str, messages: list[bytes], status: int) -> int:
        """The instructions of `run` over a copy of a bank that is sent these messages; each gets this status."""
        copy_bank(bank, self.file)
        count, output = self.counted([self.program, *run_arguments(self.file, MOMENT)], b"".join(messages))
        if (found := statuses_in(output)) != [status] * len(messages):
            raise Wrong(f"{len(messages)} messages got {len(found)} replies, of {set(found)}; due is {status}")
        return count

    def of_one(self, bank: str, make: Callable[[int], bytes], status: int) -> int:
        """The instructions of one message of a kind over a copy of a bank, on the average of some."""
        messages = [make(place) for place in range(BEFORE + COUNTED)]
        few, all_of_them = (self.of_messages(bank, it, status) for it in (messages[:BEFORE], messages))
        return (all_of_them - few) // COUNTED

    def of_statements(self, peer: str, bank: str) -> int:
        """The instructions of the statements of one post by C SQLite over a copy of a bank, on the average of some."""
        counts = []
        for posts in (BEFORE, BEFORE + COUNTED):
            copy_bank(bank, self.file)
            counts.append(self.counted([peer, self.file, str(posts)])[0])
        return (counts[1] - counts[0]) // COUNTED

    def of_large(self) -> Iterator[tuple[str, int]]:
        """What is counted over the large bank."""
        with tempfile.TemporaryDirectory(dir=self.folder) as room:
            yield "a post, 98,000 accounts", self.of_one(make_large(self.program, room, True), POST, 200)
        if why := lacks_sqlite():
            print(f"skipped: C SQLite: {why}", file=sys.stderr, flush=True)
            return
        with tempfile.TemporaryDirectory(dir=self.folder) as room:
            yield "its statements by C SQLite", self.of_statements(peer_of_files(room), make_large(self.program, room, False))

    def of_check(self, entries: int) -> int:
        """The instructions of `check` of the sample with n posts."""
        copy_bank(self.sample, self.file)
        ended(self.program, run_arguments(self.file, MOMENT), post() * entries)
        return self.counted([self.program, "check", self.file])[0]

    def rows(self) -> Iterator[tuple[str, int]]:
        """Each count by what it is of."""
        for name, (make, status) in MESSAGES.items():
            yield name, self.of_one(self.sample, make, status)
        yield from self.of_large()
        yield "check of 10,000 entries", self.of_check(FEW_ENTRIES + MORE_ENTRIES) - self.of_check(FEW_ENTRIES)
        copy_bank(self.sample, self.file)
        idle = counted_serving(self.by, self.program, self.file, [])
        head, body = (given := filled_message(HEAD, BODY))[:HEAD], given[HEAD:]
        for pieces in ([given], [*(head[at : at + 1] for at in range(HEAD)), body]):
            name = "1,000 pieces" if len(pieces) > 1 else "1 piece"
            yield f"a head in {name}", counted_serving(self.by, self.program, self.file, pieces) - idle


def commit() -> str:
    """The commit of the repository."""
    words = ["git", "-C", TOP, "rev-parse", "--short=8", "HEAD"]
    return subprocess.run(words, stdout=subprocess.PIPE, check=True).stdout.decode().strip()


def count_all(by: Counter, given: argparse.Namespace) -> int:
    """Counts all, and prints and writes the table. The exit status."""
    rows: dict[str, int] = {}
    with tempfile.TemporaryDirectory(prefix="bench-") as folder:
        for name, count in Bench(by, given.program, folder).rows():
            print(f"counted: {name}", file=sys.stderr, flush=True)
            rows[name] = count
    text = Table(given.commit or commit(), by.name, rows).text()
    print(text, end="")
    if given.table:
        with open(given.table, "w", encoding="utf-8") as file:
            file.write(text)
    return 0


def arguments() -> argparse.Namespace:
    """What the command line says."""
    found = reader(__doc__, has_checks=False)
    found.add_argument("--commit", metavar="NAME", help="the commit of the program, if not that of the repository")
    found.add_argument("--table", metavar="FILE", help="where the table is written")
    found.add_argument("--compare", metavar=("BEFORE", "AFTER"), nargs=2, help="compare two tables, and count nothing")
    return found.parse_args()


def main() -> int:
    given = arguments()
    try:
        if given.compare:
            return compare(given.compare)
        if not are_built(given.program):
            return 1
        by = counter()
        if by is None:
            print("instructions are not counted: the processor shows none, and there is no valgrind")
            return 0
        return count_all(by, given)
    except (OSError, Wrong) as why:
        print(f"FAILED {why}")
        return 1
