"""Damages a bank's file and looks at what `check` says of it, for a file whose pages end in sums and for one without.

    tools/faults/flips [--share N] [--only TEXT] [PROGRAM]

The bank has a day of every kind of row. Of its bits one in N is turned, one at a time; N is 499 where it is left out, and with 1
all are, which takes hours. In a file with sums none may pass as `books hold`, but for the bits of NO_SUMS, by which the file says
that it has them: it is then one without, with the same rows, and each of these is tried. Then whole pages are damaged: each made
zeros, each put in the place of another, each taken from the copy of the day before. Zeros and another page may not pass, with
sums or without. A line for each kind of damage says what was reported how often. Each file has to be sound before, by `check` and
by Python's sqlite3, and its pages have to end in their sums.
"""
import contextlib
import functools
import itertools
import os
import sqlite3
import tempfile
from collections import Counter
from concurrent.futures import ThreadPoolExecutor
from functools import partial
from pathlib import Path

from checks import Check, Wrong, reader, run_checks
from faults.earlier_files import Tables, difference_of
from faults.file_kinds import ABOVE, CLOSING, OFF, RELEASE, SLIPPED, TOM, TRANSFER, Asked, answered
from faults.works import PAGE
from model.bank import MOMENT, Bank
from page_sums import RESERVED_AT, SUM, pages_in, require_pages
from sample_file import ended, make_sample, require_sound, run_to_end, run_arguments

SHARE = 499
HOLD = "books hold"
# A page that held once, which need not show.
OLDER = "a page of the day before"
# A day with rows in every table, with a release that is used and one that is not.
DAY = [SLIPPED, TRANSFER, RELEASE, Asked("post", TOM, ABOVE, release=1), RELEASE, *OFF, CLOSING]
# The byte that says whether pages end in sums, and the bit of it that does.
NO_SUMS = {(RESERVED_AT, SUM.bit_length() - 1)}
# Of how many pairs of pages one is exchanged.
PAIRS = 7


class Damaged:
    """A bank's file, which is damaged in copies."""

    def __init__(self, program, room, name, sums):
        self.program, self.room, self.name, self.sums = program, room, name, sums
        self.file = os.path.join(room, name.replace(" ", "-"))
        make_sample(program, self.file, sums)
        self.before = pages_in(Path(self.file).read_bytes())
        _, given, replies = answered(Bank(), DAY)
        said = ended(program, run_arguments(self.file, MOMENT), given)
        if said != b"".join(replies):
            raise Wrong(f"the day was answered {said!r}; due was {b''.join(replies)!r}")
        require_sound(program, self.file)
        require_pages(self.file, PAGE, sums)
        self.text = Path(self.file).read_bytes()
        self.pages = pages_in(self.text)
        with contextlib.closing(sqlite3.connect(f"file:{self.file}?mode=ro", uri=True)) as opened:
            whole = opened.execute("PRAGMA integrity_check").fetchall()
        if whole != [("ok",)]:
            raise Wrong(f"sqlite3 says {whole}")
        self.rows = Tables(self.file).rows

    def report_on(self, text):
        """What `check` says of a file of these bytes."""
        with tempfile.TemporaryDirectory(dir=self.room) as folder:
            file = os.path.join(folder, "bank")
            Path(file).write_bytes(text)
            status, output, errors = run_to_end([self.program, "check", file])
        said = (output + errors).decode().rstrip("\n")
        if (status == 0) != (said == HOLD):
            raise Wrong(f"check ended with status {status} and said {said!r}")
        return said

    def with_flipped(self, place):
        """The file with one bit turned."""
        at, bit = place
        text = bytearray(self.text)
        text[at] ^= 1 << bit
        return bytes(text)

    def with_pages(self, changed):
        """The file with other pages in these places."""
        return b"".join(changed.get(number, page) for number, page in enumerate(self.pages))

    def bits(self, share):
        """The bits that are turned."""
        every = itertools.product(range(len(self.text)), range(8))
        return sorted({*itertools.islice(every, 0, None, share), *NO_SUMS})

    def damages(self):
        """The files with whole pages damaged, by the kind of the damage."""
        count = len(self.pages)
        pairs = [(a, b) for a, b in itertools.combinations(range(count), 2) if self.pages[a] != self.pages[b]]
        older = [it for it in range(min(count, len(self.before))) if self.before[it] != self.pages[it]]
        return {
            "a page of zeros": [self.with_pages({it: bytes(PAGE)}) for it in range(count)],
            "two pages exchanged": [self.with_pages({a: self.pages[b], b: self.pages[a]}) for a, b in pairs[::PAIRS]],
            OLDER: [self.with_pages({it: self.before[it]}) for it in older],
        }

    def require_same_rows(self, text):
        """Passes if a file of these bytes has the rows of the bank."""
        file = self.file + "-turned"
        Path(file).write_bytes(text)
        difference = difference_of(Tables(file).rows, self.rows)
        if difference:
            raise Wrong(f"it passes and has other rows: {difference}")


def counts_as_text(said):
    """How often each thing was reported, as text."""
    return ", ".join(f"`{line}` {count}" for line, count in Counter(said).most_common())


def flips(bank, share, pool):
    """Turns bits of a file; those are reported that have to be. Returns what is printed."""
    bits = bank.bits(share)
    said = dict(zip(bits, pool.map(lambda it: bank.report_on(bank.with_flipped(it)), bits)))
    unseen = [it for it, line in said.items() if line == HOLD] if bank.sums else []
    for place in unseen:
        bank.require_same_rows(bank.with_flipped(place))
    if not set(unseen) <= NO_SUMS:
        raise Wrong(f"these bits of these bytes are not seen: {sorted((bit, at) for at, bit in set(unseen) - NO_SUMS)}")
    return f"{len(bits)} of {8 * len(bank.text)} bits turned: {counts_as_text(said.values())}"


def pages(bank, pool):
    """Damages whole pages of a file; each is reported that must be. Returns what is printed."""
    found = {kind: list(pool.map(bank.report_on, texts)) for kind, texts in bank.damages().items()}
    notes = [f"{kind}, {len(said)} times: {counts_as_text(said)}" for kind, said in found.items()]
    unseen = [kind for kind, said in found.items() if HOLD in said and kind != OLDER]
    if unseen:
        raise Wrong(f"{' and '.join(unseen)} is not seen: {'; '.join(notes)}")
    return "; ".join(notes)


def main():
    arguments = reader(__doc__)
    arguments.add_argument("--share", metavar="N", type=int, default=SHARE)
    given = arguments.parse_args()

    def checks_of(room):
        for name, sums in (("with sums", True), ("without sums", False)):
            bank = functools.cache(partial(Damaged, given.program, room, name, sums))
            yield Check(f"bits of a file {name}", lambda bank=bank: flips(bank(), given.share, pool))
            yield Check(f"pages of a file {name}", lambda bank=bank: pages(bank(), pool))

    with ThreadPoolExecutor(os.cpu_count()) as pool:
        return run_checks(given, checks_of)
