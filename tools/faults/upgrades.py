"""Carries banks of earlier schema versions over by `upgrade`, and looks at what stands in the files then.

    tools/faults/upgrades [--only TEXT] [--list] [PROGRAM [FIRST [SECOND]]]

The banks are those of migrations/version-1 and migrations/version-2, each made as a file by Python's sqlite3, or byte for byte as
a kill left it. `check` has to report another version of each, and to leave it alone. `upgrade` has to print `carried over`, and
the file alone has to be the bank: a log beside it has no page, and is taken away. Python's sqlite3 has to find in it the tables
that `init` makes, in their order, with the rows of the earlier file, but for the version; for triples of the first version, which stand
in `grants` with the widest moments; and for slips, of which nobody has any. `check` has to pass it, a second `upgrade` has to
report another version and leave it alone, and `run` has to answer the requests of the row as the program of that schema version
did; in a listing each triple has its moments, too.

Files that are no sound bank of their version, that are cut, or that another program has open are refused: by the line of
`refused.rows` in the folder, or by that of this file. Everything in the folder is then as it was, byte for byte; but for a log
that has no page, and zeros at the end of one.

With FIRST or SECOND, a program of that version, its `check` has to pass each bank, its `run` has to answer as the case says, and
its `check` has to report of each file that is refused what `upgrade` reports.

Each file is a check.
"""
import functools
import os
import sqlite3
import tempfile
from functools import partial
from pathlib import Path

from checks import Check, Wrong, reader, run_checks
from faults.earlier_files import (
    CARRIED,
    EARLIER_VERSIONS,
    HOLDS,
    NOT_READ,
    OTHER,
    Tables,
    carried_rows,
    difference_of,
    make_earlier_file,
    refused_rows,
    require_said,
)
from sample_file import LISTS, copy_bank, ended

LOG = "-wal"
# What becomes of the bytes of a bank that can't be read then.
PAGE = 4096
SPOILED = {
    "cut_within_its_head": lambda text: text[:50],
    "cut_after_its_first_page": lambda text: text[:PAGE],
    "cut_in_half": lambda text: text[: len(text) // 2],
    "a_page_short": lambda text: text[:-PAGE],
    "a_byte_short": lambda text: text[:-1],
    "a_page_more": lambda text: text + bytes(PAGE),
    "another_first_byte": lambda text: b"\0" + text[1:],
    "zeros_in_its_sixth_page": lambda text: text[: 5 * PAGE] + bytes(PAGE) + text[6 * PAGE :],
    "zeros_in_its_last_page": lambda text: text[:-PAGE] + bytes(PAGE),
}
# What Python's sqlite3 does with a bank meanwhile.
LOCKED = {"while_another_writes": "BEGIN IMMEDIATE", "while_another_reads": "BEGIN; SELECT * FROM bank"}
BANK = "bank_that_is_opened"
# A bank with a log that has pages. The log says how long the file is, so a page more there is no fault.
WITH_LOG = "bank_and_log_that_a_kill_left"
OF_FILE_ALONE = "a_page_more"
# What stands in the log alone, and the line for it; an officer's triple is stated otherwise in each version.
OFFICER = "officer_with_a_triple"
IN_LOG = {
    "kept_balance_of_a_teller": ("UPDATE tellers SET balance = 1 WHERE teller = 12", (1, b"books: condition B, branch 1\n", b"")),
    OFFICER: (None, (1, b"policy: officer holds, user 1\n", b"")),
    "another_version": ("UPDATE bank SET version = 3", OTHER),
    "bank_without_its_row": ("DELETE FROM bank", (3, b"", b"file: not a bank\n")),
}
# The bytes of a log's head, and those of the head of each page in it, which begins with the page's number.
LOG_HEAD, PAGE_HEAD = 32, 24


def pages_of_log(text):
    """The bytes of a log up to its last page. What follows is no page: zeros, or the byte by which the program ends what it reads."""
    frame = PAGE_HEAD + int.from_bytes(text[8:12], "big")
    end = LOG_HEAD + max(0, len(text) - LOG_HEAD) // frame * frame
    while end > LOG_HEAD and not any(text[end - frame : end - frame + 4]):
        end -= frame
    return text[:end]


def bytes_in(room):
    """The bytes of each file in a folder, by its path; of a log up to its last page. A log that has no page is left out."""
    found = {}
    for folder, _, names in os.walk(room):
        for it in names:
            path = os.path.join(folder, it)
            text = Path(path).read_bytes()
            found[path] = pages_of_log(text) if it.endswith(LOG) else text
    return {it: text for it, text in found.items() if not it.endswith(LOG) or len(text) > LOG_HEAD}


def require_same(room, before):
    """Passes if all files in a folder are as they were."""
    now = bytes_in(room)
    changed = [os.path.basename(it) for it in sorted({*now, *before}) if now.get(it) != before.get(it)]
    if changed:
        raise Wrong(f"not as before: {', '.join(changed)}")


def require_alone(file):
    """Passes if a file is all of its bank, and takes a log with no page away that stands beside it."""
    beside = [it for it in bytes_in(os.path.dirname(file)) if it.startswith(file + "-")]
    if beside:
        raise Wrong(f"beside the file stands {os.path.basename(beside[0])}")
    if os.path.exists(file + LOG):
        os.remove(file + LOG)


def require_carried(file, wanted, schema):
    """Passes if a file has these rows in the tables that `init` makes."""
    now = Tables(file)
    if now.schema != schema:
        raise Wrong(f"its tables are not those that init makes: {[it for it in now.schema if it not in schema][:3]}")
    if not now.is_whole or now.dangling:
        raise Wrong("its tables are not whole")
    wrong = difference_of(now.rows, wanted)
    if wrong:
        raise Wrong(wrong)


class Upgrades:
    """The program that carries over, a schema version with its stored files and, if it is there, its program, and the tables that
    `init` makes."""

    def __init__(self, program, version, earlier, schema):
        self.program = program
        self.version = version
        self.earlier = earlier
        self.suite = version.suite()
        self.schema = schema

    def carry(self, name, room):
        """Carries the bank of a case over."""
        file, step = make_earlier_file(self.suite, name, room)
        wanted, first = self.version.carried_over(Tables(file).rows), bytes_in(room)
        require_said(self.program, ["check", "bank"], OTHER, room)
        require_same(room, first)
        require_said(self.program, ["upgrade", "bank"], CARRIED, room)
        require_alone(file)
        require_carried(file, wanted, self.schema())
        carried = bytes_in(room)
        require_said(self.program, ["upgrade", "bank"], OTHER, room)
        require_said(self.program, ["check", "bank"], HOLDS, room)
        require_same(room, carried)
        require_said(self.program, step.words, (0, self.version.replied(step.output), b""), room, step.given)
        require_said(self.program, ["check", "bank"], HOLDS, room)

    def ask_earlier(self, name, room):
        """Asks the program of the schema version of the bank of a row."""
        _, step = make_earlier_file(self.suite, name, room)
        before = bytes_in(room)
        require_said(self.earlier, ["check", "bank"], HOLDS, room)
        require_same(room, before)
        require_said(self.earlier, step.words, (0, step.output, b""), room, step.given)

    def refuse(self, name, room):
        """Has the file of a case refused."""
        self.require_refused(self.program, "upgrade", name, room)

    def refuse_earlier(self, name, room):
        """Has it refused by `check` of the program of the version."""
        self.require_refused(self.earlier, "check", name, room)

    def refuse_spoiled(self, name, room, bank=BANK):
        """Has a bank refused whose bytes are spoiled."""
        file, _ = make_earlier_file(self.suite, bank, room)
        Path(file).write_bytes(SPOILED[name](Path(file).read_bytes()))
        before = bytes_in(room)
        self.require_told(room, NOT_READ)
        require_same(room, before)

    def refuse_spoiled_beside_its_log(self, name, room):
        """Has a bank refused whose bytes are spoiled, and beside which a log stands."""
        self.refuse_spoiled(name, room, WITH_LOG)

    def refuse_in_log(self, name, room):
        """Has a bank refused for what stands in its log alone."""
        made, _ = make_earlier_file(self.suite, BANK, os.path.join(room, "made"))
        statement, told = IN_LOG[name]
        connection = sqlite3.connect(made, isolation_level=None)
        try:
            connection.execute("PRAGMA journal_mode = WAL")
            connection.execute(statement or self.version.officer_with_a_triple())
            copy_bank(made, os.path.join(room, "bank"))
        finally:
            connection.close()
        before = bytes_in(room)
        self.require_told(room, told)
        require_same(room, before)

    def refuse_locked(self, name, room):
        """Has a bank refused that another program has open, and carried over when it has closed it."""
        file, _ = make_earlier_file(self.suite, BANK, room)
        before = bytes_in(room)
        # (nothing may open the file here until this is closed: that would let its lock go)
        connection = sqlite3.connect(file, isolation_level=None)
        try:
            for it in LOCKED[name].split("; "):
                connection.execute(it).fetchall()
            self.require_told(room, NOT_READ)
        finally:
            connection.close()
        require_same(room, before)
        require_said(self.program, ["upgrade", "bank"], CARRIED, room)

    def refuse_made(self, _, room):
        """Has a bank refused that `init` has made."""
        ended(self.program, ["init", os.path.join(room, "bank"), LISTS])
        before = bytes_in(room)
        require_said(self.program, ["upgrade", "bank"], OTHER, room)
        require_same(room, before)

    def require_told(self, room, told):
        """Passes if `upgrade` reports this of the bank in a folder, and `check` of its schema version does."""
        require_said(self.program, ["upgrade", "bank"], told, room)
        if self.earlier:
            require_said(self.earlier, ["check", "bank"], told, room)

    def require_refused(self, program, action, name, room):
        """Passes if an action reports of the file of a case what stands there, and changes nothing."""
        _, step = make_earlier_file(self.suite, name, room)
        before = bytes_in(room)
        require_said(program, [action, *step.words[1:]], (step.status, step.output, step.errors), room)
        require_same(room, before)


def make(action, name):
    """Does something with the file of a case in a folder of its own."""
    with tempfile.TemporaryDirectory(prefix="bank-upgrade-") as room:
        action(name, room)


def deeds_of(upgrades):
    """What is done, each with the name of its row."""
    carried, refused = carried_rows(upgrades.suite), refused_rows(upgrades.suite)
    deeds = [(upgrades.carry, it) for it in carried] + [(upgrades.refuse, it) for it in refused]
    deeds += [(upgrades.refuse_spoiled, it) for it in SPOILED]
    deeds += [(upgrades.refuse_spoiled_beside_its_log, it) for it in SPOILED if it != OF_FILE_ALONE]
    deeds += [(upgrades.refuse_in_log, it) for it in IN_LOG] + [(upgrades.refuse_locked, it) for it in LOCKED]
    deeds.append((upgrades.refuse_made, "bank_of_this_version"))
    if upgrades.earlier:
        deeds += [(upgrades.ask_earlier, it) for it in carried] + [(upgrades.refuse_earlier, it) for it in refused]
    return deeds


def main():
    arguments = reader(__doc__)
    arguments.add_argument("earlier", metavar="EARLIER", nargs="*", type=os.path.abspath, help="programs of the earlier schema versions")
    given = arguments.parse_args()
    programs = dict(zip(EARLIER_VERSIONS, given.earlier))

    @functools.cache
    def schema():
        with tempfile.TemporaryDirectory(prefix="bank-upgrade-") as room:
            made = os.path.join(room, "made")
            ended(given.program, ["init", made, LISTS])
            return Tables(made).schema

    def checks_of(_):
        for version in EARLIER_VERSIONS:
            for action, name in deeds_of(Upgrades(given.program, version, programs.get(version), schema)):
                yield Check(f"{version.name}, {action.__name__} {name}", partial(make, action, name))

    return run_checks(given, checks_of, jobs=os.cpu_count(), programs=[given.program, *given.earlier])
