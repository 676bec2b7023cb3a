"""Runs the built programs over the acceptance suite and compares what they write byte for byte.

    tools/cases/run [--no-stores] [PROGRAM [CASE ..]]
    tools/cases/run --input CASE

With names of cases, or of their files, only those are run. `--input` writes the bytes that a case sends. tools/cases/suite.py
says how a case is written, and reads it.

Each case is run over PROGRAM, in a folder of its own. A case of `sample` that begins in an empty folder is run six times
more, over crates/test_stores/out/test_stores: with the sample bank in lists, in lists with a cache in front, and in SQL tables in
memory, and over each of them with one message put before it. That message is the same user's, asks for the procedure that
the row's last operation is of, and changes nothing: so the cache keeps the rows of the policy by which the row's own
request is judged. What is written after the reply to it is compared. And once more it is run by PROGRAM's `run` over a copy
of a file: the bank of the sample's opening lists, as an earlier `run` opened it.

What differs is shown by lines: `-` is what had to be written, `+` is what was. Each run is a check.
"""
import difflib
import json
import os
import re
import sqlite3
import stat
import subprocess
import sys
import tempfile
from functools import partial

from cases.suite import BadRow, Suite
from checks import Check, lacks_stores, reader, refuse, require_nothing, run_checks
from replies import parsed, size_of
from repository import OVER, TOP
from sample_file import SampleBanks, copy_bank, run_arguments

STORES = ["list", "cached", "sql"]
USERS = {b"olga", b"carl", b"cora", b"tess", b"tom", b"sue"}
OPERATION = re.compile(rb"POST /do/([a-z-]+) HTTP/1\.[01]\r?\n((?:[^\r\n]+\r?\n)*)")
BADGE = re.compile(rb"^bank-badge:[ \t]*(\S+)[ \t]*\r?$", re.MULTILINE | re.IGNORECASE)
SECONDS = 240
MOST_LINES = 60


def lines_shown(text):
    """The lines of bytes, with their ends to be seen. The head of a message begins a line."""
    lines = re.findall(rb"[^\n]*?\n|[^\n]+?(?=HTTP/1\.1 )|[^\n]+$", text)
    return [repr(it)[2:-1] for it in lines]


def difference(what, wrote, wanted):
    """Lines that show how two texts differ."""
    if wrote == wanted:
        return []
    pieces = difflib.unified_diff(lines_shown(wanted), lines_shown(wrote), n=2, lineterm="")
    lines = [it if len(it) <= 200 else f"{it[:200]} .. of {len(it) - 1}" for it in list(pieces)[2:]]
    cut = [] if len(lines) <= MOST_LINES else [f".. and {len(lines) - MOST_LINES} lines more"]
    return [f"{what}: {len(wrote)} bytes, wanted {len(wanted)}", *lines[:MOST_LINES], *cut]


def first_of(given):
    """The message that is put before a case's, and the statuses of a reply to it that show no change: a question, or a
    request that a rule of the books denies to whoever may make it, as the drawer is another's or all is done already."""
    asked = [(procedure, BADGE.search(fields)) for procedure, fields in OPERATION.findall(given)]
    procedure, badge = next(((p, b[1]) for p, b in reversed(asked) if b and b[1] in USERS), (b"balance", b"tess"))
    other = 11 if badge == b"tom" else 12
    post = {"account": 101, "branch": 1, "delta": 1, "teller": other}
    questions = {
        b"balance": {"account": 101},
        b"statement": {"account": 101, "count": 1, "start": 1},
        b"accounts": {"after": 0, "count": 1},
        b"proof": {"branch": 1},
    }
    denied = {
        b"post": post,
        b"transfer": {"amount": 1, "branch": 1, "source": 101, "target": 201, "teller": other},
        b"correct": {**post, "entry": 1, "other": 0},
        b"drawer-on": {"branch": 1, "cash": 1, "teller": other},
        b"drawer-off": {"branch": 1, "counted": 1, "teller": other},
        b"move-cash": {"amount": 1, "branch": 1, "source": other, "target": 0},
        b"new-account": {"account": 101, "branch": 1, "floor": 0},
        b"release": {"beneficiary": 9, "operation": {"procedure": "post", **post}},
        b"close-day": {"branch": 1},
    }
    if procedure not in questions and procedure not in denied:
        procedure = b"balance"
    statuses = {200 if procedure in questions else 409, 403}
    body = json.dumps({**questions, **denied}[procedure]).encode()
    head = b"POST /do/%s HTTP/1.1\r\nHost: bank\r\nBank-Badge: %s\r\nBank-Session: 1\r\n" % (procedure, badge)
    return head + b"Content-Length: %d\r\n\r\n" % len(body) + body, statuses


def after_first(output, statuses):
    """What was written after the first reply, or none where that one is not as it has to be."""
    size = size_of(output)
    return output[size:] if size and parsed(output[:size]).status in statuses else None


def run_program(program, words, given, room):
    """Runs the program in a folder, with an environment of its own. A file that it makes has all rights that it asks for."""
    environment = {
        "PATH": "/usr/local/bin:/usr/bin:/bin",
        "HOME": room,
        "TMPDIR": room,
        "LANG": "C.UTF-8",
    }
    return subprocess.run(
        [os.fsencode(program), *words],
        input=given,
        stdout=subprocess.PIPE,
        stderr=subprocess.PIPE,
        cwd=room,
        env=environment,
        umask=0,
        timeout=SECONDS,
        check=False,
    )


def bytes_in(room, path):
    """The bytes of a file of the folder, or none where it is not there."""
    try:
        with open(os.path.join(room, path), "rb") as file:
            return file.read()
    except FileNotFoundError:
        return None


def rights_of(room, path):
    """The rights of a file of the folder, or 0 where it is not there."""
    try:
        return stat.S_IMODE(os.stat(os.path.join(room, path)).st_mode)
    except FileNotFoundError:
        return 0


def differences(step, ran, output):
    """Lines that say how a run differs from what has to come of it."""
    said = []
    if ran.returncode < 0:
        said.append(f"the program was stopped by signal {-ran.returncode}")
    elif ran.returncode != step.status:
        said.append(f"status: {ran.returncode}, wanted {step.status}")
    if step.compares_output:
        said += difference("standard output", output, step.output)
        said += difference("standard error", ran.stderr, step.errors)
    return said


def faults_of_files(step, room, before):
    """Lines that say which files are not as they have to be after a run."""
    said = []
    for path, text in before.items():
        if text is None:
            said.append(f"{path} was not there before the run")
        elif bytes_in(room, path) != text:
            said.append(f"{path} is not as it was before the run")
    for path, wanted in step.rights.items():
        rights = rights_of(room, path)
        if rights != wanted:
            said.append(f"{path} has the rights {rights:o}, wanted {wanted:o}")
    return said + [f"{it} is there" for it in step.absent if os.path.lexists(os.path.join(room, it))]


def make_changes(changes, room):
    """Does what is done before a run, and returns lines that say what can't be."""
    try:
        for change in changes:
            change.make(room)
    except (BadRow, OSError, ValueError, sqlite3.Error) as why:
        return [f"a file can't be brought about: {why}"]
    return []


def faults_of_step(program, step, room):
    """Lines that say what differs in one run of a row."""
    said = make_changes(step.changes, room)
    if said:
        return said
    before = {path: bytes_in(room, path) for path in step.unchanged}
    ran = run_program(program, step.words, step.given, room)
    return differences(step, ran, ran.stdout) + faults_of_files(step, room, before)


def faults_of_row(program, row, room):
    """Lines that say what differs in the runs of a case, up to the first that is wrong."""
    for number, step in enumerate(row.steps, 1):
        said = faults_of_step(program, step, room)
        if said:
            return ([f"in run {number}:"] if len(row.steps) > 1 else []) + said
    return make_changes(row.changes, room)


class Run:
    """A case over the program, after the cases that come before it in the same folder."""

    def __init__(self, program, way, row):
        self.program = program
        self.way = way
        self.row = row

    def name(self):
        """How it differs from the case's other runs."""
        return " ".join([os.path.basename(self.program), *(os.fsdecode(it) for it in self.row.steps[-1].words)])

    def faults(self):
        """Runs the program, and returns lines that say what differs."""
        with tempfile.TemporaryDirectory(prefix="bank-row-") as room:
            for row in [*self.way, self.row]:
                said = faults_of_row(self.program, row, room)
                if said:
                    return said if row is self.row else [f"in {row.name}, which comes before:", *said]
        return []


class RunOver:
    """A case of one step over a store of one's choice, with a message put before it where `is_second`."""

    def __init__(self, step, words, is_second):
        self.step = step
        self.words = words
        self.is_second = is_second

    def name(self):
        """How it differs from the case's other runs."""
        words = " ".join(os.fsdecode(it) for it in self.words)
        return f"{os.path.basename(OVER)} {words}" + (", after another message" if self.is_second else "")

    def faults(self):
        """Runs the program, and returns lines that say what differs."""
        first, statuses = first_of(self.step.given) if self.is_second else (b"", set())
        with tempfile.TemporaryDirectory(prefix="bank-row-") as room:
            ran = run_program(OVER, self.words, first + self.step.given, room)
        output = after_first(ran.stdout, statuses) if self.is_second else ran.stdout
        if output is None:
            return [f"the message put before it was answered by {ran.stdout[:200]!r}"]
        return differences(self.step, ran, output)


class RunOverFile:
    """A case of one step over a copy of the sample bank in a file."""

    def __init__(self, program, step, banks, moment):
        self.program = program
        self.step = step
        self.banks = banks
        self.moment = moment

    def name(self):
        """How it differs from the case's other runs."""
        return f"{os.path.basename(self.program)} run, over a file"

    def faults(self):
        """Runs the program, and returns lines that say what differs."""
        with tempfile.TemporaryDirectory(prefix="bank-row-") as room:
            file = os.path.join(room, "bank")
            copy_bank(self.banks.made(), file)
            ran = run_program(self.program, run_arguments(file, self.moment), self.step.given, room)
        return differences(self.step, ran, ran.stdout)


def runs_of(suite, name, program, banks):
    """All runs of a row."""
    row = suite.row(name)
    runs = [Run(program, suite.way_to(row), row)]
    moment = row.is_plain() and re.fullmatch(rb"sample --moment[ =](\d+)", b" ".join(row.only().words))
    if moment:
        words = [[store.encode(), moment[1]] for store in STORES]
        runs += [RunOver(row.only(), it, is_second) for it in words for is_second in (False, True)]
        runs.append(RunOverFile(program, row.only(), banks, moment[1].decode()))
    return runs


def checks_of_case(suite, name, program, banks, lacks):
    """All runs of a case, as checks, of which those over stores may lack something; or that it can't be run, as one that fails."""
    try:
        for run in runs_of(suite, name, program, banks):
            make, of_run = lambda run=run: require_nothing(run.faults()), lacks if isinstance(run, RunOver) else ""
            yield Check(f"{name} ({suite.rows[name].place}), {run.name()}", make, of_run)
    except BadRow as why:
        yield Check(name, partial(require_nothing, [str(why)]))


def names_of(suite, words):
    """The names of the cases that are asked for. A file of them names all of its own."""
    named = {subject.place: [it.name for it in subject.rows if it.runs] for subject in suite.subjects}
    return [name for word in words for name in named.get(os.path.relpath(os.path.abspath(word), TOP), [word])]


def write_input(suite, name):
    """Writes the bytes that a case sends. The exit status."""
    try:
        sys.stdout.buffer.write(suite.only(name).given)
    except BadRow as why:
        print(f"run: {why}", file=sys.stderr)
        return 1
    return 0


def main():
    arguments = reader(__doc__, has_stores=True)
    arguments.add_argument("names", metavar="CASE", nargs="*", help="run these cases alone, or those of these files")
    arguments.add_argument("--input", metavar="CASE", help="write the bytes that a case sends")
    given = arguments.parse_args()
    try:
        suite = Suite()
    except (BadRow, ValueError) as why:
        return refuse(str(why))
    if given.input:
        return write_input(suite, given.input)
    names = names_of(suite, given.names) or suite.names()

    def checks_of(room):
        banks = SampleBanks(given.program, room)
        return [it for name in names for it in checks_of_case(suite, name, given.program, banks, lacks_stores(given))]

    return run_checks(given, checks_of, jobs=os.cpu_count())
