"""Tries the reader of cases (tools/cases/suite.py) and their runs (tools/cases/run) over cases of its own; which checks
have a second try (tools/checks.py, tools/days.py), and that tools/run has all that tools/test runs; the minutes of a
build (tools/toolchain/chain.py) over crates of its own, and the seconds of a check (tools/toolchain/where_time.py);
which functions have a clause, and which are at the machine (tools/toolchain/rattle_source.py, tools/pages/crates); that
only tools/try, tools/test --quick, tools/benchmarks/unproved and tools/toolchain/families make an unproved program;
which changes of a definition or a law are seen (tools/pages/reading); whether the model over kept sums
(tools/simulation/ledger.py) answers as the one that adds up; what tools/benchmarks/instructions says of two tables;
what is done at a port that is taken (tools/serving.py); what tools/toolchain/families says of outcomes, and how a
program can be two mutants (tools/toolchain/switches.py); whether tools/toolchain/mutants tries again what a change
concerns (tools/toolchain/kept_trials.py), and can read all mutants; how tools/try, tools/build and tools/bank end
(tools/toolchain/ended_commands.py); that each path which a tool names is there (tools/toolchain/named_paths.py); and
that a retired word in a name of a crate is seen (tools/pages/terms).

    tools/toolchain/self-tests

The program that these cases run is Python's interpreter, with a few lines of Python. So it is tried what no case of the bank
program needs yet: files, SQL, several runs in one folder, and that a row which must fail does.
"""
import contextlib
import copy
import glob
import io
import json
import os
import random
import re
import socket
import sys
import tempfile
from functools import partial
from unittest import mock

import parts as PARTS
import serving
import test as ALL
from benchmarks import counting, instructions
from cases import run as CASES
from cases.suite import BadRow, Suite, bytes_of_lines, reply, request, spelled
from checks import Check, Late, Report, Wrong, reader, require, require_nothing, run_checks
from days import Days, up_to_last
from first_look import compiling
from model.bank import PROCEDURES, Bank
from opening_lists import columns
from pages import crates as CRATES, defaults as DEFAULTS, edges as EDGES, reading as READING, terms as TERMS
from repository import BANK_PROGRAM, TOP, below, dependencies
from simulation.drawing import Drawing
from simulation.ledger import MEMBERS
from simulation.opening import FIRST_MOMENT, opening_of
from simulation.table_rows import rows_of_bank
from toolchain import ended_commands, kept_trials, mutants, named_paths
from toolchain.chain import ends, longest_chain, minutes_left, minutes_of
from toolchain.families import lines_of
from toolchain.rattle_source import promised
from toolchain.switches import Mutant, place_of, switched
from toolchain.where_time import Spent, spent


ECHO = r"run -c import\ssys;sys.stdout.write(sys.stdin.read())"
QUIET = 'run -c ""'
LISTS = r"""
files lists
file lists/users.csv
| user,name
| 1,Olga
| 2,Carl
file notes
| as\x00is\
"""
BANK = r"""
row makes_a_bank
sql bank.db
| CREATE TABLE users (user_no INTEGER PRIMARY KEY, name TEXT);
| INSERT INTO users VALUES (1, 'Olga');
run -c import\ssqlite3;print(sqlite3.connect('bank.db').execute('SELECT\sname\sFROM\susers').fetchall())
| [('Olga',)]
"""

# What a text represents.
TEXTS = [
    (bytes_of_lines(["a", r"b\\", "c\\n\\"]), b"a\nb\\\nc\n"),
    (bytes_of_lines([r"\x00\xff\r\t\s\{3*ab}\{2*\s}"]), b"\x00\xff\r\t ababab  \n"),
    (spelled(["GET / HTTP/1.1", "", "body\\"]), b"GET / HTTP/1.1\r\n\r\nbody"),
    (spelled([r"Length: \{length}", "", "two", "\\xff\\"]), b"Length: 6\r\n\r\ntwo\r\n\xff"),
    (
        request("tess", "", "POST", "/end", None),
        b"POST /end HTTP/1.1\r\nHost: bank\r\nBank-Badge: tess\r\nBank-Session: 1\r\n\r\n",
    ),
    (request("tess", "", "POST", "/session", None), b"POST /session HTTP/1.1\r\nHost: bank\r\nBank-Badge: tess\r\n\r\n"),
    (
        request("tom", " slip=5 release=1 session=2", "POST", "/do/post", "{}"),
        b"POST /do/post HTTP/1.1\r\nHost: bank\r\nBank-Badge: tom\r\nBank-Session: 2\r\nBank-Release: 1\r\nBank-Slip: 5\r\n"
        b"Content-Length: 2\r\n\r\n{}",
    ),
    (reply("200", None, None, b"{}"), b"HTTP/1.1 200 OK\r\nContent-Type: application/json\r\nContent-Length: 2\r\n\r\n{}"),
    (
        reply("404", " text", " close", b""),
        b"HTTP/1.1 404 Not Found\r\nContent-Type: text/plain\r\nContent-Length: 0\r\nConnection: close\r\n\r\n",
    ),
]

# Crates: a chain of three, and two others that use its first.
USES = {"low": ["std"], "mid": ["low"], "top": ["mid", "sqlite"], "long": ["low"], "short": ["low"]}
MINUTES = {"low": 1.0, "mid": 2.0, "top": 4.0, "long": 5.0, "short": 0.5}
ON_ONE = {"low": 1.0, "mid": 3.0, "long": 8.0, "top": 12.0, "short": 12.5}
ON_TWO = {"low": 1.0, "mid": 3.0, "long": 6.0, "short": 6.5, "top": 7.0}

# What is reckoned of a build.
BUILDS = [
    (minutes_of("# a head\nlow 1.5\n\ntop 2 # the last\n"), {"low": 1.5, "top": 2.0}),
    (longest_chain(USES, MINUTES, list(USES)), ["low", "mid", "top"]),
    (longest_chain(USES, {**MINUTES, "long": 7.0}, list(USES)), ["low", "long"]),
    (longest_chain(USES, MINUTES, ["mid", "short"]), ["mid"]),
    (ends(USES, MINUTES, list(USES), 1), ON_ONE),
    (ends(USES, MINUTES, list(USES), 2), ON_TWO),
    (ends(USES, {**MINUTES, "low": 0, "mid": 0}, list(USES), 4), {"low": 0, "mid": 0, "top": 4.0, "long": 5.0, "short": 0.5}),
    # Nothing is proved; all but the last two; all; two of two processors are halfway through the longest.
    (minutes_left(USES, MINUTES, {}, {}, 2), 7.0),
    (minutes_left(USES, MINUTES, {"low": 1.0, "mid": 2.0, "short": 0.5}, {}, 2), 5.0),
    (minutes_left(USES, MINUTES, dict.fromkeys(USES), {}, 2), 0),
    (minutes_left(USES, MINUTES, {"low": 1.0, "mid": 2.0, "short": 0.5}, {"top": 2.0, "long": 2.5}, 2), 2.5),
    # At half the pace, of which the two minutes that are added leave 8 minutes for 5; and what was kept sets no pace.
    (minutes_left(USES, MINUTES, {"low": 2.0, "mid": 4.0}, {}, 2), 8.0),
    (minutes_left(USES, MINUTES, {"low": None, "mid": None}, {}, 2), 5.0),
]

# What a check writes, with the seconds till then, and what is said of it; of one that ends with no function, too.
CHECKED = [(2.0, "logic"), (9.0, "checked b, 1 of 4"), (9.5, "note: a"), (12.0, "checked a, 2 of 4"), (12.5, "checked d, 3 of 4")]
TIMES = [
    (spent([*CHECKED, (14.0, "checked c, 4 of 4")], 20.0), Spent(9.0, 6.0, {"a": 3.0, "d": 0.5, "c": 1.5})),
    (spent([*CHECKED, (14.0, "checked a, 4 of 4")], 20.0).functions["a"], 4.5),
    (spent(CHECKED[:1], 3.0), Spent(3.0, 0.0, {})),
]

# A table of instructions; others, of which it is the one before; and what is said of both.
TABLE = instructions.Table("0123abcd", "valgrind", {"a post": 1000, "a head in 1,000 pieces": 500})
CHANGED = [
    ({"a post": 1030, "a head in 1,000 pieces": 400}, []),
    ({"a post": 1031, "a head in 1,000 pieces": 600}, ["a post takes 3.1% more", "a head in 1,000 pieces takes 20.0% more"]),
    ({"a post": 1000}, ["a head in 1,000 pieces is not counted any more"]),
    ({"a post": 1000, "a head in 1,000 pieces": 500, "a balance": 90_000}, []),
]
COUNTS = [
    (instructions.table_of(TABLE.text()), TABLE),
    (counting.read_of_perf("# started\n\n14061,,instructions:u,1097433,100.00,,\n"), 14061),
    (counting.read_of_valgrind("events: Ir\nfn=(1) main\n0 12\nsummary: 900\ntotals: 880\n"), 880),
    *((instructions.risen(instructions.rows_of(TABLE, TABLE._replace(rows=rows))), said) for rows, said in CHANGED),
]
# What is no table or no count, or cannot be compared.
NOT_COUNTED = {
    "a_table_without_a_commit": lambda: instructions.table_of("a post 1000\n"),
    "a_row_without_a_count": lambda: instructions.table_of(TABLE.text() + "a balance\n"),
    "tables_of_two_counters": lambda: instructions.rows_of(TABLE, TABLE._replace(by="perf")),
    "a_count_that_is_not_shown": lambda: counting.read_of_perf("<not supported>,,instructions:u,0,100.00,,\n"),
}

# A file of a crate, and its functions that have no clause.
SOURCE = """
trait Says {
    fn promised(&self) -> [u8; 2]
        ensures { result ≡ self.now };

    fn silent(&self);
}

impl Says for Kind {
    fn promised(&self) -> [u8; 2] {
        fn_of("{")
    }

    fn silent(&self) {}
}

impl<T> From<T> for Kind {
    ghost from_gives = { λ one kind. kind ≡ one };

    fn from(one: T) -> Kind {}
}

impl From<u8> for Kind {
    fn from(one: u8) -> Kind {}
}

impl Read for Kind {
    fn read(&mut self, buf: &mut [u8]) -> usize {}
}

fn read(buf: &mut [u8]) -> usize {}

impl Kind {
    // ensures nothing
    pub fn own(&self) -> u8 {}

    fn asks<T>(one: T)
    where
        T: Says,
        requires { one.now ≡ 0 }
    {
    }
}

fn free(ensured: &'static str) {}
"""
CLAUSES = [
    (promised(SOURCE), {"Says::promised"}),
    (
        CRATES.without_clause({"src/kinds.rt": SOURCE}, {*promised(SOURCE), *CRATES.PROMISED}),
        ["kinds::KindSays::silent", "kinds::KindFromu8::from", "kinds::read", "kinds::Kind::own", "kinds::free"],
    ),
    (CRATES.against_functions(["a::old", "a::new"], ["a::old"]), ["a::new has no clause, and docs/PROVED.md does not list it"]),
    (
        CRATES.against_functions(["a::old"], ["a::old", "a::gone"]),
        ["docs/PROVED.md lists a::gone, which has a clause or is not there"],
    ),
    (CRATES.mutants_named("- `a` [decide/gone, b/c; d/e]\n- `f[0]`, [g] and on"), ["decide/gone", "b/c", "d/e"]),
    (
        CRATES.against_mutants(["decide/gone", "decide/repeat_acts_again", "tools/toolchain/permit-mutants"]),
        ["docs/PROVED.md names decide/gone, which is no mutant"],
    ),
]

# Functions at the machine, which have a clause, and ghost members that are given something, nothing, and not at all.
AT_MACHINE = {
    "cli_counter": ["listener::AcceptedRead::read", "listener::AcceptedWrite::write", "listener::AcceptedWrite::flush"],
    "cli_file": ["lists::MachineListsLists::read"],
    "counter_clocks": ["shows::TShows::shown"],
    "counter_connections": ["listener::CountedListener::accept", "running::MRuns::shown"],
    "counter_door": ["readiness::SystemReadiness::now", "readiness::SystemReadiness::wait"],
}
GHOSTS = """
trait Reads { ghost at: { ℕ } = { 0 }; ghost text: { List ℕ → Option (List ℕ) }; }
impl Reads for Lists { ghost at = { 1 }; ghost text = { λ path. Some path }; }
impl Reads for Machine { ghost text = { λ _. None }; }
"""
CLAUSES += [
    (DEFAULTS.ghosts_of({"src/lib.rt": GHOSTS}), {"Reads": ["at", "text"]}),
    ([*DEFAULTS.left_at_defaults({"src/lib.rt": GHOSTS}, {"Reads": ["at", "text"]})], ["MachineReads::at", "MachineReads::text"]),
]

# The sum of a definition: of another text or of an import from elsewhere it is another, of another layout the same.
DEFINED = ["abbrev pub is_paid : Row → Bool", "is_paid r = r.due == 0"]
MEANT = {"Row": ("bank_books", "Rows", "Row")}


def same_sum(lines, meant):
    """Whether a definition of these lines and imports has the sum of the one above."""
    return READING.sum_of(lines, meant) == READING.sum_of(DEFINED, MEANT)


LAW_TEXT = "pub fn holds(n: u64) // of any\n    ensures a { n ≡ n }\n    ensures b { IsSo }\n{}\n"
HELD = ["fn holds(n: u64) ", "    ensures a { n ≡ n }", "    ensures b { IsSo }", ""]
ROWS = ("bank", "Rows")
OLD, OTHER = {"is_due": "1a0", "is_paid": "2b0"}, "docs/DEFINITIONS.txt has another sum of bank/Rows: "
OLD_SUMS = list(READING.sum_lines({ROWS: OLD}))


def changed(**sums):
    """What is said of the file of sums if these are due."""
    return READING.changed(OLD_SUMS, {ROWS: sums} if sums else {}, {(*ROWS, "is_paid"): "Is it?"})


SUMS = [
    (same_sum(["abbrev pub is_paid : Row", "    → Bool", "is_paid r  = r.due == 0"], MEANT), True),
    (same_sum([DEFINED[0], "is_paid r = r.due == 1"], MEANT), False),
    (same_sum(DEFINED, {"Row": ("sql_books", "Rows", "Row")}), False),
    (same_sum(DEFINED, {**MEANT, "Column": ("sql_books", "Rows", "Column")}), True),
    (READING.laws_of(LAW_TEXT), {"holds": HELD}),
    (READING.sum_of(HELD, {}) == READING.sum_of([it for it in HELD if "b {" not in it], {}), False),
    (READING.imports_of(["use Rattle.bank.specs.Rows.{Row as R, Due}"]), {"R": (*ROWS, "Row"), "Due": (*ROWS, "Due")}),
    (READING.imports_of(["ghost use Rattle.bank.specs.declared.Op as op;"]), {"op": ("bank", "declared.Op", "")}),
    (changed(is_due="1a0", is_paid="2b0"), []),
    (changed(is_due="1a0", is_over="3d0", is_paid="2c0"), [OTHER + "is_over: ", OTHER + "is_paid: Is it?"]),
    (changed(is_due="1a0"), [OTHER + "1 fewer: "]),
    (changed(is_due="1a1", is_paid="2b0"), [OTHER + "one: "]),
    (changed(), ["docs/DEFINITIONS.txt has bank/Rows, on which nothing rests"]),
    (READING.changed(["", *OLD_SUMS], {ROWS: OLD}, {}), ["docs/DEFINITIONS.txt has other lines than --update writes"]),
]  # fmt: skip

# The files that name the folder of the unproved program, or the modules that make it.
UNPROVED = re.compile(r"first[-_]look")
MAY_NAME_IT = {"tools/try", "tools/test.py", "tools/first_look/compiling.py", "tools/benchmarks/unproved.py", "tools/toolchain/families.py",
               "tools/toolchain/switched_tests.py", "tools/toolchain/self_tests.py"}


def naming_unproved():
    """The files of the tools, the branch, the page and CI that name the unproved program."""
    found = set()
    for folder in ("tools", "branch", "programs", "desk", ".ci"):
        for within, _, names in os.walk(os.path.join(TOP, folder)):
            for path in (os.path.join(within, name) for name in names):
                with open(path, encoding="utf-8", errors="replace") as file:
                    if UNPROVED.search(file.read()):
                        found.add(os.path.relpath(path, TOP))
    return found


# What families saw of four mutants, and the table of that.
OUTCOMES = {
    "cases": {"a": True, "b": False, "c": False, "d": False}, "kills": {"a": True, "b": True},
    "test_x": {"a": False, "b": False, "c": False, "d": False}, "test_y": {"a": True, "b": False, "c": True, "d": False},
}  # fmt: skip
TABLE_OF_OUTCOMES = "\n".join(lines_of(OUTCOMES, ["test_x", "test_y"])).replace("\n    ", " ").split("\n")[1:]
LINES_OF_OUTCOMES = ["cases 4 1 0", "kills 2 2 1 b", "units 4 2 1 c", "test_x 4 0 0", "test_y 4 2 1 c", "seen by none: 1 d, tried with 2"]
# A function that can be two mutants, and a mutant of no function alone.
BODIES = "fn one() -> u8 { 1 }\nfn two() -> u8 { 2 }\n"
TWO = [Mutant("c", "m", "src/lib.rt", ((old, new),)) for old, new in (("{ 1 }", "{ 3 }"), ("1", "4"))]
SWITCHES = "{ if mutant_switch::is_on(b'0', b'0', b'1') { 3 } else if mutant_switch::is_on(b'0', b'1', b'0') { 4 } else { 1 } }"
HEAD = Mutant("c", "m", "src/lib.rt", ((" u8 { 2", "u8 { 3"),))
ONE, NEITHER = (place_of({"src/lib.rt": BODIES}, it) for it in (TWO[0], HEAD))

# What tools/test runs and tools/run does not, by its path.
NOT_PARTS = {it.split()[0] for it in ALL.PARTS + ALL.AT_LAST} | {f"toolchain/{it}" for it in ALL.OVER_LIBRARIES}
SAID = [
    (naming_unproved(), MAY_NAME_IT), (NOT_PARTS - set(PARTS.parts()), set()),
    ([" ".join(it.split()) for it in TABLE_OF_OUTCOMES], LINES_OF_OUTCOMES),
    (ONE and switched(BODIES, [(ONE, 1, TWO[0]), (ONE, 10, TWO[1])]), BODIES.replace("{ 1 }", SWITCHES)), (NEITHER, None),
]  # fmt: skip

# Checks, by how they end at their tries, and what is counted of them.
WRONG, LATE = Wrong("a balance of 49999, and not 50000"), Late("no reply within 60 seconds")
TALLIES = {
    "race_passes_at_the_second_try": ([[None], [LATE, None], [None]], (3, 0, 1)),
    "race_of_the_system_too": ([[TimeoutError("timed out"), None]], (1, 0, 1)),
    "wrong_amount_fails_at_once": ([[None], [WRONG]], (1, 1, 0)),
    "late_twice_fails": ([[LATE, LATE]], (0, 1, 0)),
    "wrong_amount_at_the_second_try": ([[LATE, WRONG]], (0, 1, 0)),
    "four_late_ones": ([[LATE, None]] * 4, (4, 0, 4)),
    "five_late_ones_of_five": ([[LATE]] * 5, (0, 5, 0)),
    "a_fifth_late": ([[LATE, None]] * 6 + [[None]] * 24, (30, 0, 6)),
    "more_than_a_fifth_late": ([[LATE]] * 7 + [[None]] * 23, (23, 7, 0)),
}

# Days, by how their checks end at each try, in their order; what is counted of them; and how many days were begun.
DAYS = {
    "day_that_passes": ([[None], [None], [None]], (3, 0, 0), 1),
    "day_after_a_wrong_amount": ([[None], [WRONG], []], (1, 2, 0), 1),
    "day_that_was_late": ([[None, None], [LATE, None], [None]], (3, 0, 1), 2),
    "day_whose_first_check_was_late": ([[TimeoutError("timed out"), None], [None]], (2, 0, 1), 2),
    "day_that_was_late_twice": ([[None, None], [LATE, LATE], []], (1, 2, 0), 2),
    "day_that_fails_earlier_the_second_time": ([[None, WRONG], [LATE], []], (1, 2, 0), 2),
    "day_that_was_kept_waiting": ([[None, None], [KeyError("waited"), None]], (2, 0, 1), 2),
}

# Cases that must be refused as they are read.
REFUSED = {
    "an_escape_unknown": "row x\nrun\n> \\q",
    "a_space_at_an_end": "row x\nrun\n> a ",
    "a_tab": "row x\nrun\n> a\tb",
    "a_byte_above_127": "row x\nrun\n> \xe9",
    "a_line_of_no_kind": "row x\nrun\nsomething else",
    "a_status_unknown": "row x\nrun\n299 {}",
    "a_field_unknown": "row x\nrun\ntess slap=1 POST /end",
    "no_run": "row x\n> a",
    "a_file_after_the_last_run": "row x\nrun\nfile a\n| b",
    "input_between_a_file_and_its_run": "row x\nrun\nfile a\n| b\n> c\nrun",
    "two_rows_of_a_name": "row x\nrun\nrow x\nrun",
    "a_row_before_that_is_not_there": "row x\nafter y\nrun",
    "a_row_before_itself": "row x\nafter y\nrun\nrow y\nafter x\nrun",
    "a_run_of_files": "files x\nrun",
    "any_output_beside_output": "row x\nrun\n| made\noutput any",
}

# Cases that must pass, and cases that must fail with this said.
ROWS_TO_RUN = [
    ("input_comes_back", f"row x\n{ECHO}\n> a\n> \\xff\\\n< a\n< \\xff\\", None),
    (
        "a_report",
        f"row x\n{ECHO}\n> HTTP/1.1 200 OK\n> Content-Type: text/plain\n> Content-Length: 4\n>\n> a\\nb\\n\\\n"
        "200 text\n| a\n| b",
        None,
    ),
    ("other_output", f"row x\n{ECHO}\n> a\n< b", r"-b\r\n"),
    ("a_line_end_less", f"row x\n{ECHO}\n> a\n< a\\", r"+a\r\n"),
    ("output_that_is_not_compared", f"row x\n{ECHO}\n> a\noutput any", None),
    ("a_status", "row x\nrun -c import\\ssys;sys.exit(3)\nstatus 3", None),
    ("another_status", "row x\nrun -c import\\ssys;sys.exit(3)", "status: 3, wanted 0"),
    ("error_output", "row x\nrun -c import\\ssys;sys.exit('cut')\n! cut\nstatus 1", None),
    ("other_error_output", "row x\nrun -c import\\ssys;sys.exit('cut')\nstatus 1", r"+cut\n"),
    ("a_file", f"{LISTS}row x\nafter lists\nrun -c print(repr(open('notes','rb').read()))\n| b'as\\\\x00is'", None),
    (
        "an_edit",
        f"{LISTS}row x\nafter lists\nedit lists/users.csv\n- 2,Carl\n+ 2x,Carl\n+ 3,Cora\n"
        "run -c print(open('lists/users.csv').read())\n| user,name\n| 1,Olga\n| 2x,Carl\n| 3,Cora\n|",
        None,
    ),
    ("an_edit_of_no_line", f"{LISTS}row x\nafter lists\nedit lists/users.csv\n- Carl\n+ b\n{QUIET}", "do not stand in"),
    ("a_copy", f"{LISTS}row x\nafter lists\ncopy notes more\nrun -c print(len(open('more').read()))\n| 5", None),
    ("a_copy_of_no_file", f"row x\ncopy notes more\n{QUIET}", "a file can't be brought about"),
    ("sql", BANK, None),
    (
        "sql_over_a_file_that_a_row_before_made",
        f"{BANK}row x\nafter makes_a_bank\nsql bank.db\n| UPDATE users SET name = 'Ann';\n"
        "run -c import\\ssqlite3;print(sqlite3.connect('bank.db').execute('SELECT\\sname\\sFROM\\susers').fetchall())\n"
        "| [('Ann',)]\nunchanged bank.db",
        None,
    ),
    ("sql_that_is_none", f"row x\nsql bank.db\n| SELECT;\n{QUIET}", "a file can't be brought about"),
    (
        "two_runs_in_one_folder",
        f"row x\n{QUIET}\nabsent made\nrun -c open('made','w').write('a')\n"
        "run -c print(open('made').read())\n| a\nunchanged made",
        None,
    ),
    ("the_second_run_fails", f"row x\n{QUIET}\n{ECHO}\n> a\n< b", "in run 2:"),
    ("a_file_that_is_there", "row x\nrun -c open('made','w').write('a')\nabsent made", "made is there"),
    (
        "a_file_that_was_changed",
        f"{LISTS}row x\nafter lists\nrun -c open('notes','w').write('a')\nunchanged notes",
        "is not as it was",
    ),
    ("a_file_that_was_not_there", f"row x\n{QUIET}\nunchanged made", "was not there before"),
    ("rights_that_a_run_asks_for", "row x\nrun -c open('made','w').write('a')\nrights made 666", None),
    ("other_rights", "row x\nrun -c open('made','w').write('a')\nrights made 644", "made has the rights 666, wanted 644"),
    ("a_row_before_that_fails", f"row y\n{ECHO}\n> a\nrow x\nafter y\n{QUIET}", "in y, which comes before:"),
    ("words_of_the_file", f"{ECHO}\nrow x\n> a\n< a", None),
    ("a_comment_ends_a_message", f"{ECHO}\nrow x\n> \\{{length}}\n>\n> ab\\\n# another\n> c\n< 2\n<\n< abc", None),
]


def suite_of(text):
    """The cases of a text."""
    with tempfile.TemporaryDirectory(prefix="bank-suite-") as folder:
        with open(os.path.join(folder, "tried.rows"), "w", encoding="latin-1") as file:
            file.write(text + "\n")
        return Suite(folder)


def require_compiled_anew(room):
    """Passes if every source of the bank program is among those by which tools/try keeps it, and a changed one has it compile."""
    found, path = set(compiling.sources()), os.path.join(room, "source.rt")
    for crate in below(dependencies(), [BANK_PROGRAM]):
        missing = set(glob.glob(f"{TOP}/crates/{crate}/src/**/*.rt", recursive=True)) - found
        require_nothing(f"{it} is not among the sources" for it in missing)
    sums = []
    for text in ("fn one() {}", "fn two() {}"):
        with open(path, "w", encoding="utf-8") as file:
            file.write(text)
        with mock.patch.object(compiling, "sources", lambda: [path]):
            sums.append(compiling.checksum())
    require(sums[0] != sums[1], True, f"checksums {sums} of two sources differ")


def require_members_of_the_bank():
    """Passes if the operations that the tools name by hand, and their members, are those of docs/openapi.json. (The order of the columns
    stands in docs/OPERATIONS.md alone.)"""
    with open(os.path.join(TOP, "docs/openapi.json"), encoding="utf-8") as file:
        page = json.load(file)
    kinds, paths = page["components"]["schemas"], page["paths"]
    schema_of = lambda name: paths[f"/do/{name}"]["post"]["requestBody"]["content"]["application/json"]["schema"]["$ref"].rpartition("/")[2]
    require({it: set(members) for it, members in MEMBERS.items()}, {it: set(kinds[schema_of(it)]["properties"]) for it in MEMBERS}, "members")
    wanted = kinds["Procedure"]["enum"]
    require((list(PROCEDURES), list(columns.PROCEDURES)), (wanted, wanted), "procedures")


def require_refused(text):
    """Passes if a text is refused as it is read as rows."""
    with contextlib.suppress(BadRow, ValueError):
        suite_of(text)
        raise Wrong("it was read")


def require_wrong(make):
    """Passes if something is refused as it is."""
    try:
        found = make()
    except Wrong:
        return
    raise Wrong(f"it was taken: {found!r}")


def run_last(text, wanted):
    """Runs the last case of a text, of which this has to be said, or nothing."""
    suite = suite_of(text)
    # No case here is of the sample bank, so none is run over a copy of its file.
    lines = [line for it in CASES.runs_of(suite, suite.names()[-1], sys.executable, None) for line in it.faults()]
    if wanted is None:
        require_nothing(lines)
    elif wanted not in "\n".join(lines):
        raise Wrong(f"it said: {lines}")


def require_tally(tries, wanted, go_by_clock=True, in_lanes=False):
    """Makes checks that end so at their tries, one after another or each in a lane of its own: this is counted of them, passed,
    failed and passed at the second try, and no try is left over."""
    def make(left):
        if (error := left.pop(0)) is not None:
            raise error

    left, report = [list(it) for it in tries], Report()
    with contextlib.redirect_stdout(io.StringIO()) as said:
        checks = [Check("planted", partial(make, it)) for it in left]
        if in_lanes:
            report.make_lanes([[it] for it in checks])
        else:
            report.make(checks, go_by_clock=go_by_clock)
        report.end()
    found = report.passed, report.failed, report.passed_again, sum(map(len, left))
    require(found, (*wanted, 0), said.getvalue())
    require(said.getvalue().count("passed planted: at the second try"), wanted[2], said.getvalue())


def require_day(tries, wanted, begun):
    """Makes the checks of a day that end so at their tries: this is counted of them, `begun` days are begun, all of them end, and no
    try is left over. The library of this day raises KeyError if it was kept waiting."""
    def make(left, day):
        if (error := left.pop(0)) is not None:
            raise error

    left, report, days = [list(it) for it in tries], Report(), []
    with contextlib.redirect_stdout(io.StringIO()) as said:
        checks = [Check("planted", partial(make, it)) for it in left]
        Days(lambda: days.append(mock.Mock()) or days[-1], [KeyError]).make_all(report, [*checks, Check("lacks", make, "it")])
        report.end()
    found = report.passed, report.failed, report.passed_again, report.skipped, sum(map(len, left))
    require(found, (*wanted, 1, 0), said.getvalue())
    require([it.close.call_count for it in days], [1] * begun, f"days: {said.getvalue()}")


def require_another_port():
    """Passes if what finds its port taken is made at another one, and what fails at a free port is not made again."""
    with socket.create_server((serving.HOST, 0)) as held:
        taken, free, tried = held.getsockname()[1], serving.free_port(), []
        for has_it, wanted in ((lambda port: port == free, [taken, free]), (lambda port: port == taken, [free])):
            with mock.patch.object(serving, "free_port", side_effect=wanted):
                serving.at_free_port(lambda port: tried.append(port) or port, has_it)
            require(tried, wanted, "ports")
            tried.clear()


def ask_both(seed):
    """Asks requests that are drawn of a bank over a ledger and of one that adds up: they answer alike, and have the same rows."""
    rng = random.Random(seed)
    opening = opening_of(rng, False)
    drawing, kept, plain = Drawing(rng, opening), opening.bank.copied(), Bank()
    drawing.moment = FIRST_MOMENT
    vars(plain).update({name: copy.copy(it) for name, it in vars(kept).items() if name != "ledger"})
    plain.entries, plain.lines = [], []
    for kind in ["session"] * 20 + ["drawer-on"] * 8 + [None] * 300:
        message = drawing.drawn(kept, kind)
        (kept, said), (plain, due) = (message.due(it, FIRST_MOMENT) for it in (kept, plain))
        require(said, due, f"to {message.given!r}")
        if rng.random() < 0.5:
            before = rows_of_bank(kept)
            kept.settle()
            require(rows_of_bank(kept), before, "the rows of a bank that settles")
    require([it[:9] for it in sorted(plain.entries)], [it[:9] for it in rows_of_bank(kept)["entries"]], "entries")


def require_all_parts_named():
    """Each part of tools/test is run by its --quick, or left out by name."""
    below_tools = [*ALL.PARTS, *(f"toolchain/{it}" for it in ("unit-tests", "mutants", *ALL.OVER_LIBRARIES))]
    parts = {"rt ci", *("tools/" + it.split()[0] for it in below_tools), *ALL.AT_LAST}
    quick = [it.split()[0] for it in ALL.QUICK]
    require(sorted([*quick, *ALL.LEFT_OUT]), sorted(parts), "parts that --quick runs or leaves out")


def require_at_machine():
    """What is at the machine is found as such, whether it has a clause or not."""
    for crate, names in AT_MACHINE.items():
        found = {line.split()[1] for line in EDGES.edges_of(CRATES.texts_of(crate), [])}
        require(sorted({*names} - found), [], f"functions of {crate} at the machine that are not found")


def require_retired_names():
    """A retired word in a name is seen, also in a mutant's line and in the name of a file, and neither in a comment nor in a text."""
    tried = {
        ("src/lib.rt", 'fn was_told() {} // told: "had"'): [(1, "was_told")],
        ("specs/Lib.antt", "IsRowBehind : ℕ -- behind"): [(1, "IsRowBehind")],
        ("must-fail/a.edit", "had no effect\nold: let a = heard;\nnew: let a = contains_had;"): [(2, "heard")],
        ("must-fail/is_told.edit", "new: a"): [(0, "is_told")],
    }
    for (path, text), wanted in tried.items():
        require([it[:2] for it in TERMS.faults_of_names(path, text)], wanted, f"retired names in {text!r}")


def require_mutants_read(room):
    """Each mutant has only lines that rt reads or passes over, and one goal at most; one that has more is not read."""
    tried = os.path.join(room, "tried.edit")
    for text in ("refused at: returns", "# refused at: returns\n# refused at: call", "old: 1\nnew: 2"):
        with open(tried, "w", encoding="utf-8") as file:
            file.write(text)
        with contextlib.suppress(ValueError):
            raise Wrong(f"{text!r} was read as {mutants.read_mutant(tried)}")
    for file in glob.glob(os.path.join(TOP, "crates", "*", "must-fail", "*.edit")):
        mutants.read_mutant(file)


def checks_of(room):
    """All that is tried."""
    kinds = {"text": TEXTS, "build": BUILDS, "clause": CLAUSES, "sum": SUMS, "said": SAID, "count": COUNTS, "time": TIMES}
    for kind, pairs in kinds.items():
        for number, (found, wanted) in enumerate(pairs, 1):
            yield Check(f"{kind}_{number}", partial(require, found, wanted, kind))
    for name, (tries, wanted) in TALLIES.items():
        yield Check(name, partial(require_tally, tries, wanted))
    for name, (tries, wanted, begun) in DAYS.items():
        yield Check(name, partial(require_day, tries, wanted, begun))
    for only, wanted in ((["b"], ["a", "b", "ab"]), (["c"], []), ([], ["a", "b", "ab", "d"])):
        yield Check(f"day_up_to_{'_'.join(only)}", partial(require, up_to_last(["a", "b", "ab", "d"], only), wanted, "names"))
    yield Check("late_in_a_lane", partial(require_tally, [[None], [LATE, None], [WRONG]], (2, 1, 1), in_lanes=True))
    yield Check("late_where_no_clock_is_gone_by", partial(require_tally, [[LATE]], (0, 1, 0), go_by_clock=False))
    for name, text in REFUSED.items():
        yield Check(name, partial(require_refused, text))
    for name, make in NOT_COUNTED.items():
        yield Check(name, partial(require_wrong, make))
    for seed in range(1, 4):
        yield Check(f"ledger_{seed}", partial(ask_both, seed))
    yield Check("port_that_is_taken", require_another_port)
    yield Check("members_of_the_bank", require_members_of_the_bank)
    yield Check("retired_names", require_retired_names)
    yield Check("mutants_are_read", partial(require_mutants_read, room))
    yield Check("functions_at_the_machine", require_at_machine)
    yield Check("quick_names_what_it_leaves_out", require_all_parts_named)
    yield Check("first_look_is_compiled_anew", partial(require_compiled_anew, room))
    yield from kept_trials.checks_of(mutants.is_drawn, room)
    yield from ended_commands.checks_of(room)
    yield from named_paths.checks_of()
    for name, text, wanted in ROWS_TO_RUN:
        yield Check(name, partial(run_last, text, wanted))


def main():
    return run_checks(reader(__doc__, program=None).parse_args(), checks_of, programs=[])
