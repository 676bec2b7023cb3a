"""Has something fail at each place where it can while the built program is at work, and looks at what is left.

    tools/faults/run [--step STEP] [--cases CASE ..] [--earlier FIRST SECOND] [--only TEXT] [--list] [PROGRAM]

The table LINES has what fails (injected.py), the works (works.py), and what must hold. Each work is tried once for each place:
over a copy of its bank, with the call, byte or moment of that place. Libraries of a few lines, which cc compiles into a temporary
folder and the loader puts before the C library, count calls and have them fail.

Of a file's allocations one in STEP is refused, which is 20 where it is left out; with 1 each is, which takes an hour. With names
of cases that `sample` runs, memory and cuts are tried over these alone; with `all`, cuts over all. With programs of the earlier
schema versions, their `check` has to see the same of a migrated file. With a text, only the lines are tried that have it in their
names.

A line for each fault and work says what was left how often. Each of these is a check.
"""
import functools
import os
import re
import tempfile
from collections import Counter
from concurrent.futures import ThreadPoolExecutor
from functools import partial
from typing import NamedTuple

from cases.suite import Suite
from checks import Check, Wrong, lacks_stores, outcome, reader, reason, run_checks
from faults.disk_calls import Watched
from faults.earlier_files import EARLIER_VERSIONS
from faults.file_kinds import KINDS, SEVERAL
from faults.injected import Cut, Disk, Ended, Failing, Killed, Memory, Power
from faults.refusals import Program
from faults.works import Case, Checked, CutCase, Forward, Init, Run, Serve, Start, Upgrade
from preload import preloaded
from repository import OVER
from sample_file import ENDINGS, make_sample

STEP = 20
# Of how many calls for memory before a request is read one is refused, as of the others; and with all later ones.
EARLY, LATER = 25, 50
# What a pipe holds that nobody reads: a case with longer replies is not cut.
MOST_WRITTEN = 60_000
OPENED, FROM_STREAM, KILLED_ONCE = "bank_that_is_opened", "bank_after_60_requests_of_stream_2", "bank_and_log_that_a_kill_left"

# Over which cases memory is refused.
REFUSED = """
    post_to_an_account transfer_between_accounts correction_of_a_transfer drawer_on_after_it_was_off
    move_from_drawer_to_drawer close_day_once_both_drawers_are_off new_account release release_lets_a_post_be
    slip_of_what_was_corrected_since balance_of_an_account statement_of_one_entry accounts_over_overlapping_intervals
    proof_of_a_branch grant_a_triple triple_of_one_moment define_set_of_32_members enrol_a_user post_below_the_floor
    no_triple_of_the_procedure identity_no_badge path_unknown badge_of_65_bytes body_that_is_no_json host_missing
    length_of_1025
""".split()
# Which cases are cut.
CUT = """
    post_to_an_account two_posts_in_one_piece post_remote_down_to_zero post_of_the_greatest_delta
    post_above_the_greatest_delta post_of_zero post_of_more_than_the_drawer_holds post_at_the_drawer_of_another
    post_at_a_branch_that_is_not_the_tellers post_below_the_floor not_certified_account_past_all_sets limit_passed
    limit_of_the_wider_set_reached transfer_between_accounts transfer_in_no_one_triple correction_of_a_post
    correction_of_a_transfer drawer_on_after_it_was_off close_day_with_one_drawer_held
    close_day_then_a_correction_of_the_day_before move_from_drawer_to_drawer new_account_twice
    new_account_with_a_floor_below_zero_passes_the_limit release_after_its_giver_lost_his_triple
    release_within_the_limit_stays release_stays_where_a_rule_of_the_books_denies release_of_a_post_to_a_missing_account
    release_for_oneself release_for_a_missing_user balance_of_an_account balance_of_an_empty_account
    no_triple_balance_of_a_missing_account statement_of_one_entry statement_of_an_account_without_entries
    statement_between_grant_and_withdrawal accounts_over_overlapping_intervals proof_of_a_branch
    session_opened_then_the_old_number session_ended_then_its_number commands_of_each_kind_one_after_another
    triple_of_one_moment suspend_a_user suspend_by_a_certifier suspend_oneself withdraw_then_certify_brings_no_triple_back
    grant_to_a_dismissed_certifier_whose_relation_stands grant_on_a_set_that_is_not_certified
    define_set_of_a_number_of_the_opening define_set_by_one_who_certifies_nothing listing_of_the_policy listing_to_a_teller
    slip_sent_once_more no_head_but_words no_head_by_a_folded_line host_missing host_twice length_twice length_with_a_sign
    length_of_1024 length_of_1025 length_missing_then_a_message head_of_8192_bytes head_of_8193_bytes
    line_ends_between_two_messages line_end_lf_alone_in_a_head line_ends_before_and_after transfer_encoding_with_length_10
    transfer_encoding_with_length_2000 close_then_a_second_message version_1_0 method_head_then_a_message session_by_get
    path_with_a_query path_unknown session_with_a_leading_zero session_0 session_twice badge_of_65_bytes release_field_twice
    slip_field_twice body_with_a_member_too_many body_with_a_member_too_few body_with_a_fraction
    body_with_a_number_in_quotes body_with_a_byte_255
""".split()


class Line(NamedTuple):
    """A line of the table: what fails, what makes the works, by their names, and what must hold; and what they lack, if anything."""

    faults: list
    works: dict
    holds: str
    lacks: str = ""


def moment_of(case):
    """The moment at which `sample` is sent a case that can be cut, or none where it can't."""
    step = case.is_plain() and case.only()
    arguments = step and re.fullmatch(rb"sample --moment[ =](\d+)", b" ".join(step.words))
    return arguments[1] if arguments and step.given and len(step.output) <= MOST_WRITTEN else None


class Table:
    """The lines, and what their works are made of: the program, the sample in a file, and the banks of earlier versions."""

    def __init__(self, given, folder):
        self.program = given.program
        self.earlier = dict(zip(EARLIER_VERSIONS, given.earlier))
        self.folder = folder
        self.step = given.step
        self.lacks_stores = lacks_stores(given)
        self.suite = Suite()
        self.known = set()
        is_all = given.cases == ["all"]
        self.refused = REFUSED if is_all else given.cases or REFUSED
        self.cut = [it for it in self.suite.names() if moment_of(self.suite.row(it))] if is_all else given.cases or CUT
        self.memory, self.watched = Program(self.program, folder), Watched(self.program, folder)
        self.streams = preloaded("faults/streams.c", folder)
        self.sample = os.path.join(folder, "sample")
        make_sample(self.program, self.sample)

    def cut_case(self, name):
        """A case that is cut."""
        moment = moment_of(self.suite.row(name))
        if moment is None:
            raise Wrong("it is none that `sample` answers, or one with a long reply")
        return CutCase(OVER, name, self.suite.only(name), moment, self.known)

    def cases(self):
        """The start of `sample`, and the cases over which memory is refused."""
        works = {"the start of `sample`": partial(Start, self.program)}
        return works | {it: lambda it=it: Case(self.program, it, self.suite.only(it)) for it in self.refused}

    def runs(self):
        """A `run` of each kind."""
        return {f"run, {it.name}": partial(Run, self.program, self.sample, it, self.folder) for it in KINDS}

    def upgrades(self, *names):
        """An `upgrade` of a bank of each earlier version."""
        made = {}
        for version in EARLIER_VERSIONS:
            for name in names:
                of_bank = partial(Upgrade, self.program, version, name, self.folder, self.earlier.get(version))
                made[f"upgrade of {version.name}, {name}"] = of_bank
        return made

    def forwards(self):
        """A `forward` of a bank whose year is closed, with sums and without."""
        kinds = ((), ("--sums",))
        return {" ".join(["forward", *it]): partial(Forward, self.program, self.sample, self.folder, *it) for it in kinds}

    def others(self):
        """An `init`, a `check`, and a `serve` of a post."""
        return {
            "init": partial(Init, self.program),
            "init --sums": partial(Init, self.program, "--sums"),
            "check": partial(Checked, self.program, self.sample),
            "serve, post": partial(Serve, self.program, self.sample, KINDS[0], self.folder),
        }

    def inits(self):
        """An `init` of each kind."""
        made = [Init(self.program, *sums, is_there=is_there) for sums in ((), ("--sums",)) for is_there in (False, True)]
        return {it.name: partial(lambda it: it, it) for it in made}

    def lines(self):
        """What fails, the works, and what must hold."""
        several = {SEVERAL.name: partial(Run, self.program, self.sample, SEVERAL, self.folder)}
        cuts = {it: partial(self.cut_case, it) for it in self.cut}
        disk = [Disk(f"a call to the disk, {it}", self.watched, it) for it in Disk.WAYS]
        ends = [Cut("the input in two pieces"), Ended("the end of the input")]
        whole = "what came whole is answered and carried out, and nothing else"
        return [
            Line(
                [Memory("a call for memory", self.memory, 0, 1, 7)],
                self.cases(),
                "each request is carried out, or is answered 503 and not carried out",
            ),
            Line(
                [Memory("a call for memory over a file", self.memory, self.step * EARLY, self.step, self.step * LATER)],
                self.others() | self.forwards() | self.runs() | self.upgrades(OPENED),
                "the file has the state before, or, where a request got its reply, the state after; asked anew, the state after",
            ),
            Line(
                [Disk(f"the bank's {'log' if it else 'file'}", self.watched, "from there on", it) for it in ENDINGS],
                self.runs() | self.upgrades(OPENED),
                "replies are due up to one 503 by F3, then F4; the file has one of both states, and after a reply the later one",
            ),
            Line(
                [it for it in disk if it.way == "once"],
                self.runs(),
                "the same; and where the run ends in order, what was answered 503 is not made",
            ),
            Line(
                [*disk, Power("power", self.watched)],
                self.upgrades(FROM_STREAM, KILLED_ONCE),
                "the file has the bank before the upgrade or the one after, in full",
            ),
            Line([Killed("killed at a moment")], self.upgrades(FROM_STREAM), "the same"),
            Line(
                [*disk, Power("power", self.watched), Killed("killed at a moment")],
                self.inits(),
                "the bank is there, or no bank, and the next `init` makes it",
            ),
            Line(
                [*disk, Power("power", self.watched), Killed("killed at a moment")],
                self.forwards(),
                "the new file has no bank, and `forward` then makes it, or the whole next year's; the old file has the bytes that it had",
            ),
            Line(ends, cuts, whole, self.lacks_stores),
            Line(ends, several, whole),
            Line(
                [
                    Failing("a read", self.streams, "read"),
                    Failing("a write", self.streams, "write"),
                    Failing("all writes from one on", self.streams, "write", "f"),
                    Failing("a write that takes no byte", self.streams, "write", "n"),
                ],
                several,
                "the request whose reply broke off is carried out, and none after it",
            ),
        ]


def judge_place(fault, work, place, room):
    """Tries a work at a place, and returns what is left, and what is wrong, if anything is."""
    def left():
        with tempfile.TemporaryDirectory(dir=room) as folder:
            file = os.path.join(folder, "bank")
            work.begin(file)
            return fault.judged(work, fault.made(work, file, place), file, place)

    found, error = outcome(left)
    return found, error and f"{fault.at(place)}: {reason(error)}"


def passes(fault, make, holds, room, pool):
    """Tries a work at each place of a fault, and returns what is left how often."""
    work = make()
    work.prepare()
    found = list(pool.map(lambda place: judge_place(fault, work, place, room), fault.places(work, room)))
    wrong = [why for _, why in found if why]
    if wrong:
        raise Wrong("\n    ".join([holds, *wrong]))
    return f"{len(found)} places: {', '.join(f'{it} {count}' for it, count in Counter(it for it, _ in found).items())}"


def main():
    arguments = reader(__doc__, has_stores=True)
    arguments.add_argument("--step", type=int, default=STEP)
    arguments.add_argument("--cases", nargs="+", default=[])
    arguments.add_argument("--earlier", nargs="+", type=os.path.abspath, default=[])
    given = arguments.parse_args()
    with ThreadPoolExecutor(os.cpu_count()) as pool:
        def checks_of(room):
            for line in Table(given, room).lines():
                for name, work_of in line.works.items():
                    work = functools.cache(work_of)
                    for fault in line.faults:
                        make = partial(passes, fault, work, line.holds, room, pool)
                        yield Check(f"{fault.name}, {name}", make, line.lacks)

        return run_checks(given, checks_of, programs=[given.program, *given.earlier])
