"""What the built program is at work on while something fails (injected.py), and what must hold then.

The reference model gives the replies that are due, and how many rows there are of what only grows. A request bears the moment of
the model, so the rows after it are always the same.
"""
import contextlib
import itertools
import os
import tempfile
from pathlib import Path

import page_sums
from checks import Wrong
from faults.earlier_files import CARRIED, HOLDS, OTHER, Tables, difference_of, make_earlier_file, require_said, without_moments
from faults.file_kinds import KINDS, YEAR, answered
from faults.messages import Messages
from model.bank import MOMENT, Bank
from replies import END_OF_HEAD, replies_in, size_of
from sample_file import LISTS, copy_bank, ended, require_sound, run_to_end, run_arguments
from serving import asked, at_free_port, serve_arguments

BROKEN = b"stream: broken\n"
# How long a page of a new file is, in bytes.
PAGE = 512
MADE = (0, b"made\n", b"")
FORWARDED = (0, b"carried forward\n", b"")
NO_BANK = {b"file: not read\n", b"file: not a bank\n"}
# The ending of the file of a year that ends.
OLD = "-old"
# What is left there, as it is printed.
BEFORE, AFTER = "the state before", "the state after"


class Work:
    """A run of the program over a file, which is a copy of a bank."""

    given = b""
    # whether the calls before the first request is read fail as often as the later ones
    is_tried_throughout = True
    # whether each run makes the same calls
    is_steady = False

    def __init__(self, program, name, bank=None):
        self.program = program
        self.name = name
        self.bank = bank

    def prepare(self):
        """What is done once, before it is tried."""

    def begin(self, file):
        """Makes the file, if it has one."""
        if self.bank:
            copy_bank(self.bank, file)

    def made(self, run, file, given=None):
        """How a run over the file ends, which may be given something else than the work is."""
        return run(self.arguments(file), self.given if given is None else given)


class Start(Work):
    """A run of `sample` that is given nothing."""

    def __init__(self, program):
        super().__init__(program, "the start of `sample`")

    def arguments(self, _):
        return ["sample", "--moment", str(MOMENT)]

    def judged(self, said, _file, fault, _place):
        """It starts or ends with the fault's line."""
        if said not in fault.ends((0, b"", b"")):
            raise Wrong(f"it ended with {said!r}")
        return "it ended" if said[0] else "it served"


class Case(Work):
    """A case of rows/ over `sample`: its messages, one that is alone twice over, each carried out or refused."""

    is_tried_throughout = False
    is_steady = True

    def __init__(self, program, name, step):
        super().__init__(program, name)
        self.step = step
        messages = Messages(step.given, step.output)
        self.takes_memory = not any(b'{"fault":"M%d"}' % n in step.output for n in range(1, 5))
        pieces = messages.pieces()
        self.pieces = pieces * 2 if len(pieces) == 1 else pieces
        self.given = b"".join(self.pieces)
        self.due = {}

    def prepare(self):
        """Finds what is due, by which messages are answered 503."""
        if self.plainly([self.step.given]) != self.step.output:
            raise Wrong("the program does not answer the case as it has to")
        self.due = {it: self.due_where(it) for it in itertools.product((False, True), repeat=len(self.pieces))}

    def arguments(self, _):
        return self.step.words

    def plainly(self, pieces):
        """What is written where nothing fails."""
        return ended(self.program, self.step.words, b"".join(pieces))

    def due_where(self, refused):
        """What is due by which messages are answered 503: the others are answered as if they had come alone."""
        made = [piece for piece, it in zip(self.pieces, refused) if not it]
        replies = replies_in(self.plainly(made))
        if self.takes_memory and len(replies) != len(made):
            raise Wrong("a reply of its ends the connection")
        each = iter(replies)
        return b"".join(REFUSED[1] if it else next(each, b"") for it in refused)

    def judged(self, said, _file, fault, place):
        """It ends at the start, or it serves: each reply is 503, or due where those requests were not made; one at most is 503
        where one call fails, and none of M1 to M4. Or a report breaks off after its head."""
        status, output, errors = said
        most = 0 if not self.takes_memory else len(self.pieces) if fault.goes_on(place) else 1
        due = {text: sum(refused) for refused, text in self.due.items() if sum(refused) <= most}
        if said == (3, b"", fault.line):
            return "it ended at the start"
        if (status, errors) == (3, BROKEN) and ends_in_report(output):
            if any(it.startswith(output) and (fault.goes_on(place) or not replies) for it, replies in due.items()):
                return "it ended within a report"
        if (status, errors) != (0, b"") or output not in due:
            raise Wrong(f"it ended with {said!r}")
        return f"{due[output]} of {len(self.pieces)} replies were 503"


class CutCase(Work):
    """A case over the sample in lists, by test_stores, that is cut."""

    def __init__(self, program, name, step, moment, known):
        super().__init__(program, name)
        self.moment = moment
        self.messages = Messages(step.given, step.output)
        self.given = step.given
        # after which bytes it is cut
        self.places = list(self.messages.places(known))
        whole = (step.status, step.output, step.errors)
        if self.messages.ended(len(self.given)) != whole:
            raise Wrong(f"by its messages it ends with {self.messages.ended(len(self.given))}, and the case says {whole}")

    def arguments(self, _):
        return ["list", self.moment]

    def require_world(self, _file, _count):
        """Nothing is left of it."""


class Init(Work):
    """A bank that is made, with sums on its pages or without. Where it says so, an empty file is there."""

    def __init__(self, program, *sums, is_there=False):
        super().__init__(program, " ".join(["init", *sums, *["over an empty file"] * is_there]))
        self.sums = sums
        self.is_there = is_there

    def begin(self, file):
        if self.is_there:
            with open(file, "wb"):
                pass

    def arguments(self, file):
        return ["init", file, LISTS, *self.sums]

    def require_made(self, file):
        """Passes if the bank is sound, its pages are those that were asked for, and nothing else is left. Half a page may
        stand in the file while the log has all of it, until a run copies that."""
        require_sound(self.program, file)
        ended(self.program, run_arguments(file, MOMENT))
        page_sums.require_pages(file, PAGE, bool(self.sums))
        if os.path.lexists(file + "-new"):
            raise Wrong("beside it the file of the first page is left")

    def judged(self, said, file, fault, _):
        """The bank is there, or a file that is not there or holds no bank, of which `init` then makes one."""
        if said not in fault.ends(MADE):
            raise Wrong(f"it ended with {said!r}")
        checked = run_to_end([self.program, "check", file])
        if checked == HOLDS:
            self.require_made(file)
            return AFTER
        if said == MADE or checked[2] not in NO_BANK:
            raise Wrong(f"check ended with {checked!r}")
        ended(self.program, self.arguments(file))
        self.require_made(file)
        return BEFORE


class Forward(Work):
    """A bank that begins its next year in a new file, which is not there. The old file, whose pages end in sums, stands beside
    it."""

    def __init__(self, program, sample, room, *sums):
        super().__init__(program, " ".join(["forward", *sums]))
        self.sums = sums
        self.old = os.path.join(room, "before-" + self.name.replace(" ", "-"))
        copy_bank(sample, self.old)
        _, given, replies = answered(Bank(), YEAR)
        said = ended(program, run_arguments(self.old, MOMENT), given)
        if said != b"".join(replies) or said.count(b" 200 OK") != len(YEAR):
            raise Wrong(f"it answered {said!r}; due was {b''.join(replies)!r}")
        self.after = begun(Tables(self.old).rows)

    def begin(self, file):
        copy_bank(self.old, file + OLD)

    def arguments(self, file):
        return ["forward", file + OLD, file, *self.sums]

    def judged(self, said, file, fault, _):
        """The old file is as it was, byte for byte. The next year's bank is there, row by row; or a file that is not there or
        holds no bank, in which `forward` then makes it. Its pages are those that were asked for, once a run has copied the
        log."""
        if said not in fault.ends(FORWARDED):
            raise Wrong(f"it ended with {said!r}")
        require_same_bytes(self.old, file + OLD)
        checked = run_to_end([self.program, "check", file])
        is_made = checked == HOLDS
        if not is_made:
            if said == FORWARDED or checked[2] not in NO_BANK:
                raise Wrong(f"check ended with {checked!r}")
            require_said(self.program, self.arguments(file), FORWARDED)
            require_sound(self.program, file)
        ended(self.program, run_arguments(file, MOMENT))
        page_sums.require_pages(file, PAGE, bool(self.sums))
        tables = Tables(file)
        difference = difference_of(tables.rows, self.after)
        if difference or not tables.is_whole:
            raise Wrong(f"another bank is there: {difference}")
        return AFTER if is_made else BEFORE


class Checked(Work):
    """A bank that is checked."""

    def __init__(self, program, bank):
        super().__init__(program, "check", bank)

    def arguments(self, file):
        return ["check", file]

    def judged(self, said, file, fault, _):
        """The file is as it was, byte for byte."""
        if said not in fault.ends(HOLDS):
            raise Wrong(f"it ended with {said!r}")
        require_same_bytes(self.bank, file)
        return BEFORE


class Upgrade(Work):
    """A bank of an earlier schema version that is migrated. With the program of that version, what that says of it, too."""

    def __init__(self, program, version, name, room, earlier=None):
        # several lines of faults have the same bank, each a file of its own
        bank, _ = make_earlier_file(version.suite(), name, tempfile.mkdtemp(prefix=f"{version.name}-{name}-", dir=room))
        super().__init__(program, f"upgrade of {version.name}, {name}", bank)
        self.earlier = earlier
        self.before = Tables(bank).rows
        self.after = version.carried_over(self.before)

    def arguments(self, file):
        return ["upgrade", file]

    def is_migrated(self, file):
        """Whether a file and its log are the bank after the upgrade; they are the one before it, else, in full."""
        found = Tables(file)
        differences = [difference_of(found.rows, it) for it in (self.after, self.before)]
        if not found.is_whole or None not in differences:
            raise Wrong(f"neither bank is there: of the one after {differences[0]}, of the one before {differences[1]}")
        return differences[0] is None

    def judged(self, said, file, fault, _):
        """One of both banks is there, as Python's sqlite3 and `check` see it: the one after, where the run said so; from the one
        before `upgrade` then makes the one after."""
        if said not in fault.ends(CARRIED):
            raise Wrong(f"it ended with {said!r}")
        is_migrated = self.is_migrated(file)
        if said and said[1] == CARRIED[1] and not is_migrated:
            raise Wrong("it said that the bank is carried over, and it is not")
        if fault.leaves_bytes and not is_migrated:
            require_same_bytes(self.bank, file)
        if self.earlier:
            copy = file + "-of-earlier"
            copy_bank(file, copy)
            require_said(self.earlier, ["check", copy], OTHER if is_migrated else HOLDS)
        if not is_migrated:
            require_said(self.program, ["check", file], OTHER)
            require_said(self.program, ["upgrade", file], CARRIED)
        require_said(self.program, ["check", file], HOLDS)
        if not self.is_migrated(file):
            raise Wrong("in the end it is not carried over")
        return AFTER if is_migrated else BEFORE


class Run(Work):
    """Requests of a kind to a bank in a file, by `run`."""

    def __init__(self, program, sample, kind, room):
        bank = os.path.join(room, kind.name.replace(" ", "-"))
        super().__init__(program, f"run, {kind.name}", bank)
        copy_bank(sample, bank)
        model, given, replies = answered(Bank(), kind.before)
        self.require_answered(bank, given, replies)
        # the rows after none of the requests, after one, and so on
        self.worlds = [self.rows_of(bank, model)]
        for count in range(1, len(kind.asked) + 1):
            after, self.given, self.replies = answered(model, kind.asked[:count])
            whole = f"{bank}-after-{count}"
            copy_bank(bank, whole)
            self.require_answered(whole, self.given, self.replies)
            self.worlds.append(self.rows_of(whole, after))
        self.messages = Messages(self.given, b"".join(self.replies))
        self.places = range(len(self.given) + 1)
        self.is_tried_throughout = kind is KINDS[0]
        # asked for once more, it is answered so again, and changes nothing
        is_changed = difference_of(self.worlds[0], self.worlds[-1]) is not None
        self.is_idle = not is_changed or all(it.slip for it in kind.asked)

    def arguments(self, file):
        return run_arguments(file, MOMENT)

    def require_answered(self, file, given, replies):
        """Passes if what is given is answered so."""
        said = ended(self.program, self.arguments(file), given)
        if said != b"".join(replies):
            raise Wrong(f"it answered {said!r}; due was {b''.join(replies)!r}")

    def rows_of(self, file, bank):
        """The rows of a file, which are as many as the model says."""
        rows = Tables(file).rows
        closed = sum(bank.days.values()) - len(bank.days)
        due = {"entries": len(bank.entries), "lines": len(bank.lines), "proofs": closed}
        due |= {"releases": len(bank.releases), "slips": len(bank.slips)}
        found = {it: len(rows[it]) for it in due}
        if found != due:
            raise Wrong(f"there are {found}; due were {due}")
        return rows

    def done(self, output, fault):
        """Of each reply whether it is the one that is due; the others are of the fault. Where that stops the disk, each reply
        after its first is of the second, and none is due."""
        replies = replies_in(output)
        if b"".join(replies) != output or len(replies) > len(self.replies):
            raise Wrong(f"it wrote {output!r}")
        done = [reply == due for reply, due in zip(replies, self.replies)]
        refused = [reply for reply, is_due in zip(replies, done) if not is_due]
        first, later = fault.replies
        if refused != [first, *[later] * (len(refused) - 1)][: len(refused)]:
            raise Wrong(f"it answered {output!r}")
        if fault.stops and done != sorted(done, reverse=True):
            raise Wrong(f"it went on after its disk had failed: {output!r}")
        return done

    def is_broken_off(self, output):
        """Whether this is the beginning of a report that ends after its head."""
        head, end, _ = self.replies[0].partition(b"\r\n\r\n")
        is_report = b"\r\nContent-Type: text/plain\r\n" in head
        return is_report and output.startswith(head + end) and self.replies[0].startswith(output) and output != self.replies[0]

    def judged(self, said, file, fault, _):
        """The state after the requests is there if one got its reply, the state before if none did; or, where the fault allows
        both, and the run could not close the file, one of them."""
        status, output, errors = said
        done = []
        if (status, errors) != (3, BROKEN) or not self.is_broken_off(output):
            if (status, errors) not in ((0, b""), (3, fault.line)):
                raise Wrong(f"it ended with {said!r}")
            done = self.done(output, fault)
            if len(done) != len(self.replies) and (status == 0 or done):
                raise Wrong(f"it ended with {said!r}")
        may_be_either = done and fault.may_be_done and status != 0
        return self.left(file, (True,) if any(done) else (True, False) if may_be_either else (False,))

    def left(self, file, may_be):
        """Which state is there, one of these, row by row. It is sound, and what is asked for anew is answered and done once."""
        found = Tables(file)
        differences = [difference_of(found.rows, self.worlds[-1 if it else 0]) for it in may_be]
        if not found.is_whole or None not in differences:
            raise Wrong(f"{AFTER if True in may_be else BEFORE} is not there: {differences[0]}")
        is_after = difference_of(found.rows, self.worlds[-1]) is None
        require_sound(self.program, file)
        if self.is_idle or not is_after:
            self.require_answered(file, self.given, self.replies)
            self.require_world(file, -1)
        return AFTER if is_after else BEFORE

    def require_world(self, file, count):
        """Passes if a file has the rows after the first n requests."""
        difference = difference_of(Tables(file).rows, self.worlds[count])
        if difference:
            raise Wrong(f"after {count} requests another bank is there: {difference}")


class Serve(Run):
    """Requests of a kind to a bank in a file, by `serve`, on one connection."""

    def __init__(self, program, sample, kind, room):
        super().__init__(program, sample, kind, room)
        self.name = f"serve, {kind.name}"

    def made(self, run, file, given=None):
        """How it ends, but for what was written: the reply that the client got, or None where the run did not listen, or no
        more."""
        def served(port):
            replies = []

            def ask(process):
                if process.stdout.readline():
                    with contextlib.suppress(ConnectionRefusedError):
                        replies.append(asked(port, self.given))

            status, _, errors = run(serve_arguments(file, port, 1), b"", ask)
            return status, replies[0] if replies else None, errors

        return at_free_port(served, lambda it: it[1] is not None)

    def judged(self, said, file, fault, _):
        """The same, but for the moments of entries and lines, which its clock gives; a connection may end with no reply."""
        status, output, errors = said
        if status not in ((3,) if output is None else (0, 3)) or errors != (fault.line if status else b""):
            raise Wrong(f"it ended with {said!r}")
        is_after = any(self.done(output or b"", fault))
        found, wanted = Tables(file).rows, self.worlds[-1 if is_after else 0]
        difference = difference_of(without_moments(found), without_moments(wanted))
        if difference:
            raise Wrong(f"it answered {output!r}, and another bank is there: {difference}")
        require_sound(self.program, file)
        return AFTER if is_after else BEFORE


def begun(rows):
    """The rows of the next year's tables, by those of a year that is closed: kept balances are openings, the kept cash of a vault
    is its opening cash, and what counts or sums entries and lines begins at 0."""
    branches = [(it[0], it[4], it[5], it[3], it[4], it[5], 0, 0, it[8], 0, 0, 0, 0) for it in rows["branches"]]
    tellers = [(*it[:2], it[3], it[3], 0, 0) for it in rows["tellers"]]
    accounts = [(*it[:2], it[4], it[3], it[4], 0) for it in rows["accounts"]]
    return {**rows, "branches": branches, "tellers": tellers, "accounts": accounts, "entries": [], "lines": []}


def refusal(number):
    """The reply 503 by a fault F."""
    return b'HTTP/1.1 503 Service Unavailable\r\nContent-Type: application/json\r\nContent-Length: 14\r\n\r\n{"fault":"F%d"}' % number


REFUSED = {number: refusal(number) for number in (1, 3, 4)}


def ends_in_report(output):
    """Whether bytes end within a report, after its head."""
    last = output[max(output.rfind(b"HTTP/1.1 "), 0) :]
    head, end, _ = last.partition(END_OF_HEAD)
    return b"\r\nContent-Type: text/plain\r\n" in head + b"\r\n" and end and size_of(last) is None


def require_same_bytes(bank, file):
    """Passes if a file is a copy of a bank's."""
    if Path(bank).read_bytes() != Path(file).read_bytes():
        raise Wrong("the file is not as it was")
