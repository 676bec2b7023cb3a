"""Runs the built program over streams that a case can't give it, and looks at how it ends.

    tools/faults/ends [--only TEXT] [--list] [PROGRAM]

An end is a run of the program with its standard streams on a device that takes no byte, on a folder, on a pipe that no one reads,
or closed; or with input that comes in pieces, each sent once what was due before it has come; or a run of test_stores with
arguments that it refuses. Its status and what it wrote are compared with what has to be. In one run the calls are counted by
which replies go out; it is skipped, and a line says so, where there is no strace that can watch a program. What was late is tried
once more at the end.
"""
import contextlib
import os
import re
import select
import shutil
import subprocess
import tempfile
import time

from cases.suite import Suite
from checks import Check, Late, Wrong, lacks_stores, reader, require, run_checks
from repository import OVER

SECONDS = 240

SAMPLE = ["sample", "--moment", "700"]
BROKEN = b"stream: broken\n"
CUT = b"stream: cut\n"

# What a standard stream is opened on, beside bytes that are given or kept.
FULL = "a device that takes no byte"
FOLDER = "a folder"
UNREAD = "a pipe that no one reads"
CLOSED = "closed"


SUITE = Suite()
POST = SUITE.only("post_to_an_account").given
REPLY = SUITE.only("post_to_an_account").output
# A message that changes nothing, so that each time the reply is the same.
QUESTION = SUITE.only("balance_of_an_account").given
BALANCE = SUITE.only("balance_of_an_account").output
REPORT = SUITE.only("listing_of_the_policy").given

# How many questions are sent one after another, and in how many writes their replies go out at most.
QUESTIONS = 10
MOST_WRITES = 11
# A call of the program that writes to standard output, as strace prints it.
NO_STRACE = "there is no strace that can watch a program"
WRITE = re.compile(rb"^(?:\d+ +)?(?:write|writev|pwrite64)\(1, ", re.MULTILINE)


class End:
    """One run: its arguments and streams, and what has to come of it. Output that isn't kept is not compared. The program
    is the bank's where none is named."""

    def __init__(self, name, status, words=SAMPLE, given=b"", output=b"", errors=b"", program=None):
        self.name = name
        self.status = status
        self.words = words
        self.given = given
        self.output = output
        self.errors = errors
        self.program = program


def refused_store(name, words):
    """A run of test_stores with arguments that name no store, or no moment after one."""
    said = b"words: list, cached or sql, and a moment\n"
    return End(f"store_{name}", 2, words=words, errors=said, program=OVER)


# In `output` and `errors` bytes are those that have to be written there; all else is what the stream is opened on.
ENDS = [
    End("reply_to_a_full_device", 3, given=POST, output=FULL, errors=BROKEN),
    End("reply_to_a_full_device_told_to_another", 3, given=POST, output=FULL, errors=FULL),
    End("reply_to_a_pipe_that_no_one_reads", 3, given=POST, output=UNREAD, errors=BROKEN),
    End("reply_to_a_closed_output", 3, given=POST, output=CLOSED, errors=BROKEN),
    End("refusal_of_a_head_to_a_full_device", 3, given=b"x" * 9000, output=FULL, errors=BROKEN),
    End("report_to_a_full_device", 3, given=REPORT, output=FULL, errors=BROKEN),
    End("report_to_a_pipe_that_no_one_reads", 3, given=REPORT, output=UNREAD, errors=BROKEN),
    End("nothing_to_a_full_device", 0, output=FULL),
    End("input_from_a_folder", 3, given=FOLDER, errors=BROKEN),
    End("input_from_a_folder_told_to_a_full_device", 3, given=FOLDER, errors=FULL),
    End("input_that_is_closed", 3, given=CLOSED, errors=BROKEN),
    End("cut_told_to_a_full_device", 3, given=POST[:-1], errors=FULL),
    End("cut_told_to_a_closed_stream", 3, given=POST[:-1], errors=CLOSED),
    End("cut_after_a_reply", 3, given=POST + POST[:-1], output=REPLY, errors=CUT),
    End("help_to_a_full_device", 3, words=["--help"], output=FULL, errors=BROKEN),
    End("help_of_sample_to_a_full_device", 3, words=["sample", "--help"], output=FULL, errors=BROKEN),
    End("help_to_a_pipe_that_no_one_reads", 3, words=["--help"], output=UNREAD, errors=BROKEN),
    End("help_to_a_closed_output", 3, words=["--help"], output=CLOSED, errors=BROKEN),
    End("refused_words_told_to_a_full_device", 2, words=["frobnicate"], errors=FULL),
    End("words_that_are_no_text", 2, words=[b"\xff"], errors=b"error: an argument is not UTF-8\n"),
    End("words_that_are_no_text_told_to_a_full_device", 2, words=[b"\xff"], errors=FULL),
    End("store_in_lists", 0, words=["list", "99999999999"], given=POST, output=REPLY, program=OVER),
    End("store_with_a_cache_in_front", 0, words=["cached", "0"], given=POST, output=REPLY, program=OVER),
    End("store_in_tables", 0, words=["sql", "700"], given=POST, output=REPLY, program=OVER),
    refused_store("unknown", ["lists", "700"]),
    refused_store("without_a_name", ["", "700"]),
    refused_store("at_a_moment_too_large", ["list", "100000000000"]),
    refused_store("at_a_moment_below_zero", ["list", "-1"]),
    refused_store("at_a_moment_of_letters", ["cached", "x"]),
    refused_store("at_an_empty_moment", ["cached", ""]),
    refused_store("without_a_moment", ["list"]),
    refused_store("with_a_word_too_many", ["list", "700", "more"]),
    refused_store("that_is_no_text", [b"\xff", "700"]),
]


class Opened:
    """The ends of a run's standard streams that are open on this side, and those that the program gets."""

    def __init__(self, room):
        self.room = room
        self.files = []

    def open(self, path, flags):
        """A file descriptor that is closed once the program runs."""
        file = os.open(path, flags)
        self.files.append(file)
        return file

    def unread(self):
        """The end for writing of a pipe whose other end is closed."""
        reader, writer = os.pipe()
        os.close(reader)
        self.files.append(writer)
        return writer

    def stream(self, wanted):
        """What the program gets for a stream: bytes are given or kept by a pipe."""
        if isinstance(wanted, bytes):
            return subprocess.PIPE
        if wanted == FULL:
            return self.open("/dev/full", os.O_WRONLY)
        if wanted == FOLDER:
            return self.open(self.room, os.O_RDONLY)
        if wanted == UNREAD:
            return self.unread()
        return subprocess.DEVNULL  # (it is closed in the program, before that begins)

    def close(self):
        for file in self.files:
            os.close(file)


def start(program, end, room, watched_by=()):
    """The program, on the streams of the end, and after the arguments of what watches it."""
    opened = Opened(room)
    streams = [end.given, end.output, end.errors]

    def close_streams():
        for number, wanted in enumerate(streams):
            if wanted == CLOSED:
                os.close(number)

    given, output, errors = (opened.stream(it) for it in streams)
    try:
        return subprocess.Popen(
            [*watched_by, os.fsencode(end.program or program), *end.words],
            stdin=given,
            stdout=output,
            stderr=errors,
            cwd=room,
            env={"PATH": "/usr/local/bin:/usr/bin:/bin", "LANG": "C.UTF-8"},
            preexec_fn=close_streams,
        )
    finally:
        opened.close()


def require_end(run, wanted, given=None):
    """Passes if a run ends with this status and has written this; output that isn't kept is not compared."""
    try:
        found = (run.communicate(given, SECONDS), run.returncode)
    except subprocess.TimeoutExpired:
        run.kill()
        run.communicate()
        raise
    (output, errors), status = found
    pairs = zip((status, output, errors), wanted, ("status", "standard output", "standard error"))
    for it, due, what in pairs:
        if isinstance(due, (int, bytes)):
            require(it, due, what)


def make_end(program, end):
    """Runs the program as an end says."""
    with tempfile.TemporaryDirectory(prefix="bank-end-") as room:
        given = end.given if isinstance(end.given, bytes) else None
        require_end(start(program, end, room), (end.status, end.output, end.errors), given)


def receive(file, count, seconds):
    """The bytes that come, up to a number of them, within the time."""
    last = time.monotonic() + seconds
    got = b""
    while len(got) < count:
        left = last - time.monotonic()
        if left <= 0 or not select.select([file], [], [], left)[0]:
            break
        piece = os.read(file.fileno(), count - len(got))
        if not piece:
            break
        got += piece
    return got


def require_come(run, due, what):
    """Passes if a run writes these bytes next."""
    start = time.monotonic()
    found = receive(run.stdout, len(due), SECONDS)
    if due.startswith(found) and time.monotonic() - start > SECONDS:
        raise Late(f"{what}: {found!r} after {SECONDS} seconds")
    require(found, due, what)


@contextlib.contextmanager
def open_run(program, room, watched_by=()):
    """A run whose input stays open, which is killed where it is left early."""
    run = start(program, End("", 0), room, watched_by)
    try:
        yield run
    finally:
        if run.poll() is None:
            run.kill()
            run.communicate()


def send(run, piece):
    """Sends bytes at once."""
    run.stdin.write(piece)
    run.stdin.flush()


def replies_come_while_the_input_is_open(program):
    """Sends messages in pieces: no reply may come before a message is whole, and each has to come before the next is sent, with
    the input still open."""
    replies = SUITE.only("two_posts_in_one_piece").output
    with tempfile.TemporaryDirectory(prefix="bank-end-") as room, open_run(program, room) as run:
        for due in (replies[: len(replies) // 2], replies[len(replies) // 2 :]):
            for piece in (POST[:50], POST[50:-1]):
                send(run, piece)
                require(receive(run.stdout, 1, 0.1), b"", "before its message was whole")
            send(run, POST[-1:])
            require_come(run, due, "reply to a message in pieces")
        require_end(run, (0, b"", b""))


def strace():
    """The arguments before those of a program by which strace writes its calls that write to a file, but for the file's name;
    none where there is no strace, or where it may not watch a program."""
    words = [shutil.which("strace"), "-f", "-qq", "-e", "trace=write,writev,pwrite64", "-o"]
    if words[0] is None:
        return None
    ran = subprocess.run([*words, os.devnull, "true"], stdin=subprocess.DEVNULL, stderr=subprocess.DEVNULL, check=False)
    return None if ran.returncode else words


def each_reply_goes_out_in_one_write(program, watch):
    """Sends questions one after another, each once the reply before has come, and counts the writes to standard output."""
    with tempfile.TemporaryDirectory(prefix="bank-end-") as room:
        calls = os.path.join(room, "calls")
        with open_run(program, room, [*watch, calls]) as run:
            for _ in range(QUESTIONS):
                send(run, QUESTION)
                require_come(run, BALANCE, "reply")
            require_end(run, (0, b"", b""))
        with open(calls, "rb") as file:
            writes = len(WRITE.findall(file.read()))
    if not 0 < writes <= MOST_WRITES:
        raise Wrong(f"{QUESTIONS} replies went out in {writes} writes, wanted at most {MOST_WRITES}")


def main():
    given, watch = reader(__doc__, has_stores=True).parse_args(), strace()

    def checks_of(_):
        lacks = {None: "", OVER: lacks_stores(given)}
        yield from (Check(it.name, lambda it=it: make_end(given.program, it), lacks[it.program]) for it in ENDS)
        yield Check("replies_come_while_the_input_is_open", lambda: replies_come_while_the_input_is_open(given.program))
        make = lambda: each_reply_goes_out_in_one_write(given.program, watch)
        yield Check("each_reply_goes_out_in_one_write", make, "" if watch else NO_STRACE)

    return run_checks(given, checks_of, go_by_clock=True)
