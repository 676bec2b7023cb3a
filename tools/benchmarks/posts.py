"""Takes the time of a post over made-up banks, in lists, in SQL tables in memory and in a file.

    tools/benchmarks/posts [--quick] [PROGRAM]

PROGRAM is the built program of the crate bench_posts; without it the one in the crate's out folder, which is proved and
built first where that is due. A run of the program makes one bank up, of one branch with 10 tellers and 100 accounts,
and then serves a file of messages to another file, from bytes to bytes; it prints how long serving took, by the clock
and by the time that the processor worked for it. The first message over a bank pays for what its making left to do and
for each statement's first use. So a run of one message is taken from a run of many, each the least of several, and the
rest is the time of the messages after the first. Each reply is looked at: a post has to be done, or denied where it is
made to be.

Files are of several kinds, by the length of their pages in bytes, with `s` after it where these end in sums.
Printed are, in this order: how many SQL statements a post runs, one that is denied only once all its rows were read, so that
nothing is applied, one with a new slip and one that repeats a slip, of a user with 10 slips and with 10,000, by the calls
that valgrind counts, where it is there; the time of a post of a user with 1,000 triples against one with 1; that of a post
with a new slip of a user with 90,000 slips against one with 10; the time up to the decision, by such denied posts; the time
of a post that comes byte by byte, by the length of its head; and posts per second by how many entries the history holds
before, and how much longer a post takes than over the shortest.
The file is made in a folder of its own below TMPDIR; it is to be on a disk, and what a commit takes is that disk's.
--quick makes few posts and takes no figures worth keeping. The exit status is 1 where a reply is not the one that is
due, where a new slip costs more than six statements, or more of them by how many slips there are, where a byte of a head of
8,000 bytes that comes byte by byte takes more than twice what one of 1,000 takes, or where the processor works more than
1.2 times as long for a post to a file over 100,000 entries as over 1,000.
"""
import os
import re
import shutil
import subprocess
import sys
import tempfile

from checks import Wrong, reader
from page_sums import empty_file
from preload import preloaded
from replies import statuses_in
from repository import TOP

PROGRAM = os.path.join(TOP, "crates", "bench_posts", "out", "bench_posts")
# After a file stands the length of its pages in bytes, with `s` where they end in sums.
STORES = ("lists", "tables", "file 4096", "file 1024", "file 1024s", "cached_file 1024s")
STORES_OF_TRIPLES = ("lists", "tables", "cached_tables", "cached_file 1024s")
FILE = "bank.db"
HISTORIES = (1_000, 10_000, 100_000)
TRIPLES = (1, 1_000)
# How many slips the user has: as statements are counted, and as times are taken.
COUNTED_SLIPS = (10, 10_000)
TIMED_SLIPS = (10, 90_000)
# How many statements more a post may run that takes a new slip.
MOST_OF_A_SLIP = 6
MOST_RATIO = 1.2
MESSAGES = 1_000
RUNS = 3
SECONDS = 600
TOLD = re.compile(rb"(\d+) messages, (\d+) nanoseconds, of the processor (\d+)\n")
# How many bytes a head has that comes byte by byte, and how much longer a byte of the longest may take than one of the shortest.
HEADS = (1_000, 2_000, 4_000, 8_000)
MOST_OF_A_BYTE = 2
# What pads such a head, before its first line and after its fields, so often as there is room for it.
PADDINGS = {
    "one long field": (b"", b""),
    "fields of 40 bytes": (b"", b"A: " + b"b" * 35 + b"\r\n"),
    "fields of 6 bytes": (b"", b"A: b\r\n"),
    "line ends before": (b"\r\n", b""),
}


def post(account, delta, teller, slip=0):
    """A message that posts to an account of the one branch. It bears a slip where its number is not 0."""
    body = b'{"account":%d,"branch":1,"delta":%d,"teller":%d}' % (account, delta, teller)
    borne = b"Bank-Slip: %d\r\n" % slip if slip else b""
    head = b"POST /do/post HTTP/1.1\r\nHost: bank\r\nBank-Badge: ann\r\nBank-Session: 1\r\n%sContent-Length: %d\r\n\r\n"
    return head % (borne, len(body)) + body


def done_posts(count, slips=None):
    """Posts on all accounts and tellers, up and down. Each is done. If its user has slips, each takes the next."""
    return b"".join(
        post(1 + at * 7 % 100, 100 if at // 100 % 2 else -100, 1 + at % 10, 0 if slips is None else slips + 1 + at)
        for at in range(count)
    )


def repeats(count):
    """The post that the user's first slip was taken with in the synthetic bank, so often. Each gets the stored reply."""
    return post(1, 1, 1, 1) * count


def denied_posts(count):
    """Posts that take from one account as much as a post may, once that was taken from it. Each is denied by the books."""
    return post(1, -999_999, 1) + b"".join(post(1, -999_999, 1) for _ in range(count - 1))


def padded_post(size, before, after):
    """A post whose head has n bytes, padded by these line ends, by these fields and by one longer field."""
    head, empty, body = post(1, 1, 1).partition(b"\r\n\r\n")
    room = size - len(head + empty) - len(b"\r\nC: ")
    front, fields = (it * (room // len(it) - 1) if it else b"" for it in (before, after))
    return front + head + b"\r\n" + fields + b"C: " + b"d" * (room - len(front + fields)) + empty + body


def run(program, store, size, messages, due, before=(), preloaded=""):
    """What the program prints of serving these messages: the nanoseconds by the clock, and of the processor."""
    name, _, pages = store.partition(" ")
    with tempfile.TemporaryDirectory(prefix="bench-") as folder:
        path = os.path.join(folder, "messages")
        with open(path, "wb") as file:
            file.write(messages)
        if pages:
            with open(os.path.join(folder, FILE), "wb") as file:
                file.write(empty_file(int(pages.rstrip("s")), pages.endswith("s")))
        with open(path, "rb") as given, open(os.path.join(folder, "replies"), "w+b") as replies:
            ran = subprocess.run(
                [*before, program, name, "1", *(str(it) for it in size)],
                stdin=given,
                stdout=replies,
                stderr=subprocess.PIPE,
                cwd=folder,
                env={**os.environ, "LD_PRELOAD": preloaded} if preloaded else None,
                timeout=SECONDS,
                check=False,
            )
            replies.seek(0)
            statuses = statuses_in(replies.read())
    told = TOLD.search(ran.stderr)
    if ran.returncode != 0 or not told or int(told[1]) != len(statuses) or not due(statuses):
        raise Wrong(f"{store}, of size {size}: status {ran.returncode}, {ran.stderr!r}")
    return int(told[2]), int(told[3])


def are_done(statuses):
    """Whether all posts were done."""
    return set(statuses) == {200}


def are_denied(statuses):
    """Whether all posts but perhaps the first were denied by the books."""
    return set(statuses[1:]) <= {409}


def times_of(program, store, size, make, due, quick):
    """The microseconds of a message after the first, by the clock and of the processor."""
    count = 20 if quick else MESSAGES
    runs = 1 if quick else RUNS
    firsts, wholes = [], []
    for _ in range(runs):
        firsts.append(run(program, store, size, make(1), due))
        wholes.append(run(program, store, size, make(count), due))
    pairs = zip(zip(*firsts), zip(*wholes))
    return [(min(whole) - min(first)) / (count - 1) / 1e3 for first, whole in pairs]


def print_histories(program, quick):
    """Prints posts per second by what the history holds. Answers whether no ratio of a file is too large."""
    print("store              entries  posts a second  microseconds a post  of the processor  ratio to the shortest")
    good = True
    for store in STORES:
        shortest = None
        for entries in HISTORIES:
            passed, worked = times_of(program, store, (entries, 1, 0), done_posts, are_done, quick)
            shortest = shortest or worked
            ratio = worked / shortest
            good = good and ("file" not in store or ratio <= MOST_RATIO)
            print(
                f"{store:17s}  {entries:7d}  {1e6 / passed:14.0f}  {passed:19.1f}  {worked:16.1f}  {ratio:21.2f}",
                flush=True,
            )
    return good


def print_decisions(program, quick):
    """Prints the time of a post that is denied, and so is not applied."""
    print("store              entries  microseconds a denied post  of the processor")
    for store in STORES:
        for entries in HISTORIES[::2]:
            passed, worked = times_of(program, store, (entries, 1, 0), denied_posts, are_denied, quick)
            print(f"{store:17s}  {entries:7d}  {passed:26.1f}  {worked:16.1f}", flush=True)


def print_triples(program, quick):
    """Prints the time of a post by how many triples the user has."""
    print("store              triples  microseconds a post  of the processor  ratio to the fewest")
    for store in STORES_OF_TRIPLES:
        fewest = None
        for triples in TRIPLES:
            passed, worked = times_of(program, store, (HISTORIES[0], triples, 0), done_posts, are_done, quick)
            fewest = fewest or worked
            print(f"{store:17s}  {triples:7d}  {passed:19.1f}  {worked:16.1f}  {worked / fewest:19.2f}", flush=True)


def print_slips(program, quick):
    """Prints the time of a post with a new slip by how many slips the user has."""
    print("store                slips  microseconds a post  of the processor  ratio to the fewest")
    for store in STORES[1:]:
        fewest = None
        for slips in TIMED_SLIPS:
            size = (HISTORIES[0], 1, slips)
            passed, worked = times_of(program, store, size, lambda count: done_posts(count, slips), are_done, quick)
            fewest = fewest or worked
            print(f"{store:17s}  {slips:7d}  {passed:19.1f}  {worked:16.1f}  {worked / fewest:19.2f}", flush=True)


def print_pieces(program, quick):
    """Prints the time of a message that comes byte by byte. Answers whether it grows as the message's length."""
    count = 2 if quick else 20
    good = True
    print("head of            bytes  microseconds of the processor  nanoseconds a byte")
    with tempfile.TemporaryDirectory(prefix="bench-") as folder:
        one_byte = preloaded("benchmarks/one_byte.c", folder)
        for name, padding in PADDINGS.items():
            shortest = None
            for head in HEADS:
                runs = [
                    run(program, "lists", (10, 1, 0), padded_post(head, *padding) * count, are_done, (), one_byte)[1]
                    for _ in range(1 if quick else 2 * RUNS)
                ]
                worked = min(runs) / count
                shortest = shortest or worked / head
                good = good and worked / head <= MOST_OF_A_BYTE * shortest
                print(f"{name:18s}  {head:5d}  {worked / 1e3:29.1f}  {worked / head:18.1f}", flush=True)
    return good


def calls_in(program, store, slips, make, due, count):
    """How many calls valgrind counts that run a SQL statement while n messages are served."""
    with tempfile.TemporaryDirectory(prefix="bench-") as folder:
        path = os.path.join(folder, "calls")
        before = ["valgrind", "--tool=callgrind", "--compress-strings=no", f"--callgrind-out-file={path}"]
        run(program, store, (10, 1, slips), make(count), due, before)
        with open(path, encoding="utf-8", errors="replace") as file:
            text = file.read()
    # (each run of a statement binds its values once)
    runs = r"^cfn=sqlite::connection::Connection::bind\b[^\n]*\ncalls=(\d+)"
    return sum(int(it) for it in re.findall(runs, text, re.MULTILINE))


def statements_of(program, store, slips, make, due):
    """How many SQL statements are run by a message of a user with n slips, after two were answered."""
    few, more = (calls_in(program, store, slips, make, due, count) for count in (2, 12))
    return (more - few) / 10


def print_statements(program):
    """Prints how many SQL statements a post runs, one that is denied, one with a new slip and one that repeats one. Answers
    whether a new slip costs no more than it may, over many slips as over few."""
    if not shutil.which("valgrind"):
        print("statements are not counted: there is no valgrind")
        return True
    print("store                slips  statements a post  a denied post  with a new slip  a repeat")
    good = True
    for store in ("tables", "cached_tables"):
        plain = statements_of(program, store, 0, done_posts, are_done)
        denied = statements_of(program, store, 0, denied_posts, are_denied)
        most = plain + MOST_OF_A_SLIP
        for slips in COUNTED_SLIPS:
            new = statements_of(program, store, slips, lambda count: done_posts(count, slips), are_done)
            again = statements_of(program, store, slips, repeats, are_done)
            good, most = good and new <= most, min(new, most)
            print(f"{store:17s}  {slips:7d}  {plain:17g}  {denied:13g}  {new:15g}  {again:8g}", flush=True)
    return good


def main():
    arguments = reader(__doc__, program=PROGRAM, has_checks=False)
    arguments.add_argument("--quick", action="store_true")
    given = arguments.parse_args()
    program, quick = given.program, given.quick
    build = [os.path.join(TOP, "tools", "build"), "bench_posts"]
    if program == PROGRAM and subprocess.run(build, check=False).returncode:
        sys.exit("posts: the program could not be built")
    if not os.access(program, os.X_OK):
        sys.exit(f"posts: there is no program {program}")
    try:
        good = print_statements(program)
        print_triples(program, quick)
        print_slips(program, quick)
        print_decisions(program, quick)
        good = print_pieces(program, quick) and good
        good = print_histories(program, quick) and good
    except Wrong as wrong:
        print(f"FAILED: {wrong}")
        return 1
    return 0 if good or quick else 1
