"""Looks at the memory that the built program takes for reports of many lines.

    tools/benchmarks/report-memory [PROGRAM]

PROGRAM is crates/bank_cli/out/bank_cli where it is left out.

Listing: synthetic lists have 200 users with 100 triples each, and `init` makes a bank of them in a file. A run over
it answers a session and the listing of the policy, another one a session and a balance. Before the input ends, the most
memory that the run ever held at once is read from /proc, which Linux alone has. Pages that the kernel happens to map count
too, and it counts for each processor apart, so each run stays on one: of five runs of each kind the one that held least is
taken. For the listing it may be 300 kilobytes more.

Statements: after 1,000 posts to one account, statements of 10, of 1,000 and again of 10 lines are asked for, over the bank of
`sample` and over one in a file. A library that the loader puts before the C library (faults/refusals.c) counts the bytes of the
blocks that are held; the most that were held at once has to be the same for each.

Each reply is looked at.
"""
import os
import tempfile

from checks import Check, Wrong, reader, run_checks
from faults.refusals import Program
from sample_file import ended, make_sample, message, run_arguments
from served import Served

SAMPLE_WORDS = ["sample", "--moment", "700"]
USERS = range(101, 301)
SETS = range(1, 101)
RUNS = 5
MOST_KILOBYTES = 300
LINES = 1_000
FEW = 10
STATEMENT_HEADING = 55
STATEMENT_LINE = 76


# ---- the listing of many triples


def write_list(folder, name, lines):
    """Writes one opening list."""
    with open(os.path.join(folder, f"{name}.csv"), "w", encoding="ascii") as file:
        file.writelines(f"{line}\n" for line in lines)


def make_bank(program, room):
    """Makes a bank of one account in a file, whose users have many triples for balances, and returns the file and its badges."""
    lists, file, badges = (os.path.join(room, it) for it in ("lists", "triples", "badges.csv"))
    os.makedirs(lists)
    write_list(lists, "branches", ["branch,balance,cash", "1,0,0"])
    write_list(lists, "tellers", ["teller,branch,balance", "11,1,0"])
    write_list(lists, "accounts", ["account,home,balance,floor", "101,1,0,0"])
    write_list(lists, "users", ["user,name,officer", "1,Olga,1", "2,Carl,0", "7,Tess,0", *(f"{it},Ann,0" for it in USERS)])
    write_list(lists, "sets", ["set,kind,low,high", *(f"{it},account,101,101" for it in SETS)])
    write_list(lists, "relations", ["procedure,set,by", *(f"balance,{it},2" for it in SETS)])
    triples = (f"{user},balance,{it},0" for user in USERS for it in SETS)
    write_list(lists, "triples", ["user,procedure,set,limit", "7,balance,1,0", *triples])
    write_list(lists, "certifiers", ["user,procedure", "2,balance"])
    write_list(room, "badges", ["badge,user", "olga,1", "tess,7"])
    if ended(program, ["init", file, lists]) != b"made\n":
        raise Wrong("init did not say that the bank was made")
    return ["run", file, "--badges", badges, "--moment", "700"]


def listing():
    """The listing of that bank's policy."""
    users = [(1, "O", "Olga"), (2, "-", "Carl"), (7, "-", "Tess"), *((it, "-", "Ann") for it in USERS)]
    lines = [f"USER {user:4} {officer}- {name:20}" for user, officer, name in users]
    lines += ["CERTIFIER    2 balance    "]
    lines += [f"SET {it:9} account       101       101" for it in SETS]
    lines += [f"RELATION balance     {it:9} BY    2" for it in SETS]
    triples = [(7, 1), *((user, it) for user in USERS for it in SETS)]
    lines += [f"TRIPLE {user:4} balance     {it:9}         0           0 99999999999" for user, it in triples]
    return "".join(f"{line}\n" for line in [f"POLICY LINES {len(lines):9}", *lines]).encode()


def stay():
    """Has a run stay on one processor: the last that it may run on."""
    os.sched_setaffinity(0, {max(os.sched_getaffinity(0))})


def least_held(program, words, badge, question, due):
    """The kilobytes that a run held at most which answered a session and a question, in the run that held least."""
    held = []
    for _ in range(RUNS):
        with Served([program, *words], preexec_fn=stay) as served:
            session = int(served.ask(message(badge, "/session")).removeprefix(b'{"session":').removesuffix(b"}"))
            body = served.ask(question(session))
            held.append(served.most_held())
        if body != due:
            raise Wrong(f"it answered {len(body)} bytes, and not the {len(due)} that are due: {body[:200]!r}")
    return min(held)


def balance_of(session):
    return message("tess", "/do/balance", {"account": 101}, session)


def listing_in(session):
    return message("olga", "/policy", session=session).replace(b"POST ", b"GET ", 1)


def look_at_listing(program, room):
    """Compares the memory of a listing with that of a balance."""
    words = make_bank(program, room)
    short = least_held(program, words, "tess", balance_of, b'{"balance":0}')
    long = least_held(program, words, "olga", listing_in, listing())
    print(f"a listing of {len(USERS) * len(SETS) + 1} triples: {long} kilobytes at most; a balance: {short}", flush=True)
    if long - short >= MOST_KILOBYTES:
        raise Wrong(f"that is {long - short} more")


# ---- statements, long and short


def statement_of(lines):
    return message("tess", "/do/statement", {"account": 101, "count": lines, "start": 1})


def look_at_statements(program, room, words, where):
    """Compares the bytes held at once for a short statement and a long one, after as many posts as that has lines."""
    post = message("tess", "/do/post", {"account": 101, "branch": 1, "delta": 1, "teller": 11})
    # (the first report pays for making its SQL statements ready)
    asked = (FEW, FEW, LINES, FEW)
    bodies, counts = Program(program, room).held(words, [*[post] * LINES, *(statement_of(it) for it in asked)])
    wrote = [len(it) for it in bodies[LINES:]]
    if wrote != [STATEMENT_HEADING + STATEMENT_LINE * it for it in asked]:
        raise Wrong(f"over {where}, statements of {asked} lines have {wrote} bytes")
    _, few, many, again = counts[LINES:]
    print(f"over {where}, a statement of {LINES} lines: {many} bytes held at once; of {FEW} lines: {few}, and {again}", flush=True)
    if not few == many == again:
        raise Wrong("that is not the same")


def look_at_sample(program, room):
    look_at_statements(program, room, SAMPLE_WORDS, "the sample")


def look_at_file(program, room):
    file = os.path.join(room, "bank")
    make_sample(program, file)
    look_at_statements(program, room, run_arguments(file, 700), "a file")


def main():
    given = reader(__doc__).parse_args()

    def checks_of(room):
        for part in (look_at_listing, look_at_sample, look_at_file):
            yield Check(part.__name__, lambda part=part: part(given.program, tempfile.mkdtemp(dir=room)))

    return run_checks(given, checks_of)
