"""What the bank's disk has, beside what was acknowledged."""
from collections.abc import Collection

from branch.tests.branches import TELLERS, USERS
from checks import require
from branch.tests.pair.machines import Machine
from branch.tests.pair.tellers import WITHOUT_SLIPS, Book

# User and amount of entries, by number.
Entries = dict[int, tuple[int, int]]
# File and log are copied while nobody posts; `run` takes the log in.
COPY = """
    rm -rf /tmp/looked && mkdir /tmp/looked && cd /tmp/looked && cp /var/lib/bank/bank* . && echo badge,user >badges
    bank_cli run bank --badges badges --moment 0 </dev/null && bank_cli check bank
"""
# Of the tellers; what the office pays has a look of its own.
ENTRIES = f"SELECT number, user_no, delta FROM entries WHERE user_no IN ({', '.join(str(USERS[it]) for it in TELLERS)})"
UNEQUAL = """SELECT {key} FROM {table} AS it WHERE balance != opening +
    (SELECT coalesce(sum(delta), 0) FROM entries WHERE entries.{key} = it.{key})"""
SUMS = {"accounts": "account", "tellers": "teller", "branches": "branch"}
# Of the disk below DRBD, past the kernel's own memory of it; what stands after the device's end is DRBD's own.
CHECKSUM = "sync; dd if=/dev/mapper/bank bs=64K count=$(($(cat /sys/block/drbd0/size) / 128)) iflag=direct 2>/dev/null | sha256sum"


def sql(here: Machine, text: str) -> list[list[str]]:
    """The rows of a query over the copy on that machine."""
    return [line.split("|") for line in here.done(f'sqlite3 -readonly /tmp/looked/bank "{text}"').splitlines()]


def require_entries(found: Entries, book: Book, more: Collection[tuple[int, int]]) -> None:
    """Requires of entries, by number, that each that was acknowledged is there, once, and of others only these."""
    require(book.twice, [], "numbers acknowledged for two posts")
    lost = {number: it for number, it in book.got.items() if found.get(number) != it}
    require(list(lost.items())[:5], [], f"{len(lost)} acknowledged, and not there")
    require(len(set(found.values())), len(found), "posts that are there once")
    others = {number: it for number, it in found.items() if number not in book.got and it not in more}
    require(list(others.items())[:5], [], f"{len(others)} there, and not acknowledged")


def compare(here: Machine, book: Book) -> int:
    """Requires that the bank on that machine has each entry that was acknowledged, under its number, once; of the rest only what
    was sent without a slip and not acknowledged; and sums that agree. How many entries it has."""
    require(here.done(COPY), "books hold", "check")
    found = {int(number): (int(user), int(delta)) for number, user, delta in sql(here, ENTRIES)}
    require_entries(found, book, book.unanswered({USERS[who] for who in WITHOUT_SLIPS}))
    for table, key in SUMS.items():
        require(sql(here, UNEQUAL.format(table=table, key=key)), [], f"{table} whose balance is not the sum of its entries")
    return len(found)


def require_same_disks(machines: list[Machine]) -> None:
    """Requires that the disks below DRBD are the same, byte by byte, while nobody posts. What the file system writes by itself
    may come in between, so it has three tries."""
    for _ in range(3):
        sums = [it.done(CHECKSUM) for it in machines]
        if len(set(sums)) == 1:
            return
    require(sums[0], sums[1], "checksum of the disks")
