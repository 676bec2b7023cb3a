"""What root may do to a bank's file so that its books still hold: amounts of a closed day exchanged, and a transfer taken away, with all
that is counted, the slips, and the sums of pages."""
import contextlib
import json
import sqlite3
from collections.abc import Iterator
from pathlib import Path

from page_sums import seal_file


@contextlib.contextmanager
def altered(file: Path) -> Iterator[sqlite3.Connection]:
    """The file of a bank, for writing; then its pages get their sums."""
    with contextlib.closing(sqlite3.connect(file)) as bank:
        yield bank
        bank.commit()
        bank.execute("PRAGMA wal_checkpoint(TRUNCATE)")
    seal_file(file)


def set_amount(bank: sqlite3.Connection, number: int, new: int) -> None:
    """Gives a post of branch 1 another amount, in its entry, its cash line, the balances after it, and its slip."""
    account, turn, old, partners = bank.execute(
        "SELECT account, turn, delta, (SELECT count(*) FROM entries AS it WHERE it.branch = 1 AND it.partner = 0 AND it.number < entries.number) "
        "FROM entries WHERE branch = 1 AND number = ?", (number,)).fetchone()
    more = new - old
    bank.execute("UPDATE entries SET delta = ? WHERE branch = 1 AND number = ?", (new, number))
    bank.execute("UPDATE entries SET balance_after = balance_after + ? WHERE account = ? AND turn >= ?", (more, account, turn))
    bank.execute("UPDATE accounts SET balance = balance + ? WHERE account = ?", (more, account))
    line, = bank.execute("SELECT number FROM lines WHERE branch = 1 AND form = 1 ORDER BY number LIMIT 1 OFFSET ?", (partners,)).fetchone()
    bank.execute("UPDATE lines SET amount = ? WHERE branch = 1 AND number = ?", (new, line))
    for user, slip, text in bank.execute("SELECT user_no, slip, CAST(reply AS TEXT) FROM slips WHERE form = 1").fetchall():
        reply = json.loads(text)
        if reply["entry"] == number:
            said = json.dumps({**reply, "balance": reply["balance"] + more}, separators=(",", ":"))
            bank.execute("UPDATE slips SET member4 = ?, reply = ? WHERE user_no = ? AND slip = ?", (new, said.encode(), user, slip))


def exchange(file: Path, day: int, with_slips: bool) -> tuple[int, int]:
    """Exchanges the amounts of two deposits at one drawer on a day of branch 1, those with slips or those without: their numbers."""
    with altered(file) as bank:
        slipped = {json.loads(it)["entry"] for it, in bank.execute("SELECT CAST(reply AS TEXT) FROM slips WHERE form = 1")}
        found = [it for it in bank.execute("SELECT number, account, delta, teller FROM entries WHERE branch = 1 AND day = ? AND form = 1 AND delta > 0 "
                                           "ORDER BY number", (day,)) if (it[0] in slipped) == with_slips]
        pairs = [(one, other) for one in found for other in found if one[0] < other[0] and one[1] != other[1] and one[3] == other[3]]
        one, other = max(pairs, key=lambda pair: abs(pair[0][2] - pair[1][2]))
        set_amount(bank, one[0], other[2])
        set_amount(bank, other[0], one[2])
        return one[0], other[0]


def take_away(file: Path) -> tuple[int, int]:
    """Takes away the last transfer of branch 1, whose legs are the last entries of its day and of their accounts, with its slip."""
    with altered(file) as bank:
        last, = bank.execute("SELECT entries FROM branches WHERE branch = 1").fetchone()
        for number in (last - 1, last):
            account, delta = bank.execute("SELECT account, delta FROM entries WHERE branch = 1 AND number = ?", (number,)).fetchone()
            bank.execute("DELETE FROM entries WHERE branch = 1 AND number = ?", (number,))
            bank.execute("UPDATE accounts SET balance = balance - ?, turns = turns - 1 WHERE account = ?", (delta, account))
        bank.execute("UPDATE branches SET entries = entries - 2 WHERE branch = 1")
        bank.execute("UPDATE proofs SET entries = entries - 2 WHERE branch = 1 AND entries = ?", (last,))
        user, slip = next((user, slip) for user, slip, text in bank.execute("SELECT user_no, slip, CAST(reply AS TEXT) FROM slips WHERE form = 2")
                          if json.loads(text)["second"] == last)
        bank.execute("DELETE FROM slips WHERE user_no = ? AND slip = ?", (user, slip))
        bank.execute("UPDATE slip_counts SET slips = slips - 1 WHERE user_no = ?", (user,))
        for closer, number, text in bank.execute("SELECT user_no, slip, CAST(reply AS TEXT) FROM slips WHERE form = 13").fetchall():
            reply = json.loads(text)
            if reply["entries"] == last:
                said = json.dumps({**reply, "entries": last - 2}, separators=(",", ":"))
                bank.execute("UPDATE slips SET reply = ? WHERE user_no = ? AND slip = ?", (said.encode(), closer, number))
        return last - 1, last
