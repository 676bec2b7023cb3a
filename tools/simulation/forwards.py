"""A year that is closed: a new file opens with the balances of the old one, and with empty books."""
import os
from typing import TYPE_CHECKING

from checks import Wrong
from sample_file import ENDINGS
from simulation.ledger import Ledger, LongBank
from simulation.machine import CHANGES, KILLS

if TYPE_CHECKING:
    from simulation.life import Life

SECONDS = 120
CARRIED, NOT_EMPTY = (0, b"carried forward\n", b""), (3, b"", b"file: not empty\n")
# How often the new file has sums, how often the program is killed as it makes it, and after how many calls at most.
SUMS, KILLED, MOST_CALLS = 0.7, 0.5, 60


def open_branches(bank: LongBank) -> list[int]:
    """The branches that are not closed: which have an entry, a cash line or a release of their present day, or a drawer
    that is held or has cash."""
    ledger = bank.ledger
    found = {it for it, rows in ledger.entry_rows.items() for row in rows[-1:] if row[7] == bank.days[it]}
    found |= {it for it, rows in ledger.line_rows.items() for row in rows[-1:] if row[6] == bank.days[it]}
    found |= {it.operation["branch"] for it in bank.releases.values() if it.day == bank.days[it.operation["branch"]]}
    return sorted(found | {branch for it, (branch, _) in bank.tellers.items() if bank.holder(it) or bank.cash(branch, it)})


def opened_anew(bank: LongBank) -> LongBank:
    """The bank of the next year."""
    made = bank.copied()
    made.accounts = {it: (home, bank.balance(it), floor) for it, (home, _, floor) in bank.accounts.items()}
    made.tellers = {it: (branch, bank.teller_balance(it)) for it, (branch, _) in bank.tellers.items()}
    made.branches = {it: (bank.branch_balance(it), bank.cash(it, 0)) for it in bank.branches}
    ledger = Ledger()
    ledger.slips, ledger.slip_rows, ledger.slip_counts = made.ledger.slips, made.ledger.slip_rows, made.ledger.slip_counts
    made.ledger = ledger
    return made


def forward_arguments(life: "Life", new: str) -> list[str]:
    """The arguments that close the year, some of which ask for sums of pages."""
    sums = ["--sums"] if "sums" in life.has and life.rng.random() < SUMS else []
    return ["forward", life.file, new, *sums]


def is_killed(life: "Life", words: list[str]) -> bool:
    """Whether the closing of the year was killed, at a call to the disk."""
    life.machine.arm_disk(life.rng.randint(1, MOST_CALLS), life.rng.choice(KILLS), CHANGES)
    said = life.machine.ended([life.program, *words], life.file, SECONDS)
    life.machine.disarm()
    if said not in (CARRIED, (-9, b"", b"")):
        raise Wrong(f"forward ended with {said!r}")
    life.seen.add("years whose closing was killed", int(said != CARRIED))
    return said != CARRIED


def close_year(life: "Life", words: list[str]) -> None:
    """Makes the new file, which a kill may befall: then it holds no bank, and the same arguments make it, or the whole one."""
    due = [CARRIED]
    if life.rng.random() < KILLED:
        if not is_killed(life, words):
            return
        due.append(NOT_EMPTY)
    said = life.machine.ended([life.program, *words], life.file, SECONDS)
    life.seen.add_exit(said[0], said[2])
    if said not in due:
        raise Wrong(f"forward ended with {said!r}")


def forward(life: "Life") -> None:
    """Closes the year, where all is closed; else that is refused."""
    life.fault = "the closing of a year"
    new = os.path.join(life.room, "next")
    words = forward_arguments(life, new)
    if open_branches(life.bank):
        line = b"year: not closed, branch %d\n" % open_branches(life.bank)[0]
        life.require_ended(words, (1, line, b""))
        life.require_rows("of a year that is not closed")
        return
    close_year(life, words)
    life.require_rows("of the year that was closed")
    for ending in ENDINGS:
        if os.path.exists(life.file + ending):
            os.remove(life.file + ending)
        if os.path.exists(new + ending):
            os.replace(new + ending, life.file + ending)
    life.bank = opened_anew(life.bank)
    life.seen.add("years closed")
    life.require_rows("of the next year")
