"""The days of a branch as double entry, for a ledger: every transaction has equal debits and credits, in each branch's books.

An entry at an account of another branch is booked between the two: the branch where it stands owes it to the account's home, or
has it to claim, and the home's books have the opposite beside the customer's account.
"""
import datetime
from typing import NamedTuple

from .books import CASH_FORMS, CashLine, DIFFERENCE, DayBook, Entry, WITH_ENTRY
from .languages import Language, Sentence, Term, language_of
from .money import units
from .sheets import sheet_text
from .store import Refused

HEADING = ("transaction", "date", "branch", "day", "moment", "user", "ledger", "debit", "credit", "text")


class Posting(NamedTuple):
    """One line of a transaction: `cents` above 0 are a debit, below 0 a credit."""

    transaction: str
    branch: int
    day: int
    moment: int
    user: int
    ledger: str
    cents: int
    text: Sentence


def named(ledger: str) -> Sentence:
    """What a ledger is called."""
    kind, _, number = ledger.partition(" ")
    if kind == "customer":
        return Sentence("customer {account}", account=number)
    if kind == "drawer":
        return Sentence("drawer {teller}", teller=number)
    return Sentence("branch {branch}", branch=number) if kind == "branch" else Term(ledger)


def customer_of(transaction: str, entry: Entry, home_day: int, text: Sentence) -> list[Posting]:
    """The customer's side of an entry: a credit where the balance grows; through the branches, where they are two, each on its own day."""
    if entry.undoes:
        text = Sentence("entry {branch}/{number}, corrects {branch}/{undoes}", **text.values, undoes=entry.undoes)

    def posting(branch: int, ledger: str, cents: int) -> Posting:
        day = entry.day if branch == entry.branch else home_day
        return Posting(transaction, branch, day, entry.moment, entry.user, ledger, cents, text)

    if entry.home == entry.branch:
        return [posting(entry.branch, f"customer {entry.account}", -entry.delta)]
    return [
        posting(entry.branch, f"branch {entry.home}", -entry.delta),
        posting(entry.home, f"branch {entry.branch}", entry.delta),
        posting(entry.home, f"customer {entry.account}", -entry.delta),
    ]


def place_of(line: CashLine) -> str:
    """The ledger of a place of cash."""
    return f"drawer {line.place}" if line.place else "vault"


def cash_of(transaction: str, line: CashLine, text: Sentence) -> Posting:
    """A cash line: a debit where cash comes."""
    return Posting(transaction, line.branch, line.day, line.moment, line.user, place_of(line), line.amount, text)


def entries_in(book: DayBook) -> list[Posting]:
    """The transactions of the day's entries. The cash lines of entries stand in the order of these."""
    cash = iter([it for it in book.lines if it.form == WITH_ENTRY])
    found: list[Posting] = []
    for entry in book.entries:
        number = min(entry.number, entry.partner) if entry.partner else entry.number
        transaction = book.document(number, "E")
        text = Sentence("entry {branch}/{number}", branch=entry.branch, number=entry.number)
        found += customer_of(transaction, entry, book.home_days.get(entry.number, entry.day), text)
        if not entry.has_cash():
            continue
        line, own = next(cash, None), (entry.teller, entry.delta, entry.moment, entry.user)
        if line is None or (line.place, line.amount, line.moment, line.user) != own:
            raise Refused("Entry {branch}/{number} has no cash line as it should", **text.values)
        found.append(cash_of(transaction, line, text))
    if next(cash, None) is not None:
        raise Refused("Branch {branch}, day {day}: a cash line has no entry", branch=book.branch, day=book.day)
    return found


def cash_in(book: DayBook) -> list[Posting]:
    """The transactions of cash alone: two lines each, and of a difference one with its ledger."""
    found: list[Posting] = []
    pair: CashLine | None = None
    for line in book.lines:
        if line.form == WITH_ENTRY:
            continue
        if line.form == DIFFERENCE:
            one = cash_of(book.document(line.number, "C"), line, Sentence("difference"))
            found += [one, one._replace(ledger="differences", cents=-line.amount)]
        elif pair is None:
            pair = line
        else:
            found += [cash_of(book.document(pair.number, "C"), it, Term(CASH_FORMS[line.form])) for it in (pair, line)]
            pair = None
    if pair is not None:
        raise Refused("Branch {branch}, cash line {number} has no other", branch=book.branch, number=pair.number)
    return found


def imbalance(postings: list[Posting]) -> list[Sentence]:
    """The transactions whose debits and credits are not equal in each branch's books."""
    sums: dict[tuple[str, int], int] = {}
    for it in postings:
        sums[it.transaction, it.branch] = sums.get((it.transaction, it.branch), 0) + it.cents
    return [Sentence("{transaction} in branch {branch}: {amount}", transaction=it, branch=branch, amount=units(cents))
            for (it, branch), cents in sums.items() if cents]  # fmt: skip


def postings_of(book: DayBook) -> list[Posting]:
    """All postings of a day: balanced, and moving balance and cash as the day's proof says."""
    if book.faults:
        raise Refused("The day does not agree with its proof: {faults}", faults=book.faults)
    found = entries_in(book) + cash_in(book)
    wrong = imbalance(found)
    own = [it for it in found if it.branch == book.branch]
    moved = {
        "balance": (
            -sum(it.cents for it in own if it.ledger.startswith(("customer ", "branch "))),
            book.after.balance - book.before.balance,
        ),
        "vault": (sum(it.cents for it in own if it.ledger == "vault"), book.after.vault - book.before.vault),
        "drawers": (sum(it.cents for it in own if it.ledger.startswith("drawer ")), book.after.drawers - book.before.drawers),
        "differences": (
            -sum(it.cents for it in own if it.ledger == "differences"),
            book.after.differences - book.before.differences,
        ),
    }
    wrong += [Sentence("{name}: {booked} in the ledger, {due} by the proof", name=Term(it),
                       booked=units(one), due=units(two))
              for it, (one, two) in moved.items() if one != two]  # fmt: skip
    if wrong:
        raise Refused("Branch {branch}, day {day}: {faults}", branch=book.branch, day=book.day, faults=wrong)
    return found


def ledger_text(book: DayBook, language: Language = language_of("en")) -> str:
    """The postings as CSV, with debit and credit in two columns."""
    rows = [
        (it.transaction, datetime.date.fromtimestamp(it.moment), it.branch, it.day, language.moment(it.moment), it.user,
         named(it.ledger), units(it.cents) if it.cents >= 0 else "", units(-it.cents) if it.cents < 0 else "", it.text)
        for it in postings_of(book)
    ]  # fmt: skip
    return sheet_text(HEADING, rows, language)
