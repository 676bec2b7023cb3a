"""The reference model over books that grow for years: the sums of model/bank.py are kept, and not added up at each
question.

A bank is a ledger of what stands, which banks share, and what each adds to it. So the bank after a request costs no copy of the
books, and the one before it is there as long as nothing is settled.
"""
import copy
from collections import Counter, defaultdict

from model.answers import json_text
from model.bank import OPERATIONS, PROCEDURES, Bank, Body, Entry, Line, Question, Slip, numbers_in

# A row of a table.
Row = tuple[int | str | bytes, ...]

FORMS = {"entry": 1, "on": 2, "off": 3, "move": 4, "difference": 5}
# The members of each operation in the order of its columns, which docs/OPERATIONS.md gives.
MEMBERS = {
    "post": ("account", "teller", "branch", "delta"),
    "transfer": ("source", "target", "teller", "branch", "amount"),
    "correct": ("branch", "entry", "account", "other", "teller", "delta"),
    "drawer-on": ("teller", "branch", "cash"),
    "drawer-off": ("teller", "branch", "counted"),
    "move-cash": ("source", "target", "branch", "amount"),
    "new-account": ("account", "branch", "floor"),
    "close-day": ("branch",),
}
MOST_MEMBERS = 8
NUMBER_OF = {name: number for number, name in enumerate(PROCEDURES, 1)}


def form_of(entry: Entry) -> int:
    """The number of an entry's form."""
    return 3 if entry.is_correction else 2 if entry.partner else 1


def members_of(kind: str, body: Body) -> tuple[int, ...]:
    """The columns that hold the members of an operation."""
    if kind == "release":
        inner = body["operation"]
        found = [body["beneficiary"], NUMBER_OF[inner["procedure"]], *numbers_in(inner, MEMBERS[inner["procedure"]])]
    else:
        found = numbers_in(body, MEMBERS[kind])
    return (*found, *[0] * (MOST_MEMBERS - len(found)))


def line_row(line: Line) -> Row:
    """The row of a cash line."""
    return (line.branch, line.number, line.place, line.amount, FORMS[line.form], line.moment, line.day, line.user)


def slip_row(user: int, number: int, slip: Slip) -> Row:
    """The row of a slip."""
    return (user, number, NUMBER_OF[slip.kind], *members_of(slip.kind, slip.body), json_text(slip.told).encode())


class Ledger:
    """Entries, cash lines and slips that stand, with their rows and the sums over them."""

    def __init__(self) -> None:
        # by branch, and by account
        self.entries: defaultdict[int, list[Entry]] = defaultdict(list)
        self.turns: defaultdict[int, list[Entry]] = defaultdict(list)
        self.entry_rows: defaultdict[int, list[Row]] = defaultdict(list)
        self.line_rows: defaultdict[int, list[Row]] = defaultdict(list)
        # by branch and number
        self.undone: set[tuple[int, int]] = set()
        self.of_account: Counter[int] = Counter()
        self.of_teller: Counter[int] = Counter()
        self.of_branch: Counter[int] = Counter()
        # by branch, and place or form
        self.of_place: Counter[tuple[int, int]] = Counter()
        self.of_form: Counter[tuple[int, str]] = Counter()
        self.of_drawers: Counter[int] = Counter()
        self.holders: dict[int, int | None] = {}
        # by user and number
        self.slips: dict[tuple[int, int], Slip] = {}
        self.slip_rows: dict[tuple[int, int], Row] = {}
        self.slip_counts: Counter[int] = Counter()

    def copied(self) -> "Ledger":
        """The same ledger, which nothing shares."""
        made = Ledger()
        for name, found in vars(self).items():
            kept = copy.copy(found)
            if isinstance(kept, defaultdict):
                kept.update({key: list(it) for key, it in found.items()})
            setattr(made, name, kept)
        return made

    def add_entry(self, entry: Entry, balance: int) -> None:
        """Adds an entry, after which its account has this balance."""
        self.entries[entry.branch].append(entry)
        self.turns[entry.account].append(entry)
        row: Row = (*entry[:9], form_of(entry), entry.partner, entry.undoes, balance)
        self.entry_rows[entry.branch].append(row)
        self.of_account[entry.account] += entry.delta
        self.of_teller[entry.teller] += entry.delta
        self.of_branch[entry.branch] += entry.delta
        if entry.undoes:
            self.undone.add((entry.branch, entry.undoes))

    def add_line(self, line: Line) -> None:
        """Adds a cash line."""
        self.line_rows[line.branch].append(line_row(line))
        self.of_place[line.branch, line.place] += line.amount
        self.of_form[line.branch, line.form] += line.amount
        if line.place:
            self.of_drawers[line.branch] += line.amount
            if line.form in ("on", "off"):
                self.holders[line.place] = line.user if line.form == "on" else None

    def add_slip(self, user: int, number: int, slip: Slip) -> None:
        """Adds a slip."""
        self.slips[user, number] = slip
        self.slip_rows[user, number] = slip_row(user, number, slip)
        self.slip_counts[user] += 1


class LongBank(Bank):
    """A bank over a ledger, with the entries, lines and slips that it adds to it."""

    def __init__(self) -> None:
        super().__init__()
        self.ledger = Ledger()
        self.entries, self.lines, self.slips = (), (), {}

    # -- what is added

    def add_entry(self, entry: Entry) -> None:
        self.entries = (*self.entries, entry)

    def add_line(self, line: Line) -> None:
        self.lines = (*self.lines, line)

    def is_settled(self) -> bool:
        """Whether it adds nothing."""
        return not (self.entries or self.lines or self.slips)

    def settle(self) -> None:
        """Puts what this bank adds into the ledger. No other bank may share that from now on."""
        for entry in self.entries:
            opening = self.accounts[entry.account][1]
            self.ledger.add_entry(entry, opening + self.ledger.of_account[entry.account] + entry.delta)
        for line in self.lines:
            self.ledger.add_line(line)
        for (user, number), slip in self.slips.items():
            self.ledger.add_slip(user, number, slip)
        self.entries, self.lines, self.slips = (), (), {}

    def copied(self) -> "LongBank":
        """The same bank, whose ledger nothing shares."""
        made = copy.copy(self)
        made.ledger = self.ledger.copied()
        return made

    # -- sums over the rows

    def balance(self, account: int) -> int:
        return self.accounts[account][1] + self.ledger.of_account[account] + sum(it.delta for it in self.entries if it.account == account)

    def teller_balance(self, teller: int) -> int:
        return self.tellers[teller][1] + self.ledger.of_teller[teller] + sum(it.delta for it in self.entries if it.teller == teller)

    def history(self, branch: int) -> int:
        return self.ledger.of_branch[branch] + sum(it.delta for it in self.entries if it.branch == branch)

    def cash(self, branch: int, place: int) -> int:
        opening = 0 if place else self.branches[branch][1]
        more = sum(it.amount for it in self.lines if (it.branch, it.place) == (branch, place))
        return opening + self.ledger.of_place[branch, place] + more

    def lines_total(self, branch: int, form: str) -> int:
        return self.ledger.of_form[branch, form] + sum(it.amount for it in self.lines if (it.branch, it.form) == (branch, form))

    def drawers_total(self, branch: int) -> int:
        return self.ledger.of_drawers[branch] + sum(it.amount for it in self.lines if it.branch == branch and it.place)

    def holder(self, teller: int) -> int | None:
        for it in reversed(self.lines):
            if it.place == teller and it.form in ("on", "off"):
                return it.user if it.form == "on" else None
        return self.ledger.holders.get(teller)

    def entries_of(self, branch: int) -> list[Entry]:
        return [*self.ledger.entries[branch], *(it for it in self.entries if it.branch == branch)]

    def turns_of(self, account: int) -> list[Entry]:
        return [*self.ledger.turns[account], *(it for it in self.entries if it.account == account)]

    def entry(self, branch: int, number: int) -> Entry | None:
        standing = self.ledger.entries[branch]
        if number <= len(standing):
            return standing[number - 1]
        return next((it for it in self.entries if (it.branch, it.number) == (branch, number)), None)

    def is_undone(self, entry: Entry) -> bool:
        key = (entry.branch, entry.number)
        return key in self.ledger.undone or any((it.branch, it.undoes) == key for it in self.entries)

    # -- slips

    def add_slip(self, user: int, number: int, slip: Slip) -> None:
        self.slips = {**self.slips, (user, number): slip}

    def slip_of(self, request: Question) -> Slip | None:
        key = (request.user, request.slip)
        return self.slips.get(key) or self.ledger.slips.get(key) if takes_slip(request) else None

    # -- numbers of rows

    def entry_count(self, branch: int) -> int:
        return len(self.ledger.entries[branch]) + sum(it.branch == branch for it in self.entries)

    def turn_count(self, account: int) -> int:
        return len(self.ledger.turns[account]) + sum(it.account == account for it in self.entries)

    def line_count(self, branch: int) -> int:
        return len(self.ledger.line_rows[branch]) + sum(it.branch == branch for it in self.lines)

    def slip_count(self, user: int) -> int:
        return self.ledger.slip_counts[user] + sum(who == user for who, _ in self.slips)


def takes_slip(request: Question) -> bool:
    """Whether a slip is read of a request."""
    return request.kind in MEMBERS or request.kind == "release"


assert set(MEMBERS) | {"release"} <= set(OPERATIONS)
