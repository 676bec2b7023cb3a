"""The reports of the bank of bank_model: the text of each, written down from docs/REPORTS.md alone.

Each is its first line and those after it, every line with a line feed at its end.
"""
from collections.abc import Iterable

from model.bank import PROCEDURES, Bank, Entry, Triple


def cents(amount: int) -> str:
    """An amount in units with two places."""
    return f"{'-' if amount < 0 else ''}{abs(amount) // 100}.{abs(amount) % 100:02}"


def text_of(first: str, lines: Iterable[str]) -> str:
    """The text of these lines."""
    return "".join(f"{line}\n" for line in [first, *lines])


# ---- the statement of an account


def entry_line(entry: Entry, balance: int) -> str:
    place = f"{entry.turn:9} {entry.branch:9} {entry.number:9} {entry.teller:9} {entry.moment:11}"
    return f"{place} {cents(entry.delta):>8} {cents(balance):>14}"


def statement(bank: Bank, account: int, start: int, count: int) -> str:
    turns = bank.turns_of(account)
    balance = bank.accounts[account][1] + sum(it.delta for it in turns[: start - 1])
    lines = []
    for entry in turns[start - 1 :][:count]:
        balance += entry.delta
        lines.append(entry_line(entry, balance))
    return text_of(f"STATEMENT ACCOUNT {account:9} FROM {start:9} LINES {len(lines):5}", lines)


# ---- the accounts of a user, at a moment


def accounts(bank: Bank, user: int, after: int, count: int, moment: int) -> str:
    sets = [number for number, _ in bank.sets_of(user, "accounts", moment)]
    shown = [it for it in bank.accounts if it > after and any(bank.holds(number, [("account", it)]) for number in sets)]
    lines = [f"{it:9} {bank.accounts[it][0]:9} {cents(bank.balance(it)):>14}" for it in sorted(shown)[:count]]
    return text_of(f"ACCOUNTS AFTER {after:9} LINES {len(lines):5}", lines)


# ---- the proof of a branch


def teller_line(bank: Bank, branch: int, teller: int) -> str:
    balance, cash = cents(bank.teller_balance(teller)), cents(bank.cash(branch, teller))
    return f"TELLER {teller:9} {balance:>14} {cash:>14} {bank.holder(teller) or 0:4}"


def proof(bank: Bank, branch: int) -> str:
    tellers = sorted(it for it in bank.tellers if bank.branch_of(it) == branch)
    opening, cash = bank.branches[branch]
    totals = {
        "TELLERS TOTAL": sum(bank.teller_balance(it) for it in tellers),
        "BRANCH BALANCE": bank.branch_balance(branch),
        "HISTORY TOTAL": bank.history(branch),
        "OPENING BALANCE": opening,
        "VAULT CASH": bank.cash(branch, 0),
        "DRAWER CASH": bank.drawers_total(branch),
        "OPENING CASH": cash,
        "CASH ENTRIES": bank.lines_total(branch, "entry"),
        "DIFFERENCES": bank.lines_total(branch, "difference"),
    }
    lines = [teller_line(bank, branch, it) for it in tellers]
    lines += [f"{label:18}{cents(amount):>14}" for label, amount in totals.items()]
    return text_of(f"PROOF BRANCH {branch:9} DAY {bank.days[branch]:6}", lines)


# ---- the listing of the policy


def user_line(bank: Bank, user: int) -> str:
    officer, suspended = "O" if user in bank.officers else "-", "S" if user in bank.suspended else "-"
    return f"USER {user:4} {officer}{suspended} {bank.users[user]:20}"


def triple_line(key: tuple[int, str, int], triple: Triple) -> str:
    user, procedure, number = key
    return f"TRIPLE {user:4} {procedure:11} {number:9} {triple.limit:9} {triple.first:11} {triple.last:11}"


def policy(bank: Bank) -> str:
    place = PROCEDURES.index
    certifiers = sorted(bank.certifiers, key=lambda it: (it[0], place(it[1])))
    relations = sorted(bank.relations.items(), key=lambda it: (place(it[0][0]), it[0][1]))
    triples = sorted(bank.triples.items(), key=lambda it: (it[0][0], place(it[0][1]), it[0][2]))
    lines = [user_line(bank, it) for it in sorted(bank.users)]
    lines += [f"CERTIFIER {user:4} {procedure:11}" for user, procedure in certifiers]
    lines += [f"SET {it:9} {kind:7} {low:9} {high:9}" for it in sorted(bank.sets) for kind, low, high in bank.sets[it]]
    lines += [f"RELATION {procedure:11} {number:9} BY {by:4}" for (procedure, number), by in relations]
    lines += [triple_line(*it) for it in triples]
    return text_of(f"POLICY LINES {len(lines):9}", lines)
