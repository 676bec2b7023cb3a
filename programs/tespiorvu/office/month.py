"""A month for the accountant: a journal of all postings with the general ledger's accounts, as a sheet and as the text that hledger, ledger
and beancount take; balances at both ends; and the proofs of the month's days beside what the journal adds up to."""
import datetime
from collections.abc import Iterable, Iterator, Mapping
from pathlib import Path
from typing import NamedTuple

from ..files import write_whole
from .books import branches_of, day_book, days_in, spans_of, years_of
from .copies import Copy
from .interest import closing_balances, interest_of
from .languages import Language, Sentence, language_of
from .ledger import Posting, named, postings_of
from .money import plain, units
from .papers import Source, accounts_of
from .periods import first_date
from .settings import Settings
from .sheets import sheet_text
from .statements import chain_of
from .store import Refused

# What each kind of ledger is to an accountant, as beancount wants to know. Customers' deposits are owed to them.
ROOTS = {"customer": "Liabilities:Customers", "vault": "Assets:Vault", "drawer": "Assets:Drawers", "differences": "Expenses:Differences",
         "branch": "Assets:Branches", "opening": "Equity:Opening"}  # fmt: skip


# A date, a document, words, and the accounts with their cents.
Transaction = tuple[datetime.date, str, Sentence | str, list[tuple[str, int]]]


class Booked(NamedTuple):
    """A posting of the month, with its date, the date from which it is valued, and its text."""

    posting: Posting
    date: datetime.date
    value: datetime.date
    text: Sentence | str
    kind: str = ""


class Agreed(NamedTuple):
    """A closed day: the branch's balance and its vault by the journal, and by the bank's proof."""

    branch: int
    day: int
    date: datetime.date
    balance: int
    proof: int
    vault: int
    proof_vault: int


class Month(NamedTuple):
    """All of a month: by branch and ledger what stood before it, its postings in the order of time, its proofs, and up to which day each
    account got its interest by then."""

    first: datetime.date
    last: datetime.date
    before: dict[tuple[int, str], int]
    booked: list[Booked]
    proofs: list[Agreed]
    paid_to: dict[int, datetime.date]

    def after(self) -> dict[tuple[int, str], int]:
        """By branch and ledger what stands after it."""
        found = dict(self.before)
        for it in self.booked:
            key = it.posting.branch, it.posting.ledger
            found[key] = found.get(key, 0) + it.posting.cents
        return found


def openings_of(copy: Copy) -> dict[tuple[int, str], int]:
    """What stood at the beginning of a file: customers' balances, the vaults, and the rest as what the bank began with."""
    found = {(int(it["home"]), f"customer {it['account']}"): -int(it["opening"]) for it in copy.rows("SELECT account, home, opening FROM accounts")}
    found |= {(int(it["branch"]), "vault"): int(it["cash"]) for it in copy.rows("SELECT branch, cash FROM branches")}
    for branch in branches_of(copy):
        found[branch, "opening"] = -sum(cents for (one, _), cents in found.items() if one == branch)
    return found


def all_postings(source: Source) -> Iterator[tuple[str, Posting]]:
    """The postings of all days of all branches, each day of which agrees with its proof, with the file that has them."""
    years = years_of(source.opened)
    for branch in branches_of(source.opened[-1]):
        for span in spans_of(list(source.opened), branch):
            year = years[source.opened.index(span.copy)]
            for day in reversed(days_in(span, branch)):
                for it in postings_of(day_book(span.copy, branch, day.day, year)):
                    yield span.copy.name, it


def booked_of(name: str, it: Posting, source: Source) -> Booked:
    """A posting with its dates. What a run booked has the run's text, and the value date of its period."""
    date = datetime.date.fromtimestamp(it.moment)
    entry = it.text.values
    reason = source.reasons.get((name, entry["branch"], entry["number"])) if entry else None
    return Booked(it, date, datetime.date.fromisoformat(reason.last) if reason else date, reason.why if reason else it.text,
                  reason.kind if reason else "")  # fmt: skip


def proofs_of(source: Source, first: datetime.date, last: datetime.date) -> list[Agreed]:
    """The closed days of the month, each with the sums of its book, which are those of the journal, and with its proof."""
    found: list[Agreed] = []
    for branch in branches_of(source.opened[-1]):
        for span in spans_of(list(source.opened), branch):
            for day in reversed(days_in(span, branch)):
                date = datetime.date.fromtimestamp(day.last)
                proof = span.copy.row("SELECT balance, cash FROM proofs WHERE branch = ? AND day = ?", branch, day.day)
                if day.last and first <= date <= last and proof is not None:
                    after = day_book(span.copy, branch, day.day).after
                    found.append(Agreed(branch, day.day, date, after.balance, proof["balance"], after.vault, proof["cash"]))
    return found


def month_of(source: Source, first: datetime.date, last: datetime.date) -> Month:
    """A month of all branches."""
    before = openings_of(source.opened[0])
    for it in openings_of(source.opened[-1]):
        before.setdefault(it, 0)
    booked, paid_to = list[Booked](), dict[int, datetime.date]()
    for name, posting in all_postings(source):
        one = booked_of(name, posting, source)
        if one.date < first:
            key = posting.branch, posting.ledger
            before[key] = before.get(key, 0) + posting.cents
        elif one.date <= last:
            booked.append(one)
        if one.kind == "interest" and one.value <= last and posting.ledger.startswith("customer "):
            account = int(posting.ledger.removeprefix("customer "))
            paid_to[account] = max(one.value, paid_to.get(account, one.value))
    booked.sort(key=lambda it: (it.date, it.posting.transaction))
    proofs = proofs_of(source, first, last)
    if wrong := [it for it in proofs if (it.balance, it.vault) != (it.proof, it.proof_vault)]:
        raise Refused("Branch {branch}, day {day}: the journal does not agree with the proof",
                      branch=wrong[0].branch, day=wrong[0].day)  # fmt: skip
    return Month(first, last, before, booked, proofs, paid_to)


def account_of(branch: int, ledger: str, settings: Settings) -> tuple[str, Sentence | str]:
    """The number and the name of a ledger by the settings' map; its own name where they have none for it."""
    kind, _, number = ledger.partition(" ")
    for it in settings.chart:
        if it.of == kind and it.low <= int(number or 0) <= it.high:
            return it.number, it.name
    return "", named(ledger)


def path_of(branch: int, ledger: str, settings: Settings) -> str:
    """The account of a ledger as the three programs name it, with the number of the settings' map."""
    kind, _, number = ledger.partition(" ")
    chart, _ = account_of(branch, ledger, settings)
    return ":".join(it for it in (ROOTS[kind], chart, f"B{branch}", number) if it)


def journal_sheet(month: Month, settings: Settings, language: Language) -> str:
    """The journal as a sheet."""
    heading = ("transaction", "date", "value date", "branch", "day", "user", "account", "name", "ledger", "debit", "credit", "text")
    rows = []
    for it in month.booked:
        one = it.posting
        number, name = account_of(one.branch, one.ledger, settings)
        sides = (units(one.cents), "") if one.cents >= 0 else ("", units(-one.cents))
        begin = one.transaction, it.date, it.value, one.branch, one.day, one.user, number, name
        rows.append((*begin, named(one.ledger), *sides, it.text))
    return sheet_text(heading, rows, language)


def balances_sheet(month: Month, settings: Settings, language: Language) -> str:
    """What stood before and after the month, of each ledger of each branch."""
    after = month.after()
    rows = []
    for branch, ledger in sorted(after):
        number, name = account_of(branch, ledger, settings)
        before = month.before.get((branch, ledger), 0)
        rows.append((branch, number, name, named(ledger), units(before), units(after[branch, ledger])))
    return sheet_text(("branch", "account", "name", "ledger", "balance before", "balance after"), rows, language)


def proofs_sheet(month: Month, language: Language) -> str:
    """The month's proofs beside the journal's sums."""
    heading = ("branch", "day", "date", "balance", "balance by the proof", "vault", "vault by the proof")
    rows = [(it.branch, it.day, it.date, *map(units, it[3:])) for it in month.proofs]
    return sheet_text(heading, rows, language)


def named_sheet(month: Month, language: Language) -> str:
    """Interest and fees of the month, by their names."""
    heading = ("transaction", "date", "value date", "branch", "account", "amount", "text")
    rows = [(it.posting.transaction, it.date, it.value, it.posting.branch, it.posting.ledger.removeprefix("customer "), units(-it.posting.cents),
             it.text) for it in month.booked if it.kind and it.posting.ledger.startswith("customer ")]  # fmt: skip
    return sheet_text(heading, rows, language)


def accrued_sheet(month: Month, source: Source, language: Language) -> str:
    """The interest that each account has earned from its last interest on, or the bank's first day, and has not got by the month's end."""
    begins, rows = first_date(list(source.opened)), []
    for scheme in (it for it in source.settings.schemes if it.kind == "interest"):
        for account in (it for it in accounts_of(source.opened[-1], scheme.branch) if scheme.low <= it <= scheme.high and it != scheme.account):
            first = month.paid_to[account] + datetime.timedelta(1) if account in month.paid_to else begins
            if first and first <= month.last:
                cents = interest_of(closing_balances(chain_of(list(source.opened), account), first, month.last), scheme.millionths)
                rows.append((scheme.branch, account, first, month.last, units(cents)))
    return sheet_text(("branch", "account", "from", "to", "interest accrued"), rows, language)


def transactions_of(month: Month, settings: Settings) -> Iterator[Transaction]:
    """The transactions of the journal. The first has what stood before."""
    standing = [(path_of(*key, settings), cents) for key, cents in sorted(month.before.items()) if cents]
    yield month.first, "opening", Sentence("opening"), standing
    found: dict[str, list[Booked]] = {}
    for it in month.booked:
        found.setdefault(it.posting.transaction, []).append(it)
    for document, parts in found.items():
        accounts = [(path_of(it.posting.branch, it.posting.ledger, settings), it.posting.cents) for it in parts]
        yield parts[0].date, document, parts[0].text, accounts


def hledger_text(month: Month, settings: Settings) -> str:
    """The journal as hledger and ledger take it."""
    found = ""
    for date, document, text, accounts in transactions_of(month, settings):
        found += f"{date} ({document}) {text}\n"
        found += "".join(f"    {path}  {plain(cents)} {settings.currency}\n" for path, cents in accounts) + "\n"
    return found


def beancount_text(month: Month, settings: Settings) -> str:
    """The journal as beancount takes it."""
    paths = {path for _, _, _, accounts in transactions_of(month, settings) for path, _ in accounts}
    found = "".join(f"{month.first} open {it}\n" for it in sorted(paths)) + "\n"
    for date, document, text, accounts in transactions_of(month, settings):
        found += f'{date} * "{document}" "{text}"\n'
        found += "".join(f"  {path}  {plain(cents)} {settings.currency}\n" for path, cents in accounts) + "\n"
    return found


def files_of(month: Month, source: Source) -> Mapping[str, str]:
    """The files of a month, by their names; sheets in the language of the letterhead."""
    settings, language = source.settings, language_of(source.settings.letterhead.language)
    return {
        "journal.csv": journal_sheet(month, settings, language),
        "balances.csv": balances_sheet(month, settings, language),
        "proofs.csv": proofs_sheet(month, language),
        "interest-and-fees.csv": named_sheet(month, language),
        "interest-accrued.csv": accrued_sheet(month, source, language),
        "journal.hledger": hledger_text(month, settings),
        "journal.beancount": beancount_text(month, settings),
    }


def write(files: Iterable[tuple[str, str]], folder: Path) -> list[Path]:
    """Writes files, each of which gets its name once it is whole."""
    folder.mkdir(mode=0o750, parents=True, exist_ok=True)
    written = {folder / name: text for name, text in files}
    for file, text in written.items():
        write_whole(file, text, 0o640)
    return list(written)
