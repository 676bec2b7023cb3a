"""A day of a branch as an account statement of ISO 20022, camt.053.001.08: the elements of office/schemas, in their order."""
import datetime
from collections.abc import Mapping
from typing import NamedTuple
from xml.etree import ElementTree

from .books import DayBook, Entry, date_of
from .languages import Language, Term, language_of
from .ledger import postings_of
from .money import plain
from .reasons import Key, Reason

NAMESPACE = "urn:iso:std:iso:20022:tech:xsd:camt.053.001.08"
ENGLISH = language_of("en")
NO_REASONS: Mapping[Key, Reason] = {}


def part(above: ElementTree.Element, name: str, text: str = "", **attributes: str) -> ElementTree.Element:
    """A new element."""
    found = ElementTree.SubElement(above, name, attributes)
    found.text = text or None
    return found


def path(above: ElementTree.Element, names: str, text: str) -> None:
    """A text in elements within one another."""
    for name in names.split("/"):
        above = part(above, name)
    above.text = text


def stamp(moment: int) -> str:
    """A moment as ISO 20022 has it, in UTC."""
    return datetime.datetime.fromtimestamp(moment, datetime.timezone.utc).strftime("%Y-%m-%dT%H:%M:%SZ")


def amount(above: ElementTree.Element, cents: int, currency: str) -> None:
    """An amount and its side: the sign is no part of a number there."""
    part(above, "Amt", plain(abs(cents)), Ccy=currency)
    part(above, "CdtDbtInd", "CRDT" if cents >= 0 else "DBIT")


def balance(above: ElementTree.Element, code: str, cents: int, currency: str, date: str) -> None:
    """The balance of the branch, OPBD before the day or CLBD after it."""
    found = part(above, "Bal")
    path(found, "Tp/CdOrPrtry/Cd", code)
    amount(found, cents, currency)
    path(found, "Dt/Dt", date)


def summary(above: ElementTree.Element, entries: list[Entry]) -> None:
    """How many entries there are, and their sums."""
    found = part(above, "TxsSummry")
    for name, these in (
        ("TtlCdtNtries", [it for it in entries if it.delta >= 0]),
        ("TtlDbtNtries", [it for it in entries if it.delta < 0]),
    ):
        total = part(found, name)
        part(total, "NbOfNtries", str(len(these)))
        part(total, "Sum", plain(abs(sum(it.delta for it in these))))


class Day(NamedTuple):
    """A day, in which currency and language it is written, and why a run made an entry."""

    book: DayBook
    currency: str
    language: Language
    reasons: Mapping[Key, Reason]

    def reason(self, entry: Entry) -> Reason | None:
        """Why a run made an entry, if one did."""
        return self.reasons.get((self.book.file, entry.branch, entry.number))


def text_of(entry: Entry, day: Day) -> str:
    """What an entry is, in text, as importers show it: of one that a run made its own text, interest or a fee."""
    say, reason = day.language.say, day.reason(entry)
    what = reason.why if reason else Term(entry.what())
    text = say("{what}, account {account}, teller {teller}, user {user}", what=what, **{it: getattr(entry, it) for it in ("account", "teller", "user")})
    return text + (", " + say("corrects {entry}", entry=f"{entry.branch}-{entry.undoes}") if entry.undoes else "")


def entry_element(above: ElementTree.Element, entry: Entry, day: Day) -> None:
    """One entry. What it is stands as a code of the bank's own; the customer is the other side. Its dates are the bank's local ones, as an
    importer compares them with other dates; what a run made is valued at the last day of its period."""
    found, book, reason = part(above, "Ntry"), day.book, day.reason(entry)
    part(found, "NtryRef", book.document(entry.number))
    amount(found, entry.delta, day.currency)
    if entry.undoes:
        part(found, "RvslInd", "true")
    path(found, "Sts/Cd", "BOOK")
    path(found, "BookgDt/Dt", date_of(entry.moment))
    path(found, "ValDt/Dt", reason.last if reason else date_of(entry.moment))
    part(found, "AcctSvcrRef", book.document(entry.number))
    path(found, "BkTxCd/Prtry/Cd", entry.what().upper())
    details = part(part(found, "NtryDtls"), "TxDtls")
    path(details, "Refs/InstrId", book.document(min(entry.number, entry.partner or entry.number)))
    side = "RltdPties/Dbtr/Pty/Nm" if entry.delta >= 0 else "RltdPties/Cdtr/Pty/Nm"
    path(details, side, day.language.say("Account {account}", account=entry.account).upper())
    for above_it, name in ((details, "AddtlTxInf"), (found, "AddtlNtryInf")):
        part(above_it, name, text_of(entry, day))


def statement_xml(
    book: DayBook, currency: str, made: int, date: str, language: Language = ENGLISH, reasons: Mapping[Key, Reason] = NO_REASONS
) -> str:
    """The document of a day that agrees with its proof, else a refusal."""
    postings_of(book)
    day = Day(book, currency, language, reasons)
    document = ElementTree.Element("Document", {"xmlns": NAMESPACE})
    report = part(document, "BkToCstmrStmt")
    name = f"BRANCH{book.branch}-DAY{book.day}"
    head = part(report, "GrpHdr")
    part(head, "MsgId", f"{book.branch}-{book.day}-{made}")
    part(head, "CreDtTm", stamp(made))
    found = part(report, "Stmt")
    part(found, "Id", name)
    part(found, "ElctrncSeqNb", str(book.day))
    part(found, "CreDtTm", stamp(made))
    account = part(found, "Acct")
    path(account, "Id/Othr/Id", f"BRANCH{book.branch}")
    part(account, "Ccy", currency)
    balance(found, "OPBD", book.before.balance, currency, date)
    balance(found, "CLBD", book.after.balance, currency, date)
    summary(found, book.entries)
    for entry in book.entries:
        entry_element(found, entry, day)
    ElementTree.indent(document)
    return ElementTree.tostring(document, "unicode", xml_declaration=False).join(
        ('<?xml version="1.0" encoding="UTF-8"?>\n', "\n")
    )
