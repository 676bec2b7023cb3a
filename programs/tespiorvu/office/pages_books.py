"""Pages of day books, statements and the ledger's export: what the bank lists to a user, and nobody else."""
import datetime
from pathlib import Path
from typing import Any

from flask import Blueprint, Response, redirect, render_template, request, send_file

from ..policy import sees_branch
from . import books, camt, day_notes, ledger, papers, periods, reasons, register, statements
from .copies import PRESENT
from .languages import LANGUAGES, Language, Sentence, Term, language_of
from .letterhead import KINDS
from .money import units
from .morning import morning_of
from .sheets import sheet_text
from .store import Refused, now
from .web import Forbidden, attached, desk, language, number_of

pages = Blueprint("books", __name__)
# For how many seconds after a copy no other is asked for, and the file whose touch is the wish for one.
COPY_SECONDS = 3_600
WISH = "wants-copy"
ENTRY_HEADING = ("kind", "number", "teller", "account", "home", "amount", "moment", "user", "form", "other", "corrects",
                 "corrected_by", "balance_after")  # fmt: skip


def date_of(text: str | None, what: str) -> datetime.date:
    """A date that was typed."""
    try:
        return statements.date_of((text or "").strip())
    except ValueError as error:
        raise Refused("{name} is a date as 2026-01-31, and not {text}", name=Term(what), text=repr(text)) from error


@pages.get("/days")
def branches() -> str:
    """The branches whose day books the user may see."""
    here = desk()
    found = [it for it in books.branches_of(here.copy) if sees_branch(here.copy.policy, here.user, it, now())]
    days = {it: books.days_of(here.years, it) for it in found}
    return render_template("branches.html", branches=days, made=here.copy.made, may_ask=here.copy.made + COPY_SECONDS <= now())


@pages.post("/days")
def ask_for_copy() -> Any:
    """Wishes for a copy of the bank by now, so that the day book can be printed at the close: by whom the bank lists a branch's proof."""
    here = desk()
    if not any(sees_branch(here.copy.policy, here.user, it, now()) for it in books.branches_of(here.copy)):
        raise Forbidden("The bank lists no branch's proof to you.")
    if here.copy.made + COPY_SECONDS > now():
        raise Refused("The newest copy is of this hour: ask again later")
    here.settings.file.with_name(WISH).touch()
    return redirect("/office/days", 303)


def book_of(branch: int, day: int) -> books.DayBook:
    """A day book that the user may see."""
    desk().require_branch(branch)
    return books.day_book_of(desk().years, branch, day)


@pages.get("/days/<number:branch>/<number:day>")
def day(branch: int, day: int) -> str:
    """A day book."""
    book = book_of(branch, day)
    accounts = {it.account for it in book.entries if desk().sees_account(it.account)}
    notes, names = day_notes.of_day(desk().found, branch, day), register.names_of_accounts(desk().found, accounts)
    lacks, releases = notes.lacks(book.entries, book.lines), books.releases_of(desk().years, branch, day)
    more = {"releases": releases, "morning": morning_of(desk().settings.morning)}
    return render_template("day.html", book=book, made=desk().copy.made, names=names, notes=notes, lacks=lacks, **more)


@pages.get("/days/<number:branch>/<number:day>.csv")
def day_csv(branch: int, day: int) -> Response:
    """A day book as CSV: entries, then cash lines."""
    book = book_of(branch, day)
    rows: list[tuple[object, ...]] = [
        (Sentence("entry"), it.number, it.teller, it.account, it.home, units(it.delta), language().moment(it.moment),
         it.user, Term(it.what()), it.other or "", it.undoes or "", it.undone_by or "", units(it.balance_after))
        for it in book.entries
    ]  # fmt: skip
    rows += [
        (Sentence("cash"), it.number, it.place or Sentence("vault"), "", "", units(it.amount),
         language().moment(it.moment), it.user, Term(books.CASH_FORMS[it.form]), "", "", "", "")
        for it in book.lines
    ]  # fmt: skip
    return attached(sheet_text(ENTRY_HEADING, rows, language()), f"day-{branch}-{day}.csv")


@pages.get("/ledger/<number:branch>/<number:day>.csv")
def ledger_csv(branch: int, day: int) -> Response:
    """A day as double entry."""
    return attached(ledger.ledger_text(book_of(branch, day), language()), f"ledger-{branch}-{day}.csv")


@pages.get("/ledger/<number:branch>/<number:day>.xml")
def ledger_xml(branch: int, day: int) -> Response:
    """A day as camt.053."""
    book = book_of(branch, day)
    last = max([it.moment for it in book.entries] + [it.moment for it in book.lines], default=desk().copy.made)
    by_run = reasons.of_entries(desk().years, desk().settings)
    text = camt.statement_xml(book, desk().settings.currency, desk().copy.made, books.date_of(last), language(), by_run)
    return attached(text, f"camt053-{branch}-{day}.xml", "application/xml")


def asked_statement() -> statements.Statement:
    """The statement that was asked for, which the user may see."""
    account = number_of(request.args.get("account"), "account")
    desk().require_statement(account)
    first, last = date_of(request.args.get("first"), "first"), date_of(request.args.get("last"), "last")
    return statements.statement(desk().copies, account, first, last)


def asked_paper(wanted: Language) -> papers.Paper:
    """The statement that was asked for, which the user may see, as it is printed."""
    account = number_of(request.args.get("account"), "account")
    desk().require_statement(account)
    here = desk()
    source = papers.Source(here.copies, here.years, here.found, reasons.of_entries(here.years, here.settings), here.settings)
    return papers.paper_of(source, account, date_of(request.args.get("first"), "first"), date_of(request.args.get("last"), "last"), wanted)


@pages.get("/statements")
def statement_page() -> str:
    """A statement over all years, with the letterhead, in the browser's language or, if it is asked for, in another."""
    usual = periods.usual_period(desk().years)
    given = {
        "account": request.args.get("account", ""),
        "first": request.args.get("first", usual[0].isoformat()),
        "last": request.args.get("last", usual[1].isoformat()),
    }
    code = request.args.get("language", "")
    wanted = language_of(code) if code in LANGUAGES else language()
    paper = asked_paper(wanted) if "account" in request.args else None
    owners = papers.language_for(paper.owners, desk().settings).code if paper else ""
    return render_template(
        "statement.html",
        paper=paper,
        given=given,
        other=owners if paper and owners != paper.language.code else "",
        owner=paper.addressee() if paper else None,
        head=desk().settings.letterhead,
        logo="/office/logo" if desk().settings.letterhead.logo else "",
        currency=desk().settings.currency,
        said=wanted.markup,
    )


@pages.get("/logo")
def logo() -> Response:
    """The logo of the letterhead."""
    file = Path(desk().settings.letterhead.logo)
    if not file.is_file():
        raise Refused("The settings have no logo")
    return send_file(file, mimetype=KINDS[file.suffix])


@pages.get("/statements.csv")
def statement_csv() -> Response:
    """A statement as CSV."""
    found = asked_statement()
    rows: list[tuple[object, ...]] = [(Sentence("Opening balance"), *[""] * 8, units(found.opening))]
    for copy, it in found.lines:
        year, more = "" if copy == PRESENT else copy, (it.other or "", it.undoes or "", it.undone_by or "")
        begin = language().moment(it.moment), year, it.branch, it.number, Term(it.what())
        rows.append((*begin, *more, units(it.delta), units(it.balance_after)))
    heading = ("moment", "year", "branch", "entry", "form", "other", "corrects", "corrected_by", "amount", "balance")
    return attached(sheet_text(heading, rows, language()), f"statement-{found.account}.csv")
