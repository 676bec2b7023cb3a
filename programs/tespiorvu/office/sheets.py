"""Sheets: CSV in UTF-8, with the separator, the decimal mark and the headings of a language. The register goes out so, and comes in again
equal, in whichever of the languages; what can't be taken is refused by its line."""
import csv
import io
import re
import sqlite3
from collections.abc import Callable, Iterable, Sequence
from typing import NamedTuple

from . import register
from .languages import LANGUAGES, MARKS, Count, Language, Sentence, Term, language_of
from .register import Holder, Holding, User
from .store import Refused, changing

# A spreadsheet takes a field that begins with one of these for a formula. Where a semicolon separates fields, as in many countries,
# or a line ends within one, another field begins there. So an apostrophe goes out in front of each.
BEGINS = r"(?:^|(?<=[;\t\n\r]))"
SIGN = r"(?='*[=+\-@\t\r\uff1d\uff0b\uff0d\uff20])"
FORMULA = re.compile(BEGINS + SIGN)
GUARD = re.compile(f"{BEGINS}'{SIGN}")
NUMBER = re.compile(r"[1-9]\d{0,8}")
MOST_BYTES = 4 << 20


class SheetRefused(Refused):
    """A sheet is not taken, by its name and line."""

    def __init__(self, sheet: str, line: int, why: Sentence | str) -> None:
        super().__init__("{sheet}.csv, line {line}: {why}", sheet=sheet, line=line, why=why)


class Sheet(NamedTuple):
    """One kind of rows: the heading, which columns are numbers, the rows there are, and how one is kept."""

    heading: tuple[str, ...]
    numbers: frozenset[str]
    make: Callable[..., Holder | Holding | User]
    rows: Callable[[sqlite3.Connection], Sequence[Holder | Holding | User]]
    put: Callable[..., bool]


SHEETS = {
    "holders": Sheet(Holder._fields, frozenset(("holder",)), Holder, register.holders, register.put_holder),
    "holdings": Sheet(Holding._fields, frozenset(("account", "holder")), Holding, register.holdings, register.put_holding),
    "users": Sheet(User._fields, frozenset(("user",)), User, register.users, register.put_user),
}


# The columns of each sheet from the first version on.
LEAST_COLUMNS = {"holders": 6, "holdings": 3, "users": 3}


# By this mark in front a spreadsheet knows UTF-8 (RFC 4180 knows none, and no program needs it where a comma separates).
UTF8_MARK = "\ufeff"
# The terms of the column `may`.
MAY = (*register.MAY, "none")


def guarded(text: str) -> str:
    """A text as it goes out."""
    return FORMULA.sub("'", text)


def written(field: object, language: Language) -> str:
    """A field as it goes out: one that is a text, guarded."""
    text = language.written(field)
    return guarded(text) if isinstance(field, (str, Sentence)) else text


def bare(text: str) -> str:
    """A field as it came, without the apostrophes of `guarded`."""
    return GUARD.sub("", text)


def sheet_text(heading: Iterable[str], rows: Iterable[Iterable[object]], language: Language = language_of("en")) -> str:
    """Rows as CSV."""
    out = io.StringIO()
    if language.marks.separator != ",":
        out.write(UTF8_MARK)
    writer = csv.writer(out, delimiter=language.marks.separator)
    writer.writerow(language.written(Term(it)) for it in heading)
    writer.writerows([written(field, language) for field in row] for row in rows)
    return out.getvalue()


def exported(found: sqlite3.Connection, name: str, language: Language = language_of("en")) -> str:
    """A part of the register as CSV."""
    rows: Iterable[Iterable[object]] = SHEETS[name].rows(found)
    if name == "holdings":
        rows = [[Term(str(it)) if it in MAY else it for it in row] for row in rows]
    return sheet_text(SHEETS[name].heading, rows, language)


def text_of(name: str, given: bytes) -> str:
    """The text of a file; a mark of its coding in front is passed over."""
    if len(given) > MOST_BYTES:
        raise SheetRefused(name, 1, Sentence("it has more than {most} bytes", most=Count(MOST_BYTES)))
    try:
        return given.decode("utf-8-sig")
    except UnicodeDecodeError as error:
        line = given.count(b"\n", 0, error.start) + 1
        raise SheetRefused(name, line, Sentence("it is not UTF-8: save it as CSV UTF-8")) from error


def english_of(words: Iterable[str]) -> dict[str, str]:
    """The English word of each translation of these terms."""
    return {language_of(code).written(Term(word)).casefold(): word for code in LANGUAGES for word in words}


def heading_of(name: str, record: list[str]) -> tuple[str, ...]:
    """The columns that a file has: the first ones, so that a file of a version with fewer columns is taken; in one of the languages."""
    heading, english = SHEETS[name].heading, english_of(SHEETS[name].heading)
    given = tuple(english.get(it.strip().casefold(), it) for it in record)
    if given not in (heading[:count] for count in range(LEAST_COLUMNS[name], len(heading) + 1)):
        why = Sentence("the heading is {heading}, separated by commas or semicolons", heading=[*map(Term, heading)])
        raise SheetRefused(name, 1, why)
    return given


def row_of(name: str, line: int, heading: Sequence[str], record: list[str]) -> Holder | Holding | User:
    """The row of a record."""
    sheet = SHEETS[name]
    if len(record) != len(heading):
        values = {"count": len(record), "wanted": len(heading), "heading": [*map(Term, heading)]}
        raise SheetRefused(name, line, Sentence("{count} fields, and not {wanted}: {heading}", **values))
    fields: list[int | str] = []
    for column, field in zip(heading, record):
        if column not in sheet.numbers:
            text = bare(field)
            fields.append(english_of(MAY).get(text.casefold(), text) if column == "may" else text)
        elif NUMBER.fullmatch(field):
            fields.append(int(field))
        else:
            why = Sentence("{column} is a whole number, and not {field}", column=Term(column), field=repr(field))
            raise SheetRefused(name, line, why)
    return sheet.make(*fields)


def separator_of(text: str) -> str:
    """What separates the fields of a file, by its first line: a comma, or a semicolon as in countries with a decimal comma."""
    first = text.split("\n", 1)[0]
    return max((it.separator for it in MARKS.values()), key=first.count) if ";" in first else ","


def rows_of(name: str, text: str) -> list[tuple[int, Holder | Holding | User]]:
    """The rows of a file, each with the line at which it begins."""
    reader = csv.reader(io.StringIO(text, newline=""), delimiter=separator_of(text), strict=True)
    rows: list[tuple[int, Holder | Holding | User]] = []
    heading: tuple[str, ...] = ()
    begins = 1
    try:
        for record in reader:
            if begins == 1:
                heading = heading_of(name, record)
            elif record:
                rows.append((begins, row_of(name, begins, heading, record)))
            begins = reader.line_num + 1
    except csv.Error as error:
        raise SheetRefused(name, max(reader.line_num, 1), str(error)) from error
    if begins == 1:
        raise SheetRefused(name, 1, Sentence("the file is empty"))
    return rows


def imported(found: sqlite3.Connection, badge: str, name: str, given: bytes) -> int:
    """Takes a file into the register, whole or not at all; how many rows changed."""
    rows, changed, seen = rows_of(name, text_of(name, given)), 0, dict[tuple[object, ...], int]()
    with changing(found):
        for line, row in rows:
            key = tuple(row)[: 2 if name == "holdings" else 1]
            if key in seen:
                raise SheetRefused(name, line, Sentence("the same as line {line}", line=seen[key]))
            seen[key] = line
            try:
                changed += SHEETS[name].put(found, badge, row)
            except Refused as error:
                raise SheetRefused(name, line, error) from error
    return changed
