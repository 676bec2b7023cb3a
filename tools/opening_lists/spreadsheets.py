"""Accounts and people as a spreadsheet writes them: CSV in UTF-8, with or without its mark, whose fields are separated by commas,
semicolons or tabs, and amounts as the country writes them."""
import csv
import io
import re

SEPARATORS = (";", ",", "\t")
# Between thousands: nothing, or one and the same of these (the last three are a narrow space, a space that does not break, and the
# sign of Swiss sheets); and then two places, or none, or one, as a cell without a format shows 12.50.
GROUPED = re.compile(r"(\d{1,3}(?:([.,' \u202f\u00a0\u2019])\d{3}(?:\2\d{3})*)?|\d+)(?:([.,])(\d{1,2}))?")


class SheetRefused(ValueError):
    """A sheet is not taken, by its line."""


def text_of(path: str) -> str:
    """The text of a file."""
    with open(path, "rb") as file:
        given = file.read()
    try:
        return given.decode("utf-8-sig")
    except UnicodeDecodeError as why:
        line = given.count(b"\n", 0, why.start) + 1
        raise SheetRefused(f"line {line}: it is not UTF-8: save it as CSV UTF-8") from why


def separator_of(heading: str, columns: tuple[str, ...]) -> str:
    """What separates the fields, by the heading, which has to be that of the columns."""
    for it in SEPARATORS:
        if tuple(name.strip().strip('"').lower() for name in heading.strip().split(it)) == columns:
            return it
    raise SheetRefused(f"line 1: the heading is {';'.join(columns)}, and not {heading.strip()}")


def records_of(path: str, columns: tuple[str, ...]) -> list[tuple[int, list[str]]]:
    """The records of a sheet, each with the line at which it ends. Lines of empty fields alone are passed over."""
    text = text_of(path)
    separator = separator_of(text.partition("\n")[0], columns)
    lines = csv.reader(io.StringIO(text, newline=""), delimiter=separator, strict=True)
    found = []
    try:
        for record in lines:
            fields = [it.strip() for it in record]
            if any(fields) and lines.line_num > 1:
                if len(fields) != len(columns):
                    raise SheetRefused(f"line {lines.line_num}: {len(fields)} fields, and not the {len(columns)} of {';'.join(columns)}")
                found.append((lines.line_num, fields))
    except csv.Error as why:
        raise SheetRefused(f"line {lines.line_num}: {why}") from why
    return found


def cents_of(text: str) -> int:
    """The cents of an amount: 1234,56 and 1.234,56 and 1,234.56 and 1234. What may be read in two ways is refused."""
    sign, digits = (-1, text[1:]) if text[:1] in ("-", "\u2212") else (1, text)
    found = GROUPED.fullmatch(digits.strip())
    if not found or found[2] in (".", ",") and found[3] in (None, found[2]):
        raise SheetRefused(f"{text!r} is no amount: write 1234,56 or 1.234,56 or 1234.56, with two places at most, and no currency")
    whole = re.sub(r"\D", "", found[1])
    return sign * (int(whole) * 100 + int((found[4] or "").ljust(2, "0")))
