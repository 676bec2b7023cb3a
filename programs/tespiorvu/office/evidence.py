"""All tables for an auditor's program (Z3 of the German GoBD): each table of the bank's files and of the register as CSV, the trail that is
given, and index.xml of the Beschreibungsstandard, as one zip."""
import csv
import io
import sqlite3
from collections.abc import Iterable, Iterator
from typing import IO, NamedTuple
from xml.etree import ElementTree
from zipfile import ZIP_DEFLATED, ZipFile

from .camt import part
from .copies import Copy
from .sheets import guarded

DOCTYPE = '<?xml version="1.0" encoding="UTF-8"?>\n<!DOCTYPE DataSet SYSTEM "gdpdu-01-09-2004.dtd">\n'
TRAIL = "trail.log"


class Column(NamedTuple):
    """A column: its name, whether it has numbers, and whether it is of the key."""

    name: str
    is_number: bool
    is_key: bool


class Table(NamedTuple):
    """A table of a file, in SQL's own order."""

    name: str
    columns: list[Column]
    rows: Iterable[Iterable[object]]


def tables_of(name: str, found: sqlite3.Connection) -> Iterator[Table]:
    """The tables of a file; those of SQLite itself are none."""
    query = "SELECT name FROM sqlite_master WHERE type = 'table' AND name NOT LIKE 'sqlite_%' ORDER BY name"
    for (table,) in found.execute(query).fetchall():
        info = found.execute("SELECT name, type, pk FROM pragma_table_info(?)", (table,)).fetchall()
        columns = [Column(it["name"], it["type"] == "INTEGER", bool(it["pk"])) for it in info]
        yield Table(f"{name}-{table}", columns, found.execute(f"SELECT * FROM {table}"))


def shown(value: object) -> object:
    """A value as it goes out: a text guarded, as somebody may have typed it."""
    if isinstance(value, bytes):
        return value.decode("utf-8", "replace")
    return guarded(value) if isinstance(value, str) else value


def text_of(table: Table) -> str:
    """A table as CSV with semicolons, whose first line has the columns."""
    out = io.StringIO()
    writer = csv.writer(out, delimiter=";", lineterminator="\r\n")
    writer.writerow(it.name for it in table.columns)
    writer.writerows(map(shown, row) for row in table.rows)
    return out.getvalue()


def describe(media: ElementTree.Element, table: Table) -> None:
    """A table in index.xml: its key first, as the standard has it."""
    found = part(media, "Table")
    part(found, "URL", f"{table.name}.csv")
    part(found, "Name", table.name)
    part(found, "UTF8")
    part(found, "DecimalSymbol", ",")
    part(found, "DigitGroupingSymbol", ".")
    part(part(found, "Range"), "From", "2")
    lines = part(found, "VariableLength")
    for name, text in (("ColumnDelimiter", ";"), ("RecordDelimiter", "\r\n"), ("TextEncapsulator", '"')):
        part(lines, name, text)
    for it in sorted(table.columns, key=lambda it: not it.is_key):
        column = part(lines, "VariablePrimaryKey" if it.is_key else "VariableColumn")
        part(column, "Name", it.name)
        part(column, "Numeric" if it.is_number else "AlphaNumeric")


def write(copies: Iterable[Copy], register: sqlite3.Connection, supplier: str, trail: bytes, out: IO[bytes]) -> int:
    """Writes all of it as one zip; how many tables there are."""
    root = ElementTree.Element("DataSet")
    part(root, "Version", "1.0")
    head = part(root, "DataSupplier")
    for name, text in (("Name", supplier), ("Location", ""), ("Comment", "docs/TABLES.md")):
        part(head, name, text)
    media, count = part(root, "Media"), 0
    part(media, "Name", "1")
    with ZipFile(out, "w", ZIP_DEFLATED) as zipped:
        for name, found in [*((it.name, it.bank) for it in copies), ("register", register)]:
            for table in tables_of(name, found):
                zipped.writestr(f"{table.name}.csv", text_of(table))
                describe(media, table)
                count += 1
        if trail:
            zipped.writestr(TRAIL, trail)
        zipped.writestr("index.xml", DOCTYPE + ElementTree.tostring(root, "unicode"))
    return count
