"""The opening lists, column by column, and how they are read and written."""
import csv
import io
import json
import os
import re
from collections.abc import Callable, Iterable
from dataclasses import dataclass, field
from typing import NamedTuple

# The paths of requests, as docs/openapi.json has them, to which a link leads here and in the package.
with open(os.path.join(os.path.dirname(__file__), "openapi.json"), encoding="utf-8") as description:
    PATHS = json.load(description)["paths"]
PROCEDURES = tuple(it.removeprefix("/do/") for it in PATHS if it.startswith("/do/"))
KINDS = ("account", "teller", "branch", "history", "drawer", "vault")
MOST_KEY, MOST_USER, MOST_CENTS, MOST_LIMIT, MOST_MOMENT = 999_999_999, 9_999, 999_999_999_999, 999_999_999, 99_999_999_999

Column = Callable[[str], int | str]


def whole(least: int, most: int) -> Column:
    """A column of whole numbers in these bounds."""

    def read(text: str) -> int:
        if not re.fullmatch(r"0|-?[1-9][0-9]*", text) or not least <= int(text) <= most:
            raise ValueError(f"{text!r} is no whole number from {least} to {most}")
        return int(text)

    return read


def one_of(names: tuple[str, ...]) -> Column:
    """A column of names."""

    def read(text: str) -> str:
        if text not in names:
            raise ValueError(f"{text!r} is none of {', '.join(names)}")
        return text

    return read


def printable(most: int) -> Column:
    """A column of printable ASCII."""

    def read(text: str) -> str:
        if not re.fullmatch(f"[ -~]{{1,{most}}}", text):
            raise ValueError(f"{text!r} is not 1 to {most} printable ASCII characters")
        return text

    return read


KEY, USER, CENTS, PROCEDURE = whole(1, MOST_KEY), whole(1, MOST_USER), whole(-MOST_CENTS, MOST_CENTS), one_of(PROCEDURES)
MOMENT = whole(0, MOST_MOMENT)
# The eight lists, and the badges.
LISTS: dict[str, dict[str, Column]] = {
    "branches": {"branch": KEY, "balance": CENTS, "cash": whole(0, MOST_CENTS)},
    "tellers": {"teller": KEY, "branch": KEY, "balance": CENTS},
    "accounts": {"account": KEY, "home": KEY, "balance": CENTS, "floor": whole(-MOST_LIMIT, 0)},
    "users": {"user": USER, "name": printable(20), "officer": whole(0, 1)},
    "sets": {"set": KEY, "kind": one_of(KINDS), "low": KEY, "high": KEY},
    "relations": {"procedure": PROCEDURE, "set": KEY, "by": USER},
    "triples": {"user": USER, "procedure": PROCEDURE, "set": KEY, "limit": whole(0, MOST_LIMIT)},
    "certifiers": {"user": USER, "procedure": PROCEDURE},
    "badges": {"badge": printable(64), "user": USER},
}
# Triples may have two columns more.
MOMENTS = {"first": MOMENT, "last": MOMENT}


class Record(NamedTuple):
    """A record of a list: where it ends, and its value in each column."""

    list: str
    line: int
    values: dict

    def of(self, *columns: str) -> tuple:
        """Its values in these columns."""
        return tuple(self.values[it] for it in columns)


@dataclass
class Lists:
    """The records of the lists, and what was found wrong."""

    records: dict[str, list[Record]] = field(default_factory=dict)
    faults: list[str] = field(default_factory=list)

    def fault(self, name: str, line: int, what: str) -> None:
        """Notes what is wrong with a line of a list."""
        self.faults.append(f"{name}.csv, line {line}: {what}")

    def values(self, name: str, *columns: str) -> set[tuple]:
        """What the records of a list have in these columns."""
        return {it.of(*columns) for it in self.records[name]}


def read_record(lists: Lists, name: str, columns: dict[str, Column], line: int, fields: list[str]) -> None:
    """Reads a record, or notes what is wrong with it."""
    if len(fields) != len(columns):
        return lists.fault(name, line, f"{len(fields)} fields, and not the {len(columns)} of {','.join(columns)}")
    values, sound = {}, True
    for text, (column, read) in zip(fields, columns.items()):
        try:
            values[column] = read(text)
        except ValueError as why:
            lists.fault(name, line, f"{column}: {why}")
            sound = False
    if sound:
        lists.records[name].append(Record(name, line, values))
    return None


def read_list(lists: Lists, name: str, text: str) -> None:
    """Reads a list, of which blank lines are not looked at."""
    lines, columns = csv.reader(io.StringIO(text.removeprefix("\ufeff"), newline=""), strict=True), LISTS[name]
    lists.records[name] = []
    try:
        records = ((lines.line_num, fields) for fields in lines if fields)
        line, heading = next(records, (1, []))
        if name == "triples" and heading == [*columns, *MOMENTS]:
            columns = {**columns, **MOMENTS}
        if heading != [*columns]:
            return lists.fault(name, line, f"the heading is not {','.join(columns)}")
        for line, fields in records:
            read_record(lists, name, columns, line, fields)
    except csv.Error as why:
        lists.fault(name, lines.line_num, str(why))
    return None


def read_lists(folder: str) -> Lists:
    """Reads the lists of a folder. The badges may be elsewhere."""
    lists = Lists()
    for name in LISTS:
        try:
            with open(os.path.join(folder, f"{name}.csv"), encoding="utf-8", newline="") as file:
                read_list(lists, name, file.read())
        except FileNotFoundError:
            lists.records[name] = []
            if name != "badges":
                lists.faults.append(f"{name}.csv is not there")
        except UnicodeDecodeError:
            lists.records[name] = []
            lists.faults.append(f"{name}.csv is not UTF-8")
    return lists


def write_list(folder: str, name: str, rows: Iterable[tuple]) -> None:
    """Writes a list."""
    with open(os.path.join(folder, f"{name}.csv"), "w", encoding="ascii", newline="") as file:
        csv.writer(file, lineterminator="\n").writerows([tuple(LISTS[name]), *rows])
