"""What the office knows of the bank is what the bank's own pages say: the numbers of procedures, and tables."""
import re
import sqlite3
from pathlib import Path

from office.tests.bank_file import TABLES
from tespiorvu.procedures import NUMBERS

TOP = Path(__file__).resolve().parents[2]
PROCEDURE_LINE = re.compile(r"^\| (\d+) \| ([a-z-]+) \|", re.MULTILINE)
# A column of the table of tables may have a bar of its own, after a backslash.
TABLE_LINE = re.compile(r"^\| ([a-z_]+) \| ((?:[^|\\]|\\\|)+) \|", re.MULTILINE)
COLUMN = re.compile(r"([a-z_]+)(?:1 to [a-z_]+(\d))?")


def columns_of(text: str) -> list[str]:
    """The columns of a table, as the page names them; `member1 to member8` is eight."""
    return [f"{name}{place}" if last else name for name, last in COLUMN.findall(text) for place in range(1, int(last or 1) + 1)]


def test_procedures_are_those_of_the_bank() -> None:
    numbered = PROCEDURE_LINE.findall((TOP / "docs/OPERATIONS.md").read_text(encoding="utf-8"))
    assert NUMBERS == {name: int(number) for number, name in numbered}


def test_the_tables_of_the_tests_are_those_of_the_bank() -> None:
    text = (TOP / "docs/TABLES.md").read_text(encoding="utf-8")
    described = {name: columns_of(columns) for name, columns in TABLE_LINE.findall(text)}
    with sqlite3.connect(":memory:") as bank:
        bank.executescript(TABLES)
        names = [name for (name,) in bank.execute("SELECT name FROM sqlite_master WHERE type = 'table'")]
        columns = {name: [row[1] for row in bank.execute(f"PRAGMA table_info({name})")] for name in names}
    assert columns == {name: described[name] for name in names}
