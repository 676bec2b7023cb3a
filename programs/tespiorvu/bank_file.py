"""A file of the bank that nobody serves: a copy of a night, or the file of a closed year. It is only read, as one that
nobody changes meanwhile. The name of a copy's folder is the moment of the copy.
"""
import re
from datetime import datetime
from pathlib import Path
from sqlite3 import Connection, connect

MOMENT = re.compile(r"(\d{8}T\d{6})(\.\d+)?Z")


def uri(file: Path) -> str:
    """The address by which SQLite opens a file for reading, as one that nobody changes."""
    return f"{file.resolve().as_uri()}?mode=ro&immutable=1"


def opened(file: Path) -> Connection:
    """The file, for reading alone."""
    return connect(uri(file), uri=True)


def attach(bank: Connection, name: str, file: Path) -> None:
    """Attaches a second file, for reading alone, by a name."""
    bank.execute("ATTACH ? AS ?", (uri(file), name))


def number_of(bank: Connection, query: str) -> int:
    """The number that a query finds."""
    return int(bank.execute(query).fetchone()[0])


def version_of(bank: Connection) -> int:
    """How often the policy was changed."""
    return number_of(bank, "SELECT policy FROM bank")


def days_of(bank: Connection) -> int:
    """How many days the branches have together: in a later file as many or more."""
    return number_of(bank, "SELECT coalesce(sum(day), 0) FROM branches")


def moment_of(file: Path) -> float | None:
    """When a copy of the night was made, with its part of a second; None of another file."""
    found = MOMENT.match(file.resolve().parent.name)
    return datetime.fromisoformat(f"{found[1]}Z").timestamp() + float(found[2] or 0) if found else None


def checked(copies: Path) -> list[Path]:
    """The folders of the copies that were checked, the oldest first."""
    return sorted(it for it in copies.iterdir() if it.name.endswith("Z-checked"))
