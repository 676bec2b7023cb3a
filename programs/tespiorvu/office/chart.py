"""The accountant's accounts: which account of the general ledger each ledger of the bank is, by the tables [[ledger]] of the settings."""
from dataclasses import dataclass
from typing import Any

KINDS = ("customer", "vault", "drawer", "differences", "branch", "opening")
MOST = 999_999_999


@dataclass(frozen=True)
class ChartAccount:
    """An account of the general ledger: of which kind of the bank's ledgers it is, and of which of their numbers."""

    of: str
    number: str
    name: str
    low: int = 0
    high: int = MOST


def account_of_table(record: dict[str, Any]) -> ChartAccount:
    """An account of a table. What is wrong in it is a ValueError with a sentence."""
    texts, numbers = {"of", "number", "name"}, {"low", "high"}
    if not texts <= set(record) <= texts | numbers or not all(isinstance(record[it], str) for it in texts):
        raise ValueError("it has of, number and name, each a text, and may have low and high")
    if any(type(record[it]) is not int or not 0 <= record[it] <= MOST for it in numbers & set(record)):
        raise ValueError(f"low and high are whole numbers from 0 to {MOST}")
    if record["of"] not in KINDS:
        raise ValueError(f"of is {', '.join(KINDS)}, and not {record['of']!r}")
    if not record["number"].isalnum():
        raise ValueError(f"number has digits and letters alone, and not {record['number']!r}")
    return ChartAccount(**record)
