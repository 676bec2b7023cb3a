"""Cards, by what the front's trail hands over each night: the certificates that are valid, and those that were used, from when to when."""
from pathlib import Path
from typing import NamedTuple

from ..files import rows_of

CARDS = "cards.csv"


class Card(NamedTuple):
    """One card of a badge: its serial number, whether it is valid, and the moments of its first and last use, or 0."""

    badge: str
    serial: str
    is_valid: bool
    first: int
    last: int


def cards_in(folder: Path) -> list[Card]:
    """All cards that are valid, or were used."""
    try:
        rows = rows_of(folder / CARDS)
    except FileNotFoundError:
        return []
    found = [Card(it["badge"], it["serial"], it["valid"] == "1", int(it["first"]), int(it["last"])) for it in rows]
    return sorted(found)


def several(cards: list[Card]) -> list[tuple[str, int, str]]:
    """The badges of which more than one card is valid: how many, and their serial numbers."""
    valid = dict[str, list[str]]()
    for it in cards:
        if it.is_valid:
            valid.setdefault(it.badge, []).append(it.serial)
    return [(badge, len(serials), ", ".join(serials)) for badge, serials in sorted(valid.items()) if len(serials) > 1]
