"""The settings of an office, a TOML file. What is wrong ends a start, with file, line and an example."""
import re
import tomllib
from collections.abc import Callable
from dataclasses import dataclass, fields
from itertools import pairwise
from pathlib import Path
from typing import Any

from ..procedures import PROCEDURES
from .chart import ChartAccount, account_of_table
from .letterhead import Letterhead, letterhead_of
from .money import AmountError, cents_of, millionths_of
from .settings_text import Place, SettingsError, SettingsText

__all__ = ["OFFICES", "Scheme", "Settings", "SettingsError", "read_settings"]

# What somebody may have beside procedures.
OFFICES = ("officer", "certifier", "keeper", "approver")


@dataclass(frozen=True)
class Scheme:
    """What the accounts of one branch from `low` to `high` get or pay: a rate of interest, or a fee."""

    kind: str
    branch: int
    low: int
    high: int
    account: int
    teller: int
    millionths: int = 0
    cents: int = 0


@dataclass(frozen=True)
class Settings:
    """All of them. `keepers` keep the register and see every name; `approvers` see runs, of whom two approve one; `auditors` see
    rights and controls; `apart` has what must not meet in one hand; `trail` is what the front's trail hands over, `morning` what the night's end does;
    `badge` is the service's own, by which it carries them out. A holder is kept for `years_kept` after their last account."""

    file: Path
    copies: Path
    keepers: frozenset[str]
    approvers: frozenset[str]
    currency: str = "EUR"
    badge: str = "office"
    front: str = "https://bank.branch"
    authority: Path = Path("/etc/bank-office/authority.pem")
    certificate: Path = Path("/etc/bank-office/office.pem")
    key: Path = Path("/etc/bank-office/office.key")
    schemes: tuple[Scheme, ...] = ()
    years_kept: int = 10
    runs: Path = Path("/var/lib/bank-office-runs/runs")
    reasons: Path = Path("/var/lib/bank-office-reasons/reasons")
    letterhead: Letterhead = Letterhead()
    trail: Path = Path("/var/lib/bank-office-trail")
    auditors: frozenset[str] = frozenset()
    apart: tuple[tuple[str, str], ...] = ()
    chart: tuple[ChartAccount, ...] = ()
    morning: Path = Path("/var/lib/bank-office-morning")


PATHS = {"file", "runs", "reasons", "copies", "authority", "certificate", "key", "trail", "morning"}
BADGES = {"keepers", "approvers"}
LISTS = {*BADGES, "auditors"}
NAMES = {field.name for field in fields(Settings)} - {"schemes", "letterhead", "chart"}
NEEDED = {"file", "copies", *BADGES}
SCHEME = {"branch", "low", "high", "account", "teller"}
OWN = {"interest": "rate", "fee": "amount"}
LETTERHEAD, LEDGER = "letterhead", "ledger"
MOST = 999_999_999
BADGE = re.compile(r"[A-Za-z0-9_-][A-Za-z0-9._-]{0,63}")
FRONT = re.compile(r"https://[A-Za-z0-9.-]+(:\d{1,5})?/?")


def path_of(found: object) -> Path:
    """A path from the top of the machine."""
    if not isinstance(found, str) or not found.startswith("/"):
        raise ValueError("is a text, a path that begins with /")
    return Path(found)


def badge_of(found: object) -> str:
    """A badge."""
    if not isinstance(found, str) or not BADGE.fullmatch(found):
        raise ValueError("is a badge: letters, digits, dots, underscores and hyphens")
    return found


def badges_of(found: object) -> frozenset[str]:
    """A list of badges."""
    if not isinstance(found, list) or not all(isinstance(it, str) and BADGE.fullmatch(it) for it in found):
        raise ValueError("is a list of badges")
    return frozenset(found)


def pairs_of(found: object) -> tuple[tuple[str, str], ...]:
    """What must not meet in one hand: pairs of two that differ."""
    known = {*PROCEDURES, *OFFICES}
    pairs = found if isinstance(found, list) else [found]
    for it in pairs:
        if not (isinstance(it, list) and len(it) == 2 and it[0] != it[1] and all(isinstance(one, str) and one in known for one in it)):
            raise ValueError(f"is a list of pairs of {', '.join(sorted(known))}")
    return tuple((one, other) for one, other in pairs)


def currency_of(found: object) -> str:
    """A currency."""
    if not isinstance(found, str) or not re.fullmatch("[A-Z]{3}", found):
        raise ValueError("is a text, three capital letters")
    return found


def front_of(found: object) -> str:
    """The address of the front."""
    if not isinstance(found, str) or not FRONT.fullmatch(found):
        raise ValueError("is a text, an address of https")
    return found


def years_of(found: object) -> int:
    """A number of years."""
    if type(found) is not int or not 0 <= found <= 100:
        raise ValueError("is a number from 0 to 100, without quotes")
    return found


def number_of(found: object) -> int:
    """A number of a branch, an account or a teller."""
    if type(found) is not int or not 1 <= found <= MOST:
        raise ValueError(f"is a number from 1 to {MOST}, without quotes")
    return found


# How each setting is read, by its name.
READ: dict[str, Callable[[object], Any]] = {
    **dict.fromkeys(PATHS, path_of),
    **dict.fromkeys(LISTS, badges_of),
    "apart": pairs_of,
    "badge": badge_of,
    "currency": currency_of,
    "front": front_of,
    "years_kept": years_of,
}


def value_of(text: SettingsText, place: Place, read: Callable[[object], Any], found: object) -> Any:
    """A value, as it is read."""
    try:
        return read(found)
    except (AmountError, ArithmeticError):
        text.fault(place, f"{place.name} is an amount or a rate with a point, and not {found!r}")
    except ValueError as error:
        text.fault(place, f"{place.name} {error}, and not {found!r}")


def scheme_of(text: SettingsText, kind: str, number: int, record: object) -> Scheme:
    """One table `[[interest]]` or `[[fee]]`."""
    own, here = OWN[kind], Place("", kind, number)
    names = SCHEME | {own}
    if not isinstance(record, dict):
        text.fault(here, f"it is a table, with {', '.join(sorted(names))}")
    for name in sorted(set(record) - names):
        text.unknown(here._replace(name=name), names)
    for name in sorted(names - set(record)):
        text.fault(here._replace(name=name), f"it lacks {name}")
    numbers = {name: value_of(text, here._replace(name=name), number_of, record[name]) for name in sorted(SCHEME)}
    if numbers["low"] > numbers["high"]:
        text.fault(here._replace(name="low"), f"low {numbers['low']} is above high {numbers['high']}")
    if kind == "interest":
        return Scheme(kind, **numbers, millionths=value_of(text, here._replace(name=own), lambda it: millionths_of(str(it)), record[own]))
    return Scheme(kind, **numbers, cents=value_of(text, here._replace(name=own), lambda it: cents_of(str(it)), record[own]))


def schemes_of(text: SettingsText, kind: str, records: object) -> list[Scheme]:
    """All tables of a kind: those of a branch have one teller, and no account twice."""
    if not isinstance(records, list):
        text.fault(Place("", kind), f"begin it by [[{kind}]], with two brackets")
    schemes = [scheme_of(text, kind, number, record) for number, record in enumerate(records)]
    order = sorted(enumerate(schemes), key=lambda it: (it[1].branch, it[1].low))
    for (_, one), (number, other) in pairwise(order):
        if one.branch == other.branch and other.low <= one.high:
            text.fault(Place("low", kind, number), f"account {other.low} of branch {other.branch} has another [[{kind}]] already")
        if one.branch == other.branch and other.teller != one.teller:
            text.fault(Place("teller", kind, number), f"branch {other.branch} has teller {one.teller} in another [[{kind}]]")
    return schemes


def read_settings(path: Path) -> Settings:
    """The settings of a file. What is wrong is refused by its line."""
    text = SettingsText(path)
    try:
        found = tomllib.loads(text.text)
    except ValueError as error:
        text.no_toml(error)
    try:
        letterhead = letterhead_of(found.pop("letterhead", {}))
    except ValueError as error:
        text.fault(Place("", LETTERHEAD), str(error))
    try:
        chart = tuple(account_of_table(it) for it in found.pop(LEDGER, []))
    except ValueError as error:
        text.fault(Place("", LEDGER), str(error))
    schemes = [scheme for kind in OWN for scheme in schemes_of(text, kind, found.pop(kind, []))]
    for name in sorted(set(found) - NAMES):
        text.unknown(Place(name), NAMES | set(OWN))
    for name in sorted(NEEDED - set(found)):
        text.fault(Place(name), f"it lacks {name}")
    values = {name: value_of(text, Place(name), READ[name], it) for name, it in found.items()}
    own = values.get("badge", Settings.badge)
    for name in sorted(BADGES):
        if own in values[name]:
            text.fault(Place(name), f"{name} has {own}, which is the service's own badge and nobody's who approves or keeps")
    return Settings(**values, schemes=tuple(schemes), letterhead=letterhead, chart=chart)
