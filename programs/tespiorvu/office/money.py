"""Amounts: whole cents in every table, units with two places in what people and other programs read."""
import re
from decimal import Decimal

# What one entry of the bank can move at most, in cents.
MOST_PER_ENTRY = 999_999
AMOUNT = re.compile(r"(-?)(\d{1,12})(?:\.(\d{2}))?")


class AmountError(ValueError):
    """A text is no amount."""


def plain(cents: int) -> str:
    """Cents as units for programs: -5 is -0.05."""
    return f"{'-' if cents < 0 else ''}{abs(cents) // 100}.{abs(cents) % 100:02}"


def units(cents: int) -> Decimal:
    """Cents as a number of units, for a sheet: no sign in front of a number makes it a formula."""
    return Decimal(plain(cents))


def cents_of(text: str) -> int:
    """The cents of a text as `plain` writes it, or without places."""
    found = AMOUNT.fullmatch(text.strip())
    if not found:
        raise AmountError(f"{text!r} is no amount: write 1250.00")
    cents = int(found[2]) * 100 + int(found[3] or 0)
    return -cents if found[1] else cents


def parts_of(cents: int) -> list[int]:
    """A positive amount as the parts that one entry each can move: all of them full but the last."""
    full, rest = divmod(cents, MOST_PER_ENTRY)
    return [MOST_PER_ENTRY] * full + ([rest] if rest else [])


def half_up(number: int, divisor: int) -> int:
    """A quotient of numbers that are not negative, rounded to the nearest whole number, and up at one half."""
    return (2 * number + divisor) // (2 * divisor)


def millionths_of(percent: str) -> int:
    """A rate in percent, with at most four places, as millionths: 1.25 is 12500."""
    rate = Decimal(percent)
    millionths = rate * 10_000
    if not rate.is_finite() or rate < 0 or rate > 100 or millionths != millionths.to_integral_value():
        raise AmountError(f"{percent!r} is no rate: 0 to 100, with at most four places")
    return int(millionths)
