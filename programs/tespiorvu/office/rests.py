"""What is left of a run: the amounts of which the bank refused a part, each with what is done and what is not."""
import json
from collections.abc import Iterable
from itertools import groupby
from typing import NamedTuple

from .money import units
from .runs import Line


def shown(cents: int) -> str:
    """An amount as English has it."""
    return f"{units(cents):,.2f}"


class Rest(NamedTuple):
    """An amount of which a part was refused, and what came of its parts, in cents."""

    account: int
    part: int
    parts: int
    why: str
    done: int
    left: int

    @property
    def text(self) -> str:
        """One line that says all of it."""
        amounts = f"done {shown(self.done)} of {shown(self.done + self.left)}, left {shown(self.left)}"
        if self.parts > 1:
            return f"account {self.account}: part {self.part} of {self.parts} was refused ({self.why}); {amounts}"
        return f"account {self.account}: it was refused ({self.why}); {amounts}"


def why_of(reply: str) -> str:
    """Why the bank refused a transfer, by its reply."""
    try:
        found = json.loads(reply)
    except ValueError:
        return reply
    return f"{found['name']}, rule {found['rule']}" if {"name", "rule"} <= set(found) else reply


def rests_of(lines: Iterable[Line]) -> list[Rest]:
    """The amounts of a run of which a part was refused, by account. The parts after that one were not sent."""
    found = list[Rest]()
    for account, group in groupby(sorted(lines, key=lambda it: (it.account, it.part)), key=lambda it: it.account):
        parts = list(group)
        first = next((it for it in parts if it.state == "refused"), None)
        if first is not None:
            done = sum(it.amount for it in parts if it.state == "done")
            left = sum(it.amount for it in parts) - done
            found.append(Rest(account, first.part, first.parts, why_of(first.reply), done, left))
    return found
