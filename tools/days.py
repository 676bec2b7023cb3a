"""Checks that follow one another, as a day does: each begins where the one before it ended. So after one that fails the rest is not
made, and has failed, too; one that was late has its second try in a day that begins anew, after those before it."""
from collections.abc import Callable, Sequence
from typing import Any

from checks import BY_WAITING, Check, Late, Report, is_by_chance, is_chosen, outcome


def up_to_last(names: Sequence[str], only: list[str]) -> list[str]:
    """The names of a day up to the last that is asked for."""
    return list(names[: max((number for number, it in enumerate(names, 1) if is_chosen(it, only)), default=0)])


class Days:
    """Days that begin alike, one at a time. `late` are errors of a library that was kept waiting; a day that failed is shown to
    `look` before it ends."""

    def __init__(
        self, begin: Callable[[], Any], late: Sequence[type[Exception]] = (), look: Callable[[Any], None] = lambda day: None
    ) -> None:
        self.begin, self.late, self.look = begin, tuple(late), look
        self.day: Any = None

    def end(self) -> None:
        """Ends the day, if one has begun."""
        day, self.day = self.day, None
        if day is not None:
            day.close()

    def make(self, checks: Sequence[Check], anew: bool) -> str | None:
        """Makes checks one after another over the day, or over another one, and returns the note of the last."""
        try:
            if anew:
                self.end()
                self.day = self.begin()
            return [it.make(self.day) for it in checks][-1]
        except self.late as error:
            raise Late(str(error)) from error

    def report(self, report: Report, checks: Sequence[Check], number: int) -> bool:
        """Makes the check of this number, and those before it once more where it was late. Whether it passed."""
        check, may_be_late = checks[number], is_by_chance(len(report.late) + 1, len(checks))
        found = outcome(lambda: self.make([check], anew=number == 0))
        report.take(check, found, may_be_late)
        if may_be_late and isinstance(found[1], BY_WAITING):
            found = outcome(lambda: self.make(checks[: number + 1], anew=True))
            report.add_again(check.name, report.late[-1][1], found)
        return found[1] is None

    def make_all(self, report: Report, checks: Sequence[Check]) -> None:
        """Makes the checks of a day until one fails. What one lacks is left out."""
        able = report.able(checks)
        try:
            for number in range(len(able)):
                if not self.report(report, able, number):
                    if self.day is not None:
                        self.look(self.day)
                    for it in able[number + 1 :]:
                        report.add(it.name, "not made, as one before it failed")
                    return
        finally:
            self.end()
