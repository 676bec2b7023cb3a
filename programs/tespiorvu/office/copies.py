"""The copies that the bank's night hands to the office: the newest one that was checked, and the files of closed years.

They are opened for reading alone, and as files that nobody changes. A copy beside which a log stands is refused, as without the
log it is not the bank. Which year is before which goes by the bank's days, and not by names.
"""
import json
import sqlite3
from collections.abc import Iterator
from contextlib import AbstractContextManager, contextmanager
from dataclasses import dataclass
from functools import cached_property
from pathlib import Path

from .. import bank_file
from ..branch.replay_policy import Command, replayed
from ..files import users_of
from ..policy import Policy, narrowed, policy_of
from .store import Refused

SCHEMA_VERSION = 3
PRESENT, RIGHTS = "present", "rights"
LOGS = ("-wal", "-journal", "-shm")
# Each night has a copy. A day later, and two hours for the night itself, one that is still the newest says that a night failed, or was not.
LATE_SECONDS = 26 * 3_600


@dataclass
class Copy:
    """One copy of the bank, open. `made` is the moment of a copy of the present bank, `exactly` with its fraction; a year's name has
    the dates of its first and last entry. `ended` has the commands that have ended rights since."""

    name: str
    made: int
    bank: sqlite3.Connection
    ended: Path | None = None
    exactly: float = 0.0

    @cached_property
    def policy(self) -> Policy:
        """The policy of the copy, without what it has lost since, so that rights that end, end within a minute."""
        found = policy_of(self.bank)
        if self.ended is None or not self.ended.exists():
            return found
        records = [json.loads(it) for it in self.ended.read_text(encoding="utf-8").splitlines()]
        commands = [Command(it["moment"], "", None, it["command"], it["body"], "") for it in records if it["moment"] >= self.made]
        return narrowed(found, replayed(found, commands))

    @property
    def version(self) -> int:
        """How often the policy was changed."""
        return bank_file.version_of(self.bank)

    def rows(self, text: str, *given: object) -> list[sqlite3.Row]:
        """What a SELECT finds."""
        return self.bank.execute(text, given).fetchall()

    def row(self, text: str, *given: object) -> sqlite3.Row | None:
        """The first row that a SELECT finds."""
        found: sqlite3.Row | None = self.bank.execute(text, given).fetchone()
        return found


@contextmanager
def opened_copy(file: Path, name: str, rights: Path | None = None) -> Iterator[Copy]:
    """A file of a bank, for reading; of the present one with the rights that ended since."""
    if not file.is_file():
        raise Refused("There is no copy of the bank yet ({name}): it comes with the bank's night", name=name)
    if any(file.with_name(file.name + end).exists() for end in LOGS[:2]):
        raise Refused("The copy {name} has a log beside it, so it is not whole", name=name)
    bank = bank_file.opened(file)
    try:
        bank.row_factory = sqlite3.Row
        exactly = file.stat().st_mtime
        made = int(exactly)
        copy = Copy(name, made, bank, rights, exactly)
        found = copy.row("SELECT version FROM bank")
        if found is None or found["version"] != SCHEMA_VERSION:
            raise Refused("The copy {name} is of another schema version", name=name)
        yield copy
    except sqlite3.DatabaseError as error:
        raise Refused("The copy {name} can't be read: {error}", name=name, error=error) from error
    finally:
        bank.close()


def days_of(file: Path) -> int:
    """How many days the branches of a file have together."""
    with opened_copy(file, file.name) as copy:
        return bank_file.days_of(copy.bank)


class Copies:
    """The folder of the copies: `present`, `badges.csv`, `rights` that ended since, and `years` with a file per closed year. The first
    and the last lead to what was handed over at once."""

    def __init__(self, folder: Path) -> None:
        self.folder = folder

    def present(self) -> AbstractContextManager[Copy]:
        """The newest copy that was checked."""
        return opened_copy(self.folder / PRESENT, PRESENT, self.folder / RIGHTS)

    def has_present(self) -> bool:
        """Whether there is a copy yet."""
        return (self.folder / PRESENT).is_file()

    def late_since(self, moment: int) -> int | None:
        """When the newest copy was made, if at this moment it is older than the last night."""
        if not self.has_present():
            return None
        made = int((self.folder / PRESENT).stat().st_mtime)
        return made if moment - made > LATE_SECONDS else None

    def all(self) -> list[AbstractContextManager[Copy]]:
        """Every file of the bank, in the order of time, as they were handed over together."""
        present = (self.folder / PRESENT).resolve()
        years = [it for it in (present.parent / "years").glob("[0-9]*") if it.is_file() and not it.name.endswith(LOGS)]
        years.sort(key=lambda it: (days_of(it), it.name))
        return [*(opened_copy(it, it.name) for it in years), opened_copy(present, PRESENT, self.folder / RIGHTS)]

    def badges(self) -> dict[str, int]:
        """The bank's list of badges, each with its user's number."""
        try:
            return users_of(self.folder / "badges.csv")
        except FileNotFoundError:
            return {}

    def user_of(self, badge: str) -> int | None:
        """The number of the bank's user of a badge."""
        return self.badges().get(badge)
