"""The text of the settings: at which line a setting stands, and how what is wrong with it is said, with an example."""
import difflib
import re
from pathlib import Path
from typing import NamedTuple, NoReturn

# How each setting is written, by its name; of a table's, by the table's name, too.
EXAMPLES = {
    "file": '"/var/lib/bank-office/office"',
    "copies": '"/var/lib/bank-office-copies"',
    "runs": '"/var/lib/bank-office-runs/runs"',
    "authority": '"/etc/bank-office/authority.pem"',
    "certificate": '"/etc/bank-office/office.pem"',
    "key": '"/etc/bank-office/office.key"',
    "keepers": '["olga"]',
    "approvers": '["carl", "cora", "sue"]',
    "currency": '"EUR"',
    "badge": '"office"',
    "front": '"https://bank.branch"',
    "years_kept": "10",
    "reasons": '"/var/lib/bank-office-reasons/reasons"',
    "trail": '"/var/lib/bank-office-trail"',
    "morning": '"/var/lib/bank-office-morning"',
    "auditors": '["olga"]',
    "apart": '[["post", "release"]]',
    "branch": "1",
    "low": "10001",
    "high": "19999",
    "account": "900",
    "teller": "90",
    "rate": '"1.25"',
    "amount": '"2.50"',
}
SINGLE = ("letterhead",)
HEADING = re.compile(r"""\s*\[\[?\s*["']?([\w-]+)["']?\s*\]\]?""")
NAME = re.compile(r"""\s*["']?([\w-]+)["']?\s*=""")
AT_LINE = re.compile(r"(.*) \(at line (\d+), column \d+\)")


class SettingsError(Exception):
    """The settings can't be used as they stand."""


class Place(NamedTuple):
    """A setting of the top, or of a table: of several of one name, the first has number 0."""

    name: str
    table: str = ""
    number: int = 0


def places_of(text: str) -> dict[Place, int]:
    """The line of each setting, and, with no name, of each table."""
    found, table, number, counts = dict[Place, int](), "", 0, dict[str, int]()
    for line, content in enumerate(text.splitlines(), 1):
        if heading := HEADING.match(content):
            table = heading[1]
            number = counts[table] = counts.get(table, -1) + 1
            found[Place("", table, number)] = line
        elif name := NAME.match(content):
            found.setdefault(Place(name[1], table, number), line)
    return found


def heading_of(table: str) -> str:
    """The heading of a table: of all but those of SINGLE there may be several."""
    return f"[{table}]" if table in SINGLE else f"[[{table}]]"


class SettingsText:
    """The text of a file of settings."""

    def __init__(self, path: Path) -> None:
        self.path = path
        try:
            self.text = path.read_text(encoding="utf-8")
        except (OSError, ValueError) as error:
            raise SettingsError(f"{path}: it can't be read: {error}") from error
        self.places = places_of(self.text)

    def fault(self, place: Place, why: str) -> NoReturn:
        """Refuses a setting, by its line and with an example. One that is not there has the line of its table, if it is of one."""
        line = self.places.get(place) or self.places.get(place._replace(name=""))
        where = f"{self.path}, line {line}" if line else str(self.path)
        example = f"; write {place.name} = {EXAMPLES[place.name]}" if place.name in EXAMPLES else ""
        table = f"{heading_of(place.table)} " if place.table else ""
        raise SettingsError(f"{where}: {table}{why}{example}")

    def unknown(self, place: Place, known: set[str]) -> NoReturn:
        """Refuses a name that nothing has, with the name that is nearest."""
        near = difflib.get_close_matches(place.name, sorted(known), 1) or [", ".join(sorted(known))]
        self.fault(place, f"nothing is called {place.name}: there is {near[0]}")

    def no_toml(self, error: ValueError) -> NoReturn:
        """Refuses a text that is no TOML, at its line, with how the setting of that line is written."""
        found = AT_LINE.fullmatch(str(error))
        if not found:
            raise SettingsError(f"{self.path}: {error}") from error
        line = int(found[2])
        name = next((it.name for it, at in self.places.items() if at == line), "")
        example = f"; write {name} = {EXAMPLES[name]}" if name in EXAMPLES else ""
        raise SettingsError(f"{self.path}, line {line}: {found[1]}{example}") from error
