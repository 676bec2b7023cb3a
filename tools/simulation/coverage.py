"""What occurred in lives: rules, forms, commands, faults, statuses and exits; and what can occur in no life, with the
reason."""
import re
from collections import Counter
from collections.abc import Iterator

from model.bank import COMMANDS, OPERATIONS, RULES
from simulation.ledger import LongBank
from simulation.messages import Message, failure
from simulation.table_rows import rows_of_bank

DENIED = re.compile(rb'\r\n\r\n\{"name":"[a-z ]+","rule":(\d+)\}')
FAULT = re.compile(rb'\r\n\r\n\{"fault":"([MF]\d)"\}')
STATUSES = (200, 400, 403, 404, 409, 413, 422, 431, 501, 503)
EXITS = (
    "0",
    "1 lists: ..",
    "1 books: ..",
    "1 policy: ..",
    "1 year: ..",
    "2",
    "3 file: not read",
    "3 file: not a bank",
    "3 file: other version",
    "3 file: not empty",
    "3 stream: broken",
    "3 stream: cut",
    "3 memory",
    "killed",
    "terminated",
)
FORMS = {
    "entry": {1: "post", 2: "leg", 3: "correction"},
    "line": {1: "with an entry", 2: "on", 3: "off", 4: "move", 5: "difference"},
}
# What only a file can reach that was prepared, and why.
PREPARED = {
    "rule 16 full": "100,000 slips, releases or accounts, or numbers near 999,999,999",
    "fault F2": "a policy that was changed 999,999,999,999 times",
}


def wanted() -> Iterator[str]:
    """The name of each thing that has to occur."""
    yield from (f"rule {number} {name}" for number, name in enumerate(RULES, 1))
    yield from (f"operation {it}" for it in OPERATIONS)
    yield from (f"command {it}" for it in COMMANDS)
    yield from ("session opened", "session ended", "listing of the policy", "slip sent again", "release used", "years closed", "bits flipped")
    yield from (f"{what} {name}" for what, names in FORMS.items() for name in names.values())
    yield from (f"fault M{it}" for it in range(1, 7))
    yield from (f"fault F{it}" for it in range(1, 5))
    yield from (f"status {it}" for it in STATUSES)
    yield from (f"exit {it}" for it in EXITS)


NAMES = {"session": "session opened", "end": "session ended", "listing": "listing of the policy"}


class Seen:
    """How often each thing occurred."""

    def __init__(self) -> None:
        self.counts: Counter[str] = Counter()

    def add(self, name: str, count: int = 1) -> None:
        """Something occurred."""
        self.counts[name] += count

    def add_reply(self, message: Message, reply: bytes) -> None:
        """A reply came."""
        self.counts["requests"] += 1
        self.counts[f"status {reply[9:12].decode()}"] += 1
        denied, fault = DENIED.search(reply), FAULT.search(reply)
        if fault:
            self.counts[f"fault {fault[1].decode()}"] += 1
        if denied:
            number = int(denied[1])
            self.counts[f"rule {number} {RULES[number - 1]}"] += 1
        if reply.startswith(b"HTTP/1.1 200") and not message.fault and not failure(reply):
            kind = message.asked.kind
            self.counts[NAMES.get(kind) or f"{'command' if kind in COMMANDS else 'operation'} {kind}"] += 1

    def add_exit(self, status: int, errors: bytes) -> None:
        """A program ended."""
        named = {-9: "killed", -15: "terminated"}
        line = errors.decode(errors="replace").strip()
        line = f"{line.split(':')[0]}: .." if status == 1 else line
        self.counts[f"exit {named.get(status) or (f'{status} {line}' if status in (1, 3) else status)}"] += 1

    def add_bank(self, bank: LongBank) -> None:
        """A life ended with this bank."""
        rows = rows_of_bank(bank)
        for name, place, table in (("entry", 9, "entries"), ("line", 4, "lines")):
            for form, count in Counter(row[place] for row in rows[table]).items():
                self.counts[f"{name} {FORMS[name][int(form)]}"] += count
        self.counts["release used"] += len(bank.used)

    def table(self) -> tuple[list[str], list[str]]:
        """The lines of the table, and the names of what is missing."""
        missing = [it for it in wanted() if not self.counts[it] and it not in PREPARED]
        lines = [f"{self.counts[it]:9} {it}" + (f" (a prepared file: {PREPARED[it]})" if it in PREPARED else "") for it in wanted()]
        return lines, missing
