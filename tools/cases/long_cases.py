"""Cases that would be too long to be written down. A rule makes their text, in the language of the files of rows/.

`SUBJECTS` has the texts by name.
"""
import json

LINES = 1_000
POST = {"account": 101, "branch": 1, "delta": 60000, "teller": 12}
TRANSFER = {"amount": 20000, "branch": 1, "source": 101, "target": 102, "teller": 12}
CORRECT = {"account": 101, "branch": 1, "delta": 2500, "entry": 1, "other": 0, "teller": 12}
DRAWER_ON = {"branch": 1, "cash": 900, "teller": 12}
MOVE_CASH = {"amount": 5000, "branch": 1, "source": 11, "target": 12}
RELEASED = {"post": POST, "transfer": TRANSFER, "correct": CORRECT, "drawer-on": DRAWER_ON, "move-cash": MOVE_CASH}
# Who asks, for what, and the body as it has to be.
OPERATIONS = (
    ("tess", "/do/post", {"account": 101, "branch": 1, "delta": 2500, "teller": 11}),
    ("tom", "/do/transfer", TRANSFER),
    ("tom", "/do/correct", CORRECT),
    ("tom", "/do/drawer-on", DRAWER_ON),
    ("tom", "/do/drawer-off", {"branch": 1, "counted": 4900, "teller": 12}),
    ("tess", "/do/move-cash", MOVE_CASH),
    ("sue", "/do/new-account", {"account": 103, "branch": 1, "floor": 0}),
    *(("sue", "/do/release", {"beneficiary": 8, "operation": op | {"procedure": name}}) for name, op in RELEASED.items()),
    ("tess", "/do/balance", {"account": 101}),
    ("tess", "/do/statement", {"account": 101, "count": 10, "start": 1}),
    ("tess", "/do/accounts", {"after": 0, "count": 10}),
    ("sue", "/do/proof", {"branch": 1}),
    ("sue", "/do/close-day", {"branch": 1}),
)
# One after the other, each of these is carried out.
COMMANDS = (
    ("carl", "/policy/define-set", {"members": [[1, 101, 101]], "set": 6}),
    ("carl", "/policy/certify", {"procedure": "correct", "set": 6}),
    ("carl", "/policy/grant", {"first": 0, "last": 700, "limit": 0, "procedure": "balance", "set": 2, "user": 9}),
    ("carl", "/policy/revoke", {"procedure": "balance", "set": 2, "user": 9}),
    ("carl", "/policy/withdraw", {"procedure": "correct", "set": 6}),
    ("olga", "/policy/enrol", {"name": "Ann", "officer": False, "user": 10}),
    ("olga", "/policy/appoint", {"procedure": "balance", "user": 10}),
    ("olga", "/policy/dismiss", {"procedure": "balance", "user": 10}),
    ("olga", "/policy/suspend", {"user": 10}),
    ("olga", "/policy/restore", {"user": 10}),
)
# What shows that no operation was carried out, with the replies.
UNTOUCHED = """\
sue POST /do/proof {"branch":1}
200 text
| PROOF BRANCH         1 DAY      1
| TELLER        11         600.00         400.00    7
| TELLER        12           0.00          50.00    8
| TELLERS TOTAL             600.00
| BRANCH BALANCE            600.00
| HISTORY TOTAL               0.00
| OPENING BALANCE           600.00
| VAULT CASH                550.00
| DRAWER CASH               450.00
| OPENING CASH             1000.00
| CASH ENTRIES                0.00
| DIFFERENCES                 0.00
tom release=1 POST /do/post {"account":101,"branch":1,"delta":60000,"teller":12}
403 {"name":"release","rule":5}
tess POST /do/accounts {"after":0,"count":10}
200 text
| ACCOUNTS AFTER         0 LINES     2
|       101         1         500.00
|       102         1           0.00"""


def units(cents):
    """An amount that is not below zero, as reports print it."""
    return f"{cents // 100}.{cents % 100:02}"


def long_statement():
    """Posts of one cent, and the statement that lists all of them."""
    yield "run sample --moment 700"
    yield f"row statement_of_{LINES}_lines"
    for number in range(1, LINES + 1):
        yield 'tess POST /do/post {"account":101,"branch":1,"delta":1,"teller":11}'
        yield f'200 {{"balance":{50_000 + number},"branch":1,"entry":{number}}}'
    yield f'tess POST /do/statement {{"account":101,"count":{LINES},"start":1}}'
    yield "200 text"
    yield f"| STATEMENT ACCOUNT       101 FROM         1 LINES {LINES:5}"
    for number in range(1, LINES + 1):
        yield f"| {number:9}         1 {number:9}        11         700     0.01 {units(50_000 + number):>14}"


class Raw(str):
    """A text that is written as it stands."""


def text_of(value):
    """A value in JSON without spaces; a `Raw` one as it stands."""
    if isinstance(value, dict):
        return "{" + ",".join(f"{text_of(name)}:{text_of(it)}" for name, it in value.items()) + "}"
    if isinstance(value, list):
        return "[" + ",".join(text_of(it) for it in value) + "]"
    return str(value) if isinstance(value, Raw) else json.dumps(value)


def with_a_member_more(value):
    """The body with one member more than it may have, at each place; an interval with one number more."""
    if isinstance(value, dict):
        yield {**value, "note": 1}
    if isinstance(value, list) and not isinstance(value[0], list):
        yield [*value, 1]
    yield from within(value, with_a_member_more)


def with_a_member_less(value):
    """The body without one of its members, or an interval without one of its numbers."""
    if isinstance(value, dict):
        yield from ({other: it for other, it in value.items() if other != name} for name in value)
    if isinstance(value, list):
        yield from ([it for at, it in enumerate(value) if at != left] for left in range(len(value)))
    yield from within(value, with_a_member_less)


def with_a_fraction(value):
    """The body with a point and a zero after one of its numbers."""
    if type(value) is int:
        yield Raw(f"{value}.0")
    yield from within(value, with_a_fraction)


def with_a_number_in_quotes(value):
    """The body with quotes around one of its numbers, or around `false`."""
    if isinstance(value, int):
        yield json.dumps(value)
    yield from within(value, with_a_number_in_quotes)


def with_a_byte_255(value):
    """The body with a byte that is no text: in a name, in a text, or in place of a value."""
    if isinstance(value, dict):
        yield from ({Raw(f'"{it}\\xff"') if it == name else it: value[it] for it in value} for name in value)
    elif isinstance(value, str):
        yield Raw(f'"{value}\\xff"')
    else:
        yield Raw(r"\xff")
    yield from within(value, with_a_byte_255)


def within(value, spoiled):
    """The value with one of what it holds spoiled so."""
    if isinstance(value, dict):
        yield from ({**value, name: bad} for name, it in value.items() for bad in spoiled(it))
    elif isinstance(value, list):
        yield from ([*value[:at], bad, *value[at + 1 :]] for at, it in enumerate(value) for bad in spoiled(it))


SPOILED = (with_a_member_more, with_a_member_less, with_a_fraction, with_a_number_in_quotes, with_a_byte_255)


def spoiled_bodies():
    """Each operation and each command, its body spoiled in one way at each place: fault M6 each, and nothing is changed."""
    yield "run sample --moment 700"
    for spoiled in SPOILED:
        for kind, requests in (("operations", OPERATIONS), ("commands", COMMANDS)):
            yield f"row {kind}_{spoiled.__name__}"
            for badge, path, body in requests:
                for bad in spoiled(body):
                    yield f"{badge} POST {path} {text_of(bad)}"
                    yield '422 {"fault":"M6"}'
            if requests is OPERATIONS:
                yield UNTOUCHED
            else:
                for badge, path, body in requests:
                    yield f"{badge} POST {path} {text_of(body)}"
                    yield f'200 {{"done":"{path[len("/policy/") :]}"}}'


SUBJECTS = {"long-statement": "\n".join(long_statement()), "spoiled-bodies": "\n".join(spoiled_bodies())}
