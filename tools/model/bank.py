"""The sample bank a second time: what it answers to each request, written down from the rules in docs/ alone.

It shares nothing with the crates. Its World is plain lists, each balance and each cash a sum over them, each rule a
sentence of docs/RULES.md, and what an operation leaves is judged over the World after it. Tools compare the replies of
the program with its own.
"""
import re
from collections.abc import Iterable, Mapping, Sequence
from typing import NamedTuple, Protocol, TypedDict, TypeVar, cast

# The lowest and the highest value of a number; what a member of a body is: such a number, or what else, by a name.
Range = tuple[int, int]
Form = Range | str
# A kind with a key, and a kind with the lowest and the highest key.
Item = tuple[str, int]
Interval = tuple[str, int, int]
# The members of a reply.
Members = Mapping[str, int | str]

BADGES = {1: "olga", 2: "carl", 3: "cora", 7: "tess", 8: "tom", 9: "sue"}
NAMES = {1: "Olga", 2: "Carl", 3: "Cora", 7: "Tess", 8: "Tom", 9: "Sue"}
# The moment that every message of a stream bears, and those that one bears whose moment moves on.
MOMENT = 700
MOMENTS = (MOMENT, 701, 702, 750, 800)
KINDS = ["account", "teller", "branch", "history", "drawer", "vault"]
PROCEDURES = (
    "post transfer correct drawer-on drawer-off move-cash new-account release balance statement accounts proof close-day"
).split()
# What the supervisors of drawn banks do alone, and what their tellers do.
OF_SUPERVISORS_ALONE = ("new-account", "release", "proof", "close-day")
OF_TELLERS = [it for it in PROCEDURES if it not in OF_SUPERVISORS_ALONE]
RULES = (
    "identity, not certified, no triple, limit, release, unknown, branch, drawer, second person, entry, floor, cash, range, "
    "taken, day, full, officer, certifier, separation, policy unknown, policy state, slip"
).split(", ")
# Rules of who may do what; the others are conflicts with what is there.
FORBIDDEN = {1, 2, 3, 4, 5, 8, 9, 17, 18, 19}
PHRASES = {200: "OK", 403: "Forbidden", 409: "Conflict", 422: "Unprocessable Entity"}

MOST_KEY = 999_999_999
MOST_CENTS = 999_999_999_999
MOST_DAY = 999_999
MOST_MOMENT = 99_999_999_999
MOST_ACCOUNTS = MOST_RELEASES = MOST_SLIPS = 100_000
MOST_SETS = 9_999
MOST_RELATIONS = MOST_TRIPLES = 1_000

KEY = (1, MOST_KEY)
KEY_OR_NONE = (0, MOST_KEY)
USER = (1, 9_999)
DELTA = (-999_999, 999_999)
AMOUNT = (1, 999_999)
CASH = (0, MOST_KEY)
COUNT = (1, 1_000)
MOMENT_OF_TRIPLE = (0, MOST_MOMENT)

# The members of each operation, and their ranges.
OPERATIONS: dict[str, dict[str, Form]] = {
    "post": {"account": KEY, "branch": KEY, "delta": DELTA, "teller": KEY},
    "transfer": {"amount": AMOUNT, "branch": KEY, "source": KEY, "target": KEY, "teller": KEY},
    "correct": {"account": KEY, "branch": KEY, "delta": DELTA, "entry": KEY, "other": KEY_OR_NONE, "teller": KEY},
    "drawer-on": {"branch": KEY, "cash": CASH, "teller": KEY},
    "drawer-off": {"branch": KEY, "counted": (0, MOST_CENTS), "teller": KEY},
    "move-cash": {"amount": (1, MOST_KEY), "branch": KEY, "source": KEY_OR_NONE, "target": KEY_OR_NONE},
    "new-account": {"account": KEY, "branch": KEY, "floor": (-MOST_KEY, 0)},
    "release": {"beneficiary": USER, "operation": "operation"},
    "balance": {"account": KEY},
    "statement": {"account": KEY, "count": COUNT, "start": KEY},
    "accounts": {"after": KEY_OR_NONE, "count": COUNT},
    "proof": {"branch": KEY},
    "close-day": {"branch": KEY},
}
# The members that may not be equal.
APART = {"transfer": ("source", "target"), "move-cash": ("source", "target"), "correct": ("account", "other")}
RELEASABLE = {"post", "transfer", "correct", "drawer-on", "move-cash"}
# The operations that write, for which alone a slip is read.
TAKES_SLIP = {"post", "transfer", "correct", "drawer-on", "drawer-off", "move-cash", "new-account", "release", "close-day"}

# The members of each command of the policy; the range of a number, or what else the member is.
COMMANDS: dict[str, dict[str, Form]] = {
    "define-set": {"members": "members", "set": KEY},
    "certify": {"procedure": "procedure", "set": KEY},
    "withdraw": {"procedure": "procedure", "set": KEY},
    "grant": {"limit": CASH, "procedure": "procedure", "set": KEY, "user": USER},
    "revoke": {"procedure": "procedure", "set": KEY, "user": USER},
    "appoint": {"procedure": "procedure", "user": USER},
    "dismiss": {"procedure": "procedure", "user": USER},
    "enrol": {"name": "name", "officer": "truth", "user": USER},
    "suspend": {"user": USER},
    "restore": {"user": USER},
}
# What a grant has beside them: both, or neither.
OF_MOMENTS: dict[str, Form] = {"first": MOMENT_OF_TRIPLE, "last": MOMENT_OF_TRIPLE}
OF_OFFICERS = {"appoint", "dismiss", "enrol", "suspend", "restore"}


class Body(TypedDict, total=False):
    """The members of bodies, of operations and of commands: `is_operation` and `is_command` say whether one has its own."""

    account: int
    after: int
    amount: int
    beneficiary: int
    branch: int
    cash: int
    count: int
    counted: int
    delta: int
    entry: int
    first: int
    floor: int
    last: int
    limit: int
    members: list[list[int]]
    name: str
    officer: bool
    operation: "Body"
    other: int
    procedure: str
    set: int
    source: int
    start: int
    target: int
    teller: int
    user: int


class Question(Protocol):
    """A request as a bank reads it: of a kind, by a user, at a moment, in a session, which may name a release and bear a slip."""

    @property
    def kind(self) -> str:
        ...

    @property
    def user(self) -> int:
        ...

    @property
    def session(self) -> int:
        ...

    @property
    def body(self) -> Body:
        ...

    @property
    def release(self) -> int:
        ...

    @property
    def moment(self) -> int:
        ...

    @property
    def slip(self) -> int:
        ...


class Entry(NamedTuple):
    branch: int
    number: int
    account: int
    turn: int
    teller: int
    delta: int
    moment: int
    day: int
    user: int
    is_correction: bool
    partner: int
    undoes: int


class Line(NamedTuple):
    branch: int
    number: int
    place: int
    amount: int
    form: str
    moment: int
    day: int
    user: int


class Proof(NamedTuple):
    """What the closing of a branch's day writes."""

    branch: int
    day: int
    entries: int
    balance: int
    cash: int


class Triple(NamedTuple):
    """What a triple says of its user, procedure and set: it counts from its first moment to its last."""

    limit: int
    first: int = 0
    last: int = MOST_MOMENT

    def counts_at(self, moment: int) -> bool:
        return self.first <= moment <= self.last


class Release(NamedTuple):
    giver: int
    day: int
    operation: Body


class Slip(NamedTuple):
    """What a user's slip was taken for, and the members of the reply."""

    kind: str
    body: Body
    told: Members


# ---- bodies


def is_whole(value: object, low: int, high: int) -> bool:
    """Whether a value of JSON is a whole number in this range."""
    return type(value) is int and low <= value <= high


def is_member_of_set(value: object) -> bool:
    """Whether a value is an interval of a set: a kind, the lowest and the highest key."""
    if type(value) is not list or len(value) != 3 or not is_whole(value[0], 1, len(KINDS)):
        return False
    return all(is_whole(it, *KEY) for it in value[1:]) and value[1] <= value[2]


def fits(value: object, form: Form) -> bool:
    """Whether a value is of this form."""
    if isinstance(form, tuple):
        return is_whole(value, *form)
    if form == "members":
        return type(value) is list and 1 <= len(value) <= 32 and all(map(is_member_of_set, value))
    if form == "procedure":
        return value in PROCEDURES
    if form == "name":
        return type(value) is str and re.fullmatch(r"[ -~]{1,20}", value) is not None
    return is_releasable(value) if form == "operation" else type(value) is bool


def is_operation(procedure: str, body: object) -> bool:
    """Whether the body states an operation of this procedure."""
    forms = OPERATIONS[procedure]
    if type(body) is not dict or set(body) != set(forms):
        return False
    one, other = APART.get(procedure, (None, None))
    return all(fits(body[it], forms[it]) for it in forms) and (one is None or body[one] != body[other])


def is_releasable(value: object) -> bool:
    """Whether a value is an operation that a release may be for, with its procedure."""
    if type(value) is not dict or value.get("procedure") not in RELEASABLE:
        return False
    return is_operation(value["procedure"], {name: it for name, it in value.items() if name != "procedure"})


def is_command(command: str, body: object) -> bool:
    """Whether the body states this command of the policy."""
    if type(body) is not dict:
        return False
    has_moments = command == "grant" and any(it in body for it in OF_MOMENTS)
    forms = {**COMMANDS[command], **OF_MOMENTS} if has_moments else COMMANDS[command]
    if set(body) != set(forms) or not all(fits(body[it], forms[it]) for it in forms):
        return False
    return not has_moments or body["first"] <= body["last"]


def with_members(body: Body, more: Body) -> Body:
    """A body with some more members, or others."""
    merged = body.copy()
    merged.update(more)
    return merged


def without_member(body: Body, name: str) -> Body:
    """A body without a member."""
    return cast(Body, {it: value for it, value in body.items() if it != name})


def numbers_in(body: Body, names: Iterable[str]) -> list[int]:
    """The numbers that a body has by these names, all of which it has."""
    numbers = cast(Mapping[str, int], body)
    return [numbers[it] for it in names]


def numbers_of(body: Body, names: Iterable[str]) -> list[int]:
    """The numbers that a body has by these names, if it has them, but for 0."""
    return [it for it in numbers_in(body, [it for it in names if it in body]) if it]


# ---- what an operation touches, and its amount


def drawer_items(teller: int) -> list[Item]:
    return [("teller", teller), ("drawer", teller)]


def touched(procedure: str, body: Body) -> list[Item]:
    """The items that an operation touches, each a kind and a key."""
    if procedure == "release":
        return touched(body["operation"]["procedure"], body["operation"])
    branch = [("branch", body["branch"])] if "branch" in body else []
    if procedure in ("balance", "new-account", "statement"):
        return [("account", body["account"]), *branch]
    if procedure == "accounts":
        return []
    if procedure in ("proof", "close-day"):
        return [*branch, ("history", body["branch"]), ("vault", body["branch"])]
    if procedure in ("drawer-on", "drawer-off"):
        return [*branch, *drawer_items(body["teller"]), ("vault", body["branch"])]
    if procedure == "move-cash":
        places = [body["source"], body["target"]]
        vault = [("vault", body["branch"])] if 0 in places else []
        return [*branch, *(item for it in places if it for item in drawer_items(it)), *vault]
    accounts = [("account", it) for it in accounts_of(procedure, body)]
    return [*accounts, *branch, ("history", body["branch"]), *drawer_items(body["teller"])]


def accounts_of(procedure: str, body: Body) -> list[int]:
    """The accounts that an operation names."""
    return numbers_of(body, {"transfer": ["source", "target"], "correct": ["account", "other"]}.get(procedure, ["account"]))


def tellers_of(body: Body) -> list[int]:
    """The tellers that an operation names; of a move of cash those whose drawers it is between."""
    return numbers_of(body, ["source", "target"] if "teller" not in body and "source" in body else ["teller"])


def amount_of(procedure: str, body: Body) -> int:
    """What a limit is compared with."""
    if procedure == "release":
        return amount_of(body["operation"]["procedure"], body["operation"])
    if procedure in ("post", "correct"):
        return abs(body["delta"])
    if procedure == "new-account":
        return -body["floor"]
    if procedure == "drawer-on":
        return body["cash"]
    return body["amount"] if procedure in ("transfer", "move-cash") else 0


# ---- the bank


class Bank:
    """The sample bank, with two drawers put on and a session of each user open."""

    def __init__(self) -> None:
        self.sessions = {user: 1 for user in BADGES}
        self.open = set(BADGES)
        # the name of each
        self.users = dict(NAMES)
        self.officers = {1}
        self.suspended: set[int] = set()
        self.certifiers = {(user, procedure) for user in (2, 3) for procedure in PROCEDURES}
        self.sets = opened_sets()
        self.relations = opened_relations()
        self.triples = opened_triples()
        # by user and number
        self.releases: dict[tuple[int, int], Release] = {}
        self.used: set[tuple[int, int]] = set()
        # by user and number, too
        self.slips: dict[tuple[int, int], Slip] = {}
        # the account's home, opening and floor; the teller's branch and opening; the branch's opening and cash
        self.accounts = {101: (1, 50_000, 0), 102: (1, 0, 0), 201: (2, 30_000, 0)}
        self.tellers = {11: (1, 60_000), 12: (1, 0), 21: (2, 20_000)}
        self.branches = {1: (60_000, 100_000), 2: (20_000, 50_000)}
        self.days = {1: 1, 2: 1}
        self.entries: Sequence[Entry] = []
        self.lines: Sequence[Line] = [
            *(Line(1, 1, 0, -40_000, "on", 0, 1, 7), Line(1, 2, 11, 40_000, "on", 0, 1, 7)),
            *(Line(1, 3, 0, -5_000, "on", 0, 1, 8), Line(1, 4, 12, 5_000, "on", 0, 1, 8)),
        ]
        self.proofs: Sequence[Proof] = []
        # how often the policy was changed
        self.version = 0

    # -- what is added to the rows

    def add_entry(self, entry: Entry) -> None:
        """Adds an entry."""
        self.entries = [*self.entries, entry]

    def add_line(self, line: Line) -> None:
        """Adds a cash line."""
        self.lines = [*self.lines, line]

    def add_slip(self, user: int, number: int, slip: Slip) -> None:
        """Adds a slip of a user's."""
        self.slips = {**self.slips, (user, number): slip}

    # -- numbers of rows

    def entry_count(self, branch: int) -> int:
        return len(self.entries_of(branch))

    def turn_count(self, account: int) -> int:
        return len(self.turns_of(account))

    def line_count(self, branch: int) -> int:
        return sum(it.branch == branch for it in self.lines)

    def slip_count(self, user: int) -> int:
        return sum(who == user for who, _ in self.slips)

    # -- sums over the rows

    def balance(self, account: int) -> int:
        return self.accounts[account][1] + sum(it.delta for it in self.entries if it.account == account)

    def teller_balance(self, teller: int) -> int:
        return self.tellers[teller][1] + sum(it.delta for it in self.entries if it.teller == teller)

    def branch_balance(self, branch: int) -> int:
        return self.branches[branch][0] + self.history(branch)

    def history(self, branch: int) -> int:
        return sum(it.delta for it in self.entries_of(branch))

    def cash(self, branch: int, place: int) -> int:
        """The cash at a place of a branch: a teller's drawer, or the vault, which is 0."""
        opening = 0 if place else self.branches[branch][1]
        return opening + sum(it.amount for it in self.lines if (it.branch, it.place) == (branch, place))

    def lines_total(self, branch: int, form: str) -> int:
        return sum(it.amount for it in self.lines if (it.branch, it.form) == (branch, form))

    def drawers_total(self, branch: int) -> int:
        return sum(it.amount for it in self.lines if it.branch == branch and it.place)

    def holder(self, teller: int) -> int | None:
        """Who holds the drawer: who put it on last, where it was not put off since."""
        last = next((it for it in reversed(self.lines) if it.place == teller and it.form in ("on", "off")), None)
        return last.user if last and last.form == "on" else None

    def entries_of(self, branch: int) -> list[Entry]:
        return [it for it in self.entries if it.branch == branch]

    def turns_of(self, account: int) -> list[Entry]:
        """The entries of an account, in the order of their turns."""
        return [it for it in self.entries if it.account == account]

    def entry(self, branch: int, number: int) -> Entry | None:
        return next((it for it in self.entries_of(branch) if it.number == number), None)

    def named_entry(self, branch: int, number: int) -> Entry:
        """An entry that has to be there."""
        found = self.entry(branch, number)
        if found is None:
            raise LookupError(f"branch {branch} has no entry {number}")
        return found

    def is_undone(self, entry: Entry) -> bool:
        return any(it.undoes == entry.number for it in self.entries_of(entry.branch))

    def branch_of(self, teller: int) -> int:
        return self.tellers[teller][0]

    def drawers_of(self, user: int) -> list[int]:
        """The drawers that the user holds."""
        return sorted(it for it in self.tellers if self.holder(it) == user)

    # -- the policy

    def holds(self, number: int, items: Iterable[Item]) -> bool:
        """Whether a set has all these items, each in some interval of its kind."""
        return holds(self.sets, number, items)

    def sets_of(self, user: int, procedure: str, moment: int) -> list[tuple[int, int]]:
        """The sets of the user's triples for a procedure that are valid at a moment, each with the triple's limit."""
        return [
            (number, triple.limit)
            for (who, what, number), triple in self.triples.items()
            if (who, what) == (user, procedure) and triple.counts_at(moment)
        ]

    def limits(self, user: int, procedure: str, items: list[Item], moment: int) -> list[int]:
        """The limits of the user's triples for a procedure that are valid at a moment, each of which has all these items."""
        return [limit for number, limit in self.sets_of(user, procedure, moment) if self.holds(number, items)]

    def users_of(self, procedure: str) -> list[int]:
        """Those who have a triple for the procedure, whatever its moments."""
        return sorted({user for user, what, _ in self.triples if what == procedure})

    def makes(self, user: int, procedure: str) -> bool:
        """Whether the user is a certifier of the procedure, or made one of its relations."""
        made = any(what == procedure and by == user for (what, _), by in self.relations.items())
        return made or (user, procedure) in self.certifiers

    def slip_of(self, request: Question) -> Slip | None:
        """What the slip that a request bears was taken for, or none where it bears none or the user has it not."""
        return self.slips.get((request.user, request.slip)) if request.kind in TAKES_SLIP else None

    def counts(self, request: Question) -> bool:
        """Whether the release that is named authorizes the operation."""
        given = self.releases.get((request.user, request.release))
        if not given or (request.user, request.release) in self.used:
            return False
        items, amount = touched(request.kind, request.body), amount_of(request.kind, request.body)
        is_given = any(amount <= it for it in self.limits(given.giver, "release", items, request.moment))
        is_of_another = given.giver != request.user and given.giver not in self.suspended
        names_it = given.operation == with_members({"procedure": request.kind}, request.body)
        return names_it and given.day == self.days.get(request.body["branch"]) and is_of_another and is_given

    def is_known(self, user: int, session: int) -> bool:
        """Whether the user is there, not suspended, with this session open."""
        return user in self.open and user not in self.suspended and self.sessions.get(user) == session

    def is_within(self, request: Question) -> bool:
        """Whether a triple of the user lets them do it."""
        items, amount = touched(request.kind, request.body), amount_of(request.kind, request.body)
        return any(amount <= it for it in self.limits(request.user, request.kind, items, request.moment))


AnyBank = TypeVar("AnyBank", bound=Bank)


def holds(sets: Mapping[int, list[Interval]], number: int, items: Iterable[Item]) -> bool:
    """Whether one of these sets has all these items, each in some interval of its kind."""
    members = sets.get(number, [])
    return all(any(kind == k and low <= key <= high for k, low, high in members) for kind, key in items)


def opened_sets() -> dict[int, list[Interval]]:
    """The sets of the sample, each a list of a kind with its lowest and its highest key."""
    within = [("teller", 11, 12), ("branch", 1, 1), ("history", 1, 1), ("drawer", 11, 12)]
    # (their members stand in the order in which the listing has them)
    return {
        1: [(kind, 1, {"account": 999_999, "teller": 999, "drawer": 999}.get(kind, 99)) for kind in KINDS],
        2: [("account", 101, 102), ("account", 201, 201), *within, ("vault", 1, 1)],
        3: [("account", 101, 101), *within],
        4: [("account", 102, 102), *within],
        5: [("account", 101, 150), ("account", 102, 199)],
    }


def opened_relations() -> dict[tuple[str, int], int]:
    """Who certified each procedure on each set."""
    certified = {
        1: "post transfer new-account release balance",
        2: "post transfer correct drawer-on drawer-off move-cash balance statement proof close-day",
        3: "transfer",
        4: "transfer",
        5: "accounts",
    }
    return {(procedure, number): 2 for number, names in certified.items() for procedure in names.split()}


def opened_triples() -> dict[tuple[int, str, int], Triple]:
    """The triple of each user for a procedure on a set."""
    granted = {
        7: "post 2 999999, transfer 3 50000, transfer 4 50000, correct 2 999999, drawer-on 2 100000, drawer-off 2 0, "
        "move-cash 2 100000, balance 2 0, statement 2 0, accounts 5 0",
        8: "post 1 1000, post 2 50000, transfer 1 1000, transfer 2 50000, correct 2 999999, drawer-on 2 100000, "
        "drawer-off 2 0",
        9: "new-account 1 0, release 1 999999, proof 2 0, close-day 2 0",
    }
    rows = [(user, row.split()) for user, text in granted.items() for row in text.split(",")]
    return {(user, procedure, int(number)): Triple(int(limit)) for user, (procedure, number, limit) in rows}
