"""What a counter does, as it is drawn: each message by what the bank has come to, most often one that is allowed."""
from collections.abc import Callable, Iterable
from random import Random

from model.answers import is_allowed
from model.bank import (
    DELTA,
    KINDS,
    MOST_CENTS,
    MOST_KEY,
    MOST_MOMENT,
    OF_TELLERS,
    PROCEDURES,
    RELEASABLE,
    Body,
    with_members,
    without_member,
)
from model.requests import spoiled
from simulation.ledger import LongBank
from simulation.messages import NOBODY, Asked, Message
from simulation.opening import DAY, EVERYTHING, OF_SUPERVISORS, Opening

# Who asks for an operation, and its body.
Drawn = tuple[int, Body]

# How often each kind is drawn in the midst of a day.
WEIGHTS = {
    "post": 700,
    "transfer": 55,
    "balance": 50,
    "statement": 15,
    "accounts": 8,
    "correct": 40,
    "move-cash": 15,
    "release": 10,
    "use of a release": 10,
    "slip again": 12,
    "new-account": 6,
    "proof": 6,
    "listing": 2,
    "session": 4,
    "end": 1,
    "close-day": 2,
    "drawer-on": 4,
    "drawer-off": 4,
    "command": 22,
    "anyone": 25,
    "stranger": 10,
    "no request": 20,
}
COMMAND_WEIGHTS = {
    "define-set": 3,
    "certify": 3,
    "withdraw": 2,
    "grant": 8,
    "revoke": 3,
    "appoint": 2,
    "dismiss": 2,
    "enrol": 1,
    "suspend": 1,
    "restore": 3,
}
# A kind is drawn so often until it is allowed.
DRAWS = 6
# So often the first is sent whether it is allowed or not, and so often of these its body is spoiled.
ANY, SPOILED = 0.06, 0.3
# So often a client with slips uses none, and takes a number that is not its next one.
WITHOUT_SLIP, FURTHER = 0.1, 0.03
# Badges that no list has.
STRANGERS = ("guest", "root", "admin")
# So many of the last entries a correction is drawn from.
LAST_ENTRIES = 40
MOST_SETS = 60


class Client:
    """A user's client, which keeps slips or none."""

    def __init__(self, badge: str, keeps_slips: bool) -> None:
        self.badge = badge
        self.keeps_slips = keeps_slips
        self.next_slip = 1


class Drawing:
    """Draws messages for the clients of a bank."""

    def __init__(self, rng: Random, opening: Opening) -> None:
        self.rng = rng
        self.opening = opening
        self.clients = {it: Client(badge, rng.random() < 0.75) for it, badge in opening.badges.items()}
        self.has_slips = True
        self.has_moments = True
        self.moment = 0

    # -- who asks, by which slip

    def slip(self, bank: LongBank, user: int) -> int:
        """The number of a slip that the user's client takes, or 0."""
        client = self.clients.get(user)
        if not self.has_slips or not client or not client.keeps_slips or self.rng.random() < WITHOUT_SLIP:
            return 0
        if self.rng.random() < FURTHER:
            client.next_slip += self.rng.choice([1, 1_000])
        client.next_slip += 1
        return client.next_slip - 1

    def asked(self, bank: LongBank, kind: str, user: int, body: Body, release: int = 0) -> Asked:
        """A request of a user in their session."""
        return Asked(kind, user, bank.sessions.get(user) or 1, body, release, self.slip(bank, user))

    def message(self, asked: Asked, closes: bool = False) -> Message:
        """The message of a request."""
        client = self.clients.get(asked.user)
        return Message(asked, client.badge if client else self.rng.choice(STRANGERS), closes=closes)

    def teller_user(self, bank: LongBank) -> tuple[int, int]:
        """A user who holds a drawer, with one of theirs, where there is one."""
        held = [(holder, it) for it in bank.tellers if (holder := bank.holder(it))]
        if not held:
            return self.rng.choice(self.opening.staff.tellers), self.rng.choice(list(bank.tellers))
        return self.rng.choice(held)

    def one_of(self, users: Iterable[int]) -> int:
        return self.rng.choice(sorted(users) or self.opening.staff.all())

    def account(self, bank: LongBank, branch: int) -> int:
        """An account, most often one whose number is of the branch's interval."""
        low, high = self.opening.ranges[branch]
        way = self.rng.random()
        if way < 0.92:
            near = [it for it in bank.accounts if low <= it <= high]
            return self.rng.choice(near or list(bank.accounts))
        return self.rng.choice(list(bank.accounts)) if way < 0.97 else self.rng.randint(low, high)

    # -- operations

    def post(self, bank: LongBank) -> Drawn:
        user, teller = self.teller_user(bank)
        branch = bank.branch_of(teller) if self.rng.random() < 0.99 else self.rng.choice(list(bank.branches))
        deltas = [1, *(self.rng.randint(*it) for it in ((0, 900), (-900, 900), (-20_000, 60_000))), self.rng.choice(DELTA)]
        delta = self.rng.choices(deltas, [1, 4, 4, 3, 0.3])[0]
        return user, {"account": self.account(bank, branch), "branch": branch, "delta": delta, "teller": teller}

    def transfer(self, bank: LongBank) -> Drawn:
        user, teller = self.teller_user(bank)
        branch = bank.branch_of(teller)
        source, target = self.account(bank, branch), self.account(bank, branch)
        amount = self.rng.choice([1, self.rng.randint(1, 900), self.rng.randint(1, 30_000), self.rng.randint(1, 999_999)])
        return user, {"amount": amount, "branch": branch, "source": source, "target": target, "teller": teller}

    def correct(self, bank: LongBank) -> Drawn:
        user, teller = self.teller_user(bank)
        branch = bank.branch_of(teller)
        count = bank.entry_count(branch)
        near = [bank.named_entry(branch, it) for it in range(max(count - LAST_ENTRIES, 0) + 1, count + 1)]
        found = [it for it in near if it.user != user and not it.is_correction and not bank.is_undone(it)] or near
        body: Body = {"branch": branch, "teller": teller}
        if not found:
            return user, with_members(body, {"account": self.account(bank, branch), "delta": 1, "entry": 1, "other": 0})
        entry = self.rng.choice(found if self.rng.random() < 0.9 else near)
        other = bank.named_entry(branch, entry.partner).account if entry.partner else 0
        undoing: Body = {"account": entry.account, "delta": entry.delta, "entry": entry.number, "other": other}
        return user, with_members(body, undoing)

    def drawer_on(self, bank: LongBank) -> Drawn:
        free = [it for it in bank.tellers if not bank.holder(it)]
        teller = self.rng.choice(free or list(bank.tellers))
        branch, staff = bank.branch_of(teller), self.opening.staff.tellers
        homes = list(self.opening.ranges)
        users = [it for at, it in enumerate(staff) if homes[at % len(homes)] == branch]
        cash = self.rng.choice([0, self.rng.randint(0, 40_000), self.rng.randint(500_000, 9_000_000), MOST_KEY])
        return self.rng.choice(users or staff), {"branch": branch, "cash": cash, "teller": teller}

    def drawer_off(self, bank: LongBank) -> Drawn:
        user, teller = self.teller_user(bank)
        branch = bank.branch_of(teller)
        counted = max(bank.cash(branch, teller) + self.rng.choice([0, 0, 0, -100, 100]), 0)
        counted = MOST_CENTS if self.rng.random() < 0.01 else counted
        return user, {"branch": branch, "counted": counted, "teller": teller}

    def move_cash(self, bank: LongBank) -> Drawn:
        user, teller = self.teller_user(bank)
        branch = bank.branch_of(teller)
        others = [0, *(it for it in bank.tellers if bank.branch_of(it) == branch and it != teller)]
        places = [teller, self.rng.choice(others)]
        self.rng.shuffle(places)
        amount = self.rng.choice([self.rng.randint(1, 9_000), self.rng.randint(1, 900_000), MOST_KEY])
        return user, {"amount": amount, "branch": branch, "source": places[0], "target": places[1]}

    def new_account(self, bank: LongBank) -> Drawn:
        branch = self.rng.choice(list(bank.branches))
        low, high = self.opening.ranges[branch]
        number = self.rng.choice([self.rng.randint(low, min(low + 90, high)), self.rng.randint(low, high), low])
        floor = self.rng.choice([0, 0, 0, -500, -MOST_KEY])
        return self.one_of(self.opening.staff.supervisors), {"account": number, "branch": branch, "floor": floor}

    def release(self, bank: LongBank) -> Drawn:
        kind = self.rng.choice(sorted(RELEASABLE))
        beneficiary, body = self.by_kind(kind)(bank)
        if "delta" in body and kind == "post" and self.rng.random() < 0.7:
            body["delta"] = self.rng.randint(50_001, 999_999)
        giver = self.one_of(self.opening.staff.supervisors)
        whom = giver if self.rng.random() < 0.05 else beneficiary if self.rng.random() < 0.97 else self.rng.randint(1, 9_999)
        return giver, {"beneficiary": whom, "operation": with_members({"procedure": kind}, body)}

    def balance(self, bank: LongBank) -> Drawn:
        user, teller = self.teller_user(bank)
        return user, {"account": self.account(bank, bank.branch_of(teller))}

    def statement(self, bank: LongBank) -> Drawn:
        user, body = self.balance(bank)
        turns = bank.turn_count(body["account"]) if body["account"] in bank.accounts else 0
        start = self.rng.choice([1, max(turns - 20, 1), self.rng.randint(1, turns + 2)])
        return user, with_members(body, {"count": self.count(), "start": start})

    def count(self) -> int:
        """How many lines are asked for."""
        return self.rng.choice([1, 2, self.rng.randint(1, 20), 100, 1_000])

    def accounts(self, bank: LongBank) -> Drawn:
        user, _ = self.teller_user(bank)
        after = self.rng.choice([0, 0, self.rng.choice(list(bank.accounts)), MOST_KEY])
        return user, {"after": after, "count": self.count()}

    def proof(self, bank: LongBank) -> Drawn:
        return self.one_of(self.opening.staff.supervisors), {"branch": self.rng.choice(list(bank.branches))}

    def close_day(self, bank: LongBank) -> Drawn:
        return self.proof(bank)

    # -- commands

    def define_set(self, bank: LongBank) -> Body:
        members = [(KINDS.index(kind) + 1, low, high) for kind, low, high in bank.sets[self.rng.choice(list(bank.sets))]]
        kept = self.rng.sample(members, self.rng.randint(1, len(members)))
        number = self.rng.choice([self.rng.randint(1, MOST_SETS), self.rng.randint(1, MOST_SETS), MOST_KEY])
        return {"set": number, "members": [list(it) for it in kept]}

    def certify(self, bank: LongBank) -> Body:
        return {"procedure": self.rng.choice(PROCEDURES), "set": self.rng.choice([*bank.sets, MOST_SETS])}

    def withdraw(self, bank: LongBank) -> Body:
        opened = self.opening.bank.relations
        own = [it for it in bank.relations if it not in opened]
        procedure, number = self.rng.choice(own or list(bank.relations)) if self.rng.random() < 0.9 or own else ("post", MOST_SETS)
        return {"procedure": procedure, "set": number}

    def moments(self) -> Body:
        """From when to when a triple is valid, near the present moment."""
        first, last = sorted(self.moment + self.rng.randint(-DAY, 2 * DAY) for _ in range(2))
        spans: list[Body] = [{"first": first, "last": last}, {"first": 0, "last": last}, {"first": first, "last": MOST_MOMENT}]
        return self.rng.choice(spans)

    def grant(self, bank: LongBank) -> Body:
        procedure, number = self.rng.choice(list(bank.relations) or [("post", EVERYTHING)])
        able = [*self.opening.staff.tellers, *self.opening.staff.supervisors]
        user = self.rng.choice(able if self.rng.random() < 0.8 else sorted(bank.users))
        limit = self.rng.choice([0, 1_000, 50_000, 999_999, MOST_KEY])
        body: Body = {"user": user, "procedure": procedure, "set": number, "limit": limit}
        return with_members(body, self.moments()) if self.has_moments and self.rng.random() < 0.6 else body

    def revoke(self, bank: LongBank) -> Body:
        opened = self.opening.bank.triples
        added = [it for it in bank.triples if it not in opened]
        user, procedure, number = self.rng.choice(added or list(bank.triples) or [(1, "post", 1)])
        return {"user": user, "procedure": procedure, "set": number}

    def appoint(self, bank: LongBank) -> Body:
        able = [it for it in bank.users if it not in self.opening.staff.tellers]
        return {"user": self.rng.choice(able if self.rng.random() < 0.8 else sorted(bank.users)), "procedure": self.rng.choice(PROCEDURES)}

    def dismiss(self, bank: LongBank) -> Body:
        kept = self.opening.staff.certifiers[:1]
        user, procedure = self.rng.choice(sorted(it for it in bank.certifiers if it[0] not in kept) or [(1, "post")])
        return {"user": user, "procedure": procedure}

    def enrol(self, bank: LongBank) -> Body:
        number = self.rng.choice([*self.opening.badges, self.rng.randint(1, 9_999)])
        return {"user": number, "name": self.rng.choice(["Ann", " ", "Zed of twenty letter"]), "officer": self.rng.random() < 0.2}

    def suspend(self, bank: LongBank) -> Body:
        return {"user": self.rng.choice(sorted(bank.users))}

    def restore(self, bank: LongBank) -> Body:
        return {"user": self.rng.choice(sorted(bank.suspended) or sorted(bank.users))}

    def command_body(self, kind: str) -> Callable[[LongBank], Body]:
        """What draws the body of a command."""
        kinds: dict[str, Callable[[LongBank], Body]] = {
            "define-set": self.define_set,
            "certify": self.certify,
            "withdraw": self.withdraw,
            "grant": self.grant,
            "revoke": self.revoke,
            "appoint": self.appoint,
            "dismiss": self.dismiss,
            "enrol": self.enrol,
            "suspend": self.suspend,
            "restore": self.restore,
        }
        return kinds[kind]

    def command(self, bank: LongBank) -> Asked:
        """A command, by who may."""
        kind = self.rng.choices(list(COMMAND_WEIGHTS), list(COMMAND_WEIGHTS.values()))[0]
        staff = self.opening.staff
        of_officers = kind in ("appoint", "dismiss", "enrol", "suspend", "restore")
        body = self.command_body(kind)(bank)
        return self.asked(bank, kind, self.rng.choice(staff.officers if of_officers else staff.certifiers), body)

    # -- other messages

    def session(self, bank: LongBank) -> Asked:
        closed = [it for it in bank.users if it not in bank.open and it in self.opening.badges]
        return self.asked(bank, "session", self.one_of(closed or self.opening.badges), {})

    def end(self, bank: LongBank) -> Asked:
        return self.asked(bank, "end", self.one_of(it for it in bank.open if it in self.opening.badges), {})

    def listing(self, bank: LongBank) -> Asked:
        return self.asked(bank, "listing", self.one_of(self.opening.staff.officers), {})

    def use_of_a_release(self, bank: LongBank) -> Asked:
        """The operation of a release that is not used, with its number."""
        given = [(key, it.operation) for key, it in bank.releases.items() if key not in bank.used and key[0] in self.opening.badges]
        if not given:
            return self.operation(bank, "post")
        (user, number), operation = self.rng.choice(given[-8:])
        body = without_member(operation, "procedure")
        return self.asked(bank, operation["procedure"], user, body, number if self.rng.random() < 0.9 else number + 1)

    def slip_again(self, bank: LongBank) -> Asked:
        """What a user asked for with a slip once more, or something else with that slip."""
        rows = list(bank.ledger.slips)[-400:]
        if not rows:
            return self.operation(bank, "balance")
        user, number = self.rng.choice(rows)
        slip = bank.ledger.slips[user, number]
        if self.rng.random() < 0.3:
            _, body = self.post(bank)
            return Asked("post", user, bank.sessions.get(user) or 1, body, 0, number)
        return Asked(slip.kind, user, bank.sessions.get(user) or 1, slip.body, 0, number)

    def anyone(self, bank: LongBank) -> Asked:
        """An operation or a command by anyone, in a session that may be another, by a badge that may be nobody's."""
        if self.rng.random() < 0.6:
            asked = self.operation(bank, self.rng.choice([*OF_TELLERS, *OF_SUPERVISORS]))
        else:
            asked = self.command(bank)
        way = self.rng.random()
        if way < 0.4:
            asked.user = self.one_of(it for it in bank.open if it in self.opening.badges)
            asked.session = bank.sessions.get(asked.user) or 1
            asked.slip = 0
        elif way < 0.7:
            asked.session = max(asked.session + self.rng.choice([-1, 1]), 1)
        elif way < 0.9:
            asked.user = NOBODY
        return asked

    def stranger(self, bank: LongBank) -> Asked:
        """A session, by a badge that nobody has."""
        return Asked("session", NOBODY, 1, {})

    def by_kind(self, kind: str) -> Callable[[LongBank], Drawn]:
        """What draws an operation of a kind."""
        kinds: dict[str, Callable[[LongBank], Drawn]] = {
            "post": self.post,
            "transfer": self.transfer,
            "correct": self.correct,
            "drawer-on": self.drawer_on,
            "drawer-off": self.drawer_off,
            "move-cash": self.move_cash,
            "new-account": self.new_account,
            "release": self.release,
            "balance": self.balance,
            "statement": self.statement,
            "accounts": self.accounts,
            "proof": self.proof,
            "close-day": self.close_day,
        }
        return kinds[kind]

    def operation(self, bank: LongBank, kind: str) -> Asked:
        """An operation of a kind, as it is drawn first."""
        user, body = self.by_kind(kind)(bank)
        return self.asked(bank, kind, user, body)

    def request(self, bank: LongBank, kind: str) -> Asked:
        """A request of a kind, as it is drawn first."""
        others: dict[str, Callable[[LongBank], Asked]] = {
            "session": self.session,
            "end": self.end,
            "listing": self.listing,
            "command": self.command,
            "anyone": self.anyone,
            "stranger": self.stranger,
            "use of a release": self.use_of_a_release,
            "slip again": self.slip_again,
        }
        return others[kind](bank) if kind in others else self.operation(bank, kind)

    def no_request(self, bank: LongBank) -> Message:
        """A message that states no request: its head, its fields or its path."""
        user = self.one_of(self.opening.badges)
        badge, fields = self.opening.badges[user], f"Bank-Session: {bank.sessions.get(user) or 1}\r\n"
        account = self.rng.choice(list(bank.accounts))
        body = b'{"account":%d}' % account
        plain = f"Host: bank\r\nBank-Badge: {badge}\r\n{fields}Content-Length: {len(body)}\r\n\r\n".encode() + body
        line = b"POST /do/balance HTTP/1.1\r\n"
        fault, head = self.rng.choice(
            [
                (1, b"no head at all\r\n\r\n"),
                (1, line + plain.replace(b"Host: bank\r\n", b"")),
                (1, line + b"Content-Length: 3\r\n" + plain),
                (2, b"GET /policy HTTP/1.1\r\nX: " + b"y" * 9_000 + b"\r\n\r\n"),
                (3, line + b"Host: bank\r\nContent-Length: 1025\r\n\r\n"),
                (4, line + b"Transfer-Encoding: chunked\r\n" + plain),
                (5, b"POST /do/pay HTTP/1.1\r\n" + plain),
                (5, b"GET /policy?all HTTP/1.1\r\n" + plain),
                (5, b"HEAD /policy HTTP/1.1\r\n" + plain),
                (6, line + b"Bank-Session: 1\r\n" + plain),
                (6, line + b"Bank-Badge: \xff\r\nHost: bank\r\nContent-Length: 0\r\n\r\n"),
                (6, line + b"Bank-Badge: two words\r\nHost: bank\r\nContent-Length: 0\r\n\r\n"),
                (6, line + plain.replace(body, body.replace(b":", b";"))),
            ]
        )
        return Message(Asked("none", NOBODY, 1, {}), "", fault, head)

    def drawn(self, bank: LongBank, kind: str | None = None) -> Message:
        """A message, most often one that is allowed."""
        kind = kind or self.rng.choices(list(WEIGHTS), list(WEIGHTS.values()))[0]
        if kind == "no request":
            return self.no_request(bank)
        is_any = kind in ("anyone", "stranger", "slip again") or self.rng.random() < ANY
        for _ in range(1 if is_any else DRAWS):
            asked = self.request(bank, kind)
            asked.moment = self.moment
            if is_any or is_allowed(bank, asked):
                break
            self.give_back(asked)
        if is_any and asked.body and self.rng.random() < SPOILED:
            asked.body = spoiled(asked.body, self.rng)
        return self.message(asked, closes=self.rng.random() < 0.01)

    def give_back(self, asked: Asked) -> None:
        """Its slip is the next one again, where it is the last that was taken."""
        client = self.clients.get(asked.user)
        if client and asked.slip and client.next_slip == asked.slip + 1:
            client.next_slip = asked.slip
