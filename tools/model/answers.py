"""The answers of the bank of bank_model: the first rule against a request, what the request leaves, and its reply.

Written down from docs/RULES.md, docs/OPERATIONS.md and docs/COMMANDS.md; nothing of the crates is read.
"""
import copy
import json
from collections.abc import Callable, Mapping

from model import reports
from model.bank import (
    COMMANDS,
    FORBIDDEN,
    MOST_ACCOUNTS,
    MOST_CENTS,
    MOST_DAY,
    MOST_KEY,
    MOST_MOMENT,
    MOST_RELATIONS,
    MOST_RELEASES,
    MOST_SETS,
    MOST_SLIPS,
    MOST_TRIPLES,
    OF_OFFICERS,
    OPERATIONS,
    PHRASES,
    RULES,
    TAKES_SLIP,
    AnyBank,
    Bank,
    Body,
    Entry,
    KINDS,
    Line,
    Members,
    Proof,
    Question,
    Release,
    Slip,
    Triple,
    accounts_of,
    is_command,
    is_operation,
    tellers_of,
    touched,
)


# ---- what is left


def with_entry(bank: Bank, request: Question, account: int, delta: int, partner: int = 0, undoes: int = 0) -> int:
    """Adds an entry at the teller of the request, with the next number of its branch."""
    body = request.body
    branch = body["branch"]
    number = bank.entry_count(branch) + 1
    turn = bank.turn_count(account) + 1
    is_correction = request.kind == "correct"
    posting = (branch, number, account, turn, body["teller"], delta)
    bank.add_entry(Entry(*posting, request.moment, bank.days[branch], request.user, is_correction, partner, undoes))
    return number


def with_line(bank: Bank, request: Question, place: int, amount: int, form: str) -> None:
    """Adds a cash line at a place of the branch."""
    branch = request.body["branch"]
    number = bank.line_count(branch) + 1
    bank.add_line(Line(branch, number, place, amount, form, request.moment, bank.days[branch], request.user))


def posted(bank: Bank, request: Question) -> Members:
    body = request.body
    entry = with_entry(bank, request, body["account"], body["delta"])
    with_line(bank, request, body["teller"], body["delta"], "entry")
    return {"balance": bank.balance(body["account"]), "branch": body["branch"], "entry": entry}


def with_legs(bank: Bank, request: Question, account: int, other: int, delta: int, undoes: tuple[int, int] = (0, 0)) -> Members:
    """Adds the two entries of a transfer, or of its correction, which name each other."""
    first = bank.entry_count(request.body["branch"]) + 1
    second = with_entry(bank, request, account, delta, first + 1, undoes[0]) + 1
    with_entry(bank, request, other, -delta, first, undoes[1])
    balances = {"source": bank.balance(account), "target": bank.balance(other)}
    return {"branch": request.body["branch"], "first": first, "second": second, **balances}


def transferred(bank: Bank, request: Question) -> Members:
    body = request.body
    return with_legs(bank, request, body["source"], body["target"], -body["amount"])


def corrected(bank: Bank, request: Question) -> Members:
    body = request.body
    undone = bank.named_entry(body["branch"], body["entry"])
    if undone.partner:
        return with_legs(bank, request, body["account"], body["other"], -body["delta"], (undone.number, undone.partner))
    entry = with_entry(bank, request, body["account"], -body["delta"], undoes=undone.number)
    with_line(bank, request, body["teller"], -body["delta"], "entry")
    return {"balance": bank.balance(body["account"]), "branch": body["branch"], "entry": entry}


def put_on(bank: Bank, request: Question) -> Members:
    body = request.body
    with_line(bank, request, 0, -body["cash"], "on")
    with_line(bank, request, body["teller"], body["cash"], "on")
    cash, vault = bank.cash(body["branch"], body["teller"]), bank.cash(body["branch"], 0)
    return {"cash": cash, "teller": body["teller"], "vault": vault}


def put_off(bank: Bank, request: Question) -> Members:
    body = request.body
    difference = body["counted"] - bank.cash(body["branch"], body["teller"])
    with_line(bank, request, body["teller"], difference, "difference")
    with_line(bank, request, body["teller"], -body["counted"], "off")
    with_line(bank, request, 0, body["counted"], "off")
    return {"difference": difference, "teller": body["teller"], "vault": bank.cash(body["branch"], 0)}


def moved(bank: Bank, request: Question) -> Members:
    body = request.body
    with_line(bank, request, body["source"], -body["amount"], "move")
    with_line(bank, request, body["target"], body["amount"], "move")
    source, target = (bank.cash(body["branch"], it) for it in (body["source"], body["target"]))
    return {"moved": body["amount"], "source": source, "target": target}


def opened(bank: Bank, request: Question) -> Members:
    body = request.body
    bank.accounts = {**bank.accounts, body["account"]: (body["branch"], 0, body["floor"])}
    return {"account": body["account"], "branch": body["branch"]}


def released(bank: Bank, request: Question) -> Members:
    body = request.body
    beneficiary, operation = body["beneficiary"], body["operation"]
    number = releases_of(bank, beneficiary) + 1
    given = Release(request.user, bank.days[operation["branch"]], operation)
    bank.releases = {**bank.releases, (beneficiary, number): given}
    return {"beneficiary": beneficiary, "release": number}


def releases_of(bank: Bank, user: int) -> int:
    return sum(1 for who, _ in bank.releases if who == user)


def told(bank: Bank, request: Question) -> Members:
    return {"balance": bank.balance(request.body["account"])}


def stated(bank: Bank, request: Question) -> str:
    body = request.body
    return reports.statement(bank, body["account"], body["start"], body["count"])


def shown(bank: Bank, request: Question) -> str:
    body = request.body
    return reports.accounts(bank, request.user, body["after"], body["count"], request.moment)


def proved(bank: Bank, request: Question) -> str:
    return reports.proof(bank, request.body["branch"])


def closed(bank: Bank, request: Question) -> Members:
    branch = request.body["branch"]
    reply = {
        "balance": bank.branch_balance(branch),
        "cash": bank.cash(branch, 0),
        "closed": bank.days[branch],
        "entries": bank.entry_count(branch),
    }
    bank.proofs = [*bank.proofs, Proof(branch, *(reply[it] for it in ("closed", "entries", "balance", "cash")))]
    bank.days = {**bank.days, branch: bank.days[branch] + 1}
    return reply


EFFECTS: dict[str, Callable[[Bank, Question], Members | str]] = {
    "post": posted,
    "transfer": transferred,
    "correct": corrected,
    "drawer-on": put_on,
    "drawer-off": put_off,
    "move-cash": moved,
    "new-account": opened,
    "release": released,
    "balance": told,
    "statement": stated,
    "accounts": shown,
    "proof": proved,
    "close-day": closed,
}


def relation_of(body: Body) -> tuple[str, int]:
    """The procedure and the set that a command names."""
    return body["procedure"], body["set"]


def triple_of(body: Body) -> tuple[int, str, int]:
    """The user, the procedure and the set that a command names."""
    return body["user"], body["procedure"], body["set"]


def change_policy(bank: Bank, command: str, body: Body, by: int) -> None:
    """Carries out a command on sets, relations and triples."""
    if command == "define-set":
        bank.sets = {**bank.sets, body["set"]: [(KINDS[kind - 1], low, high) for kind, low, high in body["members"]]}
    elif command == "certify":
        bank.relations = {**bank.relations, relation_of(body): by}
    elif command == "withdraw":
        relation = relation_of(body)
        bank.relations = {key: it for key, it in bank.relations.items() if key != relation}
        bank.triples = {key: triple for key, triple in bank.triples.items() if key[1:] != relation}
    elif command == "grant":
        triple = Triple(body["limit"], body.get("first", 0), body.get("last", MOST_MOMENT))
        bank.triples = {**bank.triples, triple_of(body): triple}
    elif command == "revoke":
        bank.triples = {key: triple for key, triple in bank.triples.items() if key != triple_of(body)}


def change_users(bank: Bank, command: str, body: Body) -> None:
    """Carries out a command on users and certifiers, which is an officer's."""
    user = body["user"]
    if command == "appoint":
        bank.certifiers = bank.certifiers | {(user, body["procedure"])}
    elif command == "dismiss":
        bank.certifiers = bank.certifiers - {(user, body["procedure"])}
    elif command == "enrol":
        bank.users = {**bank.users, user: body["name"]}
        bank.sessions = {**bank.sessions, user: 0}
        bank.officers = bank.officers | ({user} if body["officer"] else set())
    elif command == "suspend":
        bank.suspended, bank.open = bank.suspended | {user}, bank.open - {user}
    else:
        bank.suspended = bank.suspended - {user}


def commanded(bank: Bank, request: Question) -> Members:
    """Carries out a command of the policy."""
    bank.version += 1
    if request.kind in OF_OFFICERS:
        change_users(bank, request.kind, request.body)
    else:
        change_policy(bank, request.kind, request.body, request.user)
    return {"done": request.kind}


def with_slip(bank: AnyBank, told: Members | str, request: Question) -> tuple[AnyBank, Members | str]:
    """Stores the reply to a request that bears a slip."""
    if request.slip and request.kind in TAKES_SLIP and not isinstance(told, str):
        bank.add_slip(request.user, request.slip, Slip(request.kind, request.body, told))
    return bank, told


def after(bank: AnyBank, request: Question) -> tuple[AnyBank, Members | str]:
    """The bank after a request that no rule denies, but for its slip, and the members of the reply, or its text."""
    bank, user = copy.copy(bank), request.user
    if request.kind == "session":
        bank.sessions, bank.open = {**bank.sessions, user: bank.sessions[user] + 1}, bank.open | {user}
        return bank, {"session": bank.sessions[user]}
    if request.kind == "end":
        bank.open = bank.open - {user}
        return bank, {"ended": bank.sessions[user]}
    if request.kind in COMMANDS:
        return bank, commanded(bank, request)
    if request.kind == "listing":
        return bank, reports.policy(bank)
    if request.release and not bank.is_within(request):
        bank.used = bank.used | {(user, request.release)}
    return bank, EFFECTS[request.kind](bank, request)


# ---- the rules, each whether it denies


def is_unknown(bank: Bank, request: Question) -> bool:
    body = request.body
    if request.kind == "release":
        return body["beneficiary"] not in bank.users or body["operation"]["branch"] not in bank.branches
    accounts = [] if request.kind == "new-account" else accounts_of(request.kind, body)
    lacks_branch = "branch" in body and body["branch"] not in bank.branches
    lacks_account = any(it not in bank.accounts for it in accounts)
    return lacks_branch or lacks_account or any(it not in bank.tellers for it in tellers_of(body))


def is_of_another_branch(bank: Bank, request: Question) -> bool:
    tellers = [it for it in tellers_of(request.body) if it in bank.tellers]
    return any(bank.branch_of(it) != request.body["branch"] for it in tellers)


def lacks_drawer(bank: Bank, request: Question) -> bool:
    kind, body = request.kind, request.body
    if kind in ("post", "transfer", "correct", "drawer-off"):
        return bank.holder(body["teller"]) != request.user
    if kind == "drawer-on":
        return bank.holder(body["teller"]) is not None
    if kind != "move-cash":
        return False
    nobody_holds_target = body["target"] != 0 and bank.holder(body["target"]) is None
    return bank.holder(body["source"] or body["target"]) != request.user or nobody_holds_target


def is_alone(bank: Bank, request: Question) -> bool:
    if request.kind == "release":
        return request.body["beneficiary"] == request.user
    entry = bank.entry(request.body["branch"], request.body["entry"]) if request.kind == "correct" else None
    return entry is not None and entry.user == request.user


def is_no_open_entry(bank: Bank, request: Question) -> bool:
    if request.kind != "correct":
        return False
    body = request.body
    entry = bank.entry(body["branch"], body["entry"])
    if entry is None or entry.is_correction or bank.is_undone(entry) or entry.day != bank.days[body["branch"]]:
        return True
    other = bank.named_entry(entry.branch, entry.partner).account if entry.partner else 0
    return (entry.account, entry.delta, other) != (body["account"], body["delta"], body["other"])


def falls_below_floor(bank: Bank, request: Question) -> bool:
    if request.kind not in ("post", "transfer", "correct"):
        return False
    after_it = after(bank, request)[0]
    return any(after_it.balance(it) < after_it.accounts[it][2] for it in accounts_of(request.kind, request.body))


def cash_of(bank: Bank, branch: int) -> list[int]:
    """The cash of all places of a branch."""
    return [bank.cash(branch, it) for it in [0, *(it for it in bank.tellers if bank.branch_of(it) == branch)]]


def lacks_cash(bank: Bank, request: Question) -> bool:
    if "branch" not in request.body:
        return False
    return any(it < 0 for it in cash_of(after(bank, request)[0], request.body["branch"]))


def leaves_range(bank: Bank, request: Question) -> bool:
    if "branch" not in request.body or request.kind == "new-account":
        return False
    bank, branch = after(bank, request)[0], request.body["branch"]
    accounts = accounts_of(request.kind, request.body) if "teller" in request.body and "cash" not in request.body else []
    balances = [bank.branch_balance(branch), *(bank.balance(it) for it in accounts if it in bank.accounts)]
    balances += [bank.teller_balance(it) for it in tellers_of(request.body)]
    totals = [bank.history(branch), bank.drawers_total(branch)]
    totals += [bank.lines_total(branch, it) for it in ("entry", "difference")]
    return any(abs(it) > MOST_CENTS for it in [*balances, *totals, *cash_of(bank, branch)])


def is_taken(bank: Bank, request: Question) -> bool:
    return request.kind == "new-account" and request.body["account"] in bank.accounts


def has_held_drawer(bank: Bank, request: Question) -> bool:
    branch = request.body.get("branch")
    return request.kind == "close-day" and any(bank.holder(it) and bank.branch_of(it) == branch for it in bank.tellers)


def has_no_room_for_slip(bank: Bank, request: Question) -> bool:
    """Whether the request bears a slip that would be a new one of a user who can have no more."""
    is_new = request.slip and request.kind in TAKES_SLIP and not bank.slip_of(request)
    return bool(is_new) and bank.slip_count(request.user) >= MOST_SLIPS


def is_full(bank: Bank, request: Question) -> bool:
    if request.kind == "session":
        return bank.sessions[request.user] == MOST_KEY
    if has_no_room_for_slip(bank, request):
        return True
    if request.kind == "release":
        return releases_of(bank, request.body["beneficiary"]) == MOST_RELEASES
    if request.kind == "new-account":
        return sum(home == request.body["branch"] for home, _, _ in bank.accounts.values()) == MOST_ACCOUNTS
    if request.kind == "close-day":
        return bank.days[request.body["branch"]] == MOST_DAY
    if "branch" not in request.body:
        return False
    bank, branch = after(bank, request)[0], request.body["branch"]
    turns = [bank.turn_count(account) for account in accounts_of(request.kind, request.body)]
    return max(bank.entry_count(branch), bank.line_count(branch), *turns) > MOST_KEY


RULES_OF_BOOKS = {
    6: is_unknown,
    7: is_of_another_branch,
    8: lacks_drawer,
    9: is_alone,
    10: is_no_open_entry,
    11: falls_below_floor,
    12: lacks_cash,
    13: leaves_range,
    14: is_taken,
    15: has_held_drawer,
    16: is_full,
}


def rule_of_policy(bank: Bank, request: Question) -> int | None:
    """The first rule of the policy against an operation."""
    items = touched(request.kind, request.body)
    if not any(procedure == request.kind and bank.holds(number, items) for procedure, number in bank.relations):
        return 2
    if not bank.limits(request.user, request.kind, items, request.moment):
        return 3
    if bank.is_within(request):
        return None
    if not request.release:
        return 4
    return None if bank.counts(request) else 5


def breaks_separation(bank: Bank, request: Question) -> bool:
    if request.kind not in ("grant", "appoint"):
        return False
    user, procedure = request.body["user"], request.body["procedure"]
    is_maker = bank.makes(user, procedure) if request.kind == "grant" else user in bank.users_of(procedure)
    return user in bank.officers or is_maker


def names_missing(bank: Bank, request: Question) -> bool:
    """Whether the command names what is not there, other than what it adds."""
    kind, body = request.kind, request.body
    relation = (body.get("procedure"), body.get("set"))
    return (
        (kind not in ("define-set", "enrol") and "user" in body and body["user"] not in bank.users)
        or (kind in ("certify", "withdraw", "grant", "revoke") and body["set"] not in bank.sets)
        or (kind in ("withdraw", "grant") and relation not in bank.relations)
        or (kind == "revoke" and (body["user"], *relation) not in bank.triples)
        or (kind == "dismiss" and (body["user"], body["procedure"]) not in bank.certifiers)
    )


def is_there_already(bank: Bank, request: Question) -> bool:
    """Whether what the command adds is there, or there is no room for it; or what it changes is so already."""
    kind, body, user = request.kind, request.body, request.body.get("user")
    relation = (body.get("procedure"), body.get("set"))
    if kind == "define-set":
        return body["set"] in bank.sets or len(bank.sets) == MOST_SETS
    if kind == "certify":
        return relation in bank.relations or sum(it[0] == relation[0] for it in bank.relations) == MOST_RELATIONS
    if kind == "grant":
        return (user, *relation) in bank.triples or sum(it[0] == user for it in bank.triples) == MOST_TRIPLES
    if kind == "appoint":
        return (user, body["procedure"]) in bank.certifiers
    if kind == "suspend":
        return user == request.user or user in bank.suspended
    return user in bank.users if kind == "enrol" else kind == "restore" and user not in bank.suspended


def rule_of_command(bank: Bank, request: Question) -> int | None:
    """The first rule against a command, of a user who is known."""
    kind, user = request.kind, request.user
    if kind in OF_OFFICERS and user not in bank.officers:
        return 17
    if kind == "define-set" and not any(who == user for who, _ in bank.certifiers):
        return 18
    if kind not in OF_OFFICERS and kind != "define-set" and (user, request.body["procedure"]) not in bank.certifiers:
        return 18
    if breaks_separation(bank, request):
        return 19
    if names_missing(bank, request):
        return 20
    return 21 if is_there_already(bank, request) else None


def first_rule(bank: Bank, request: Question) -> int | None:
    """The number of the first rule against a request, or none."""
    if request.kind == "session":
        is_there = request.user in bank.users and request.user not in bank.suspended
        return 1 if not is_there else 16 if is_full(bank, request) else None
    if not bank.is_known(request.user, request.session):
        return 1
    if request.kind == "end":
        return None
    if request.kind == "listing":
        return None if request.user in bank.officers else 17
    if request.kind in COMMANDS:
        return rule_of_command(bank, request)
    if bank.slip_of(request) and not kept_reply(bank, request):
        return 22
    denied = rule_of_policy(bank, request)
    return denied or next((number for number, denies in RULES_OF_BOOKS.items() if denies(bank, request)), None)


# ---- replies


def kept_reply(bank: Bank, request: Question) -> Members | None:
    """What was replied when the user's slip was taken, where that was for the same operation, or none."""
    slip = bank.slip_of(request)
    return slip.told if slip and (slip.kind, slip.body) == (request.kind, request.body) else None


def repeated(bank: Bank, request: Question) -> Members | None:
    """What is replied once more to a user who is known and asks for the same with the same slip, or none."""
    return kept_reply(bank, request) if bank.is_known(request.user, request.session) else None


def is_repeat(bank: Bank, request: Question) -> bool:
    """Whether a request is stated, and answered as it was before."""
    return is_stated(request) and bool(repeated(bank, request))


def is_allowed(bank: Bank, request: Question) -> bool:
    """Whether a request is stated, and carried out or answered as it was."""
    return is_stated(request) and bool(repeated(bank, request) or not first_rule(bank, request))


def is_stated(request: Question) -> bool:
    """Whether the body states what is asked for; that of a session or of the listing is not looked at."""
    if request.kind in COMMANDS:
        return is_command(request.kind, request.body)
    return request.kind not in OPERATIONS or is_operation(request.kind, request.body)


def answer_members(bank: AnyBank, request: Question) -> tuple[AnyBank, int, Members | str]:
    """The bank after a request, the status and the members of the reply, or its text."""
    if not is_stated(request):
        return bank, 422, {"fault": "M6"}
    again = repeated(bank, request)
    if again:
        return bank, 200, again
    denied = first_rule(bank, request)
    if denied:
        return bank, 403 if denied in FORBIDDEN else 409, {"name": RULES[denied - 1], "rule": denied}
    after_it, told = with_slip(*after(bank, request), request)
    return after_it, 200, told


def answer(bank: AnyBank, request: Question) -> tuple[AnyBank, int, bytes]:
    """The bank after a request, the status and the bytes of the reply."""
    after_it, status, told = answer_members(bank, request)
    kind, text = ("text/plain", told) if isinstance(told, str) else ("application/json", json_text(told))
    head = f"HTTP/1.1 {status} {PHRASES[status]}\r\nContent-Type: {kind}\r\nContent-Length: {len(text)}\r\n\r\n"
    return after_it, status, (head + text).encode()


def json_text(members: Mapping[str, object]) -> str:
    """The text of an object."""
    return json.dumps(members, sort_keys=True, separators=(",", ":"))
