"""The turn of a year of the bank of bank_model: when it may begin its next year, the bank that it then is, and what is asked of that
bank and answered by it, as it is at the bank that goes on. Written down from docs/GUIDE.md, "A year", alone.

Numbers of entries and turns begin anew in the next year. So what names an entry or a turn there has another number at the bank that
goes on: greater by the number of entries of its branch, or of turns of its account, as the year turned.
"""
import copy
import json

from model.answers import is_repeat, is_stated, json_text
from model.bank import TAKES_SLIP, AnyBank, Bank, Body, with_members
from model.requests import Request
from replies import body_of

# What a proof shows that begins anew, or opens with another amount.
BEGUN_ANEW = ("HISTORY TOTAL", "OPENING BALANCE", "OPENING CASH", "CASH ENTRIES", "DIFFERENCES")


def least_open(bank: Bank) -> int | None:
    """The least branch that is not closed, or none: a row bears its present day, or a drawer is held or holds cash."""

    def is_present(branch: int, day: int) -> bool:
        return bank.days.get(branch) == day

    found = {it.branch for it in bank.entries if is_present(it.branch, it.day)}
    found |= {it.branch for it in bank.lines if is_present(it.branch, it.day)}
    releases = [(it.operation["branch"], it.day) for it in bank.releases.values()]
    found |= {branch for branch, day in releases if is_present(branch, day)}
    found |= {branch for it, (branch, _) in bank.tellers.items() if bank.holder(it) is not None or bank.cash(branch, it)}
    return min(found, default=None)


def forward(bank: AnyBank) -> AnyBank:
    """The bank that begins the next year: balances are its openings, and entries and cash lines begin anew."""
    begun = copy.copy(bank)
    begun.accounts = {it: (home, bank.balance(it), floor) for it, (home, _, floor) in bank.accounts.items()}
    begun.tellers = {it: (branch, bank.teller_balance(it)) for it, (branch, _) in bank.tellers.items()}
    begun.branches = {it: (bank.branch_balance(it), bank.cash(it, 0)) for it in bank.branches}
    begun.entries, begun.lines = [], []
    return begun


class Turn:
    """What a bank had when its year turned: how many entries each branch, and how many turns each account; and its slips."""

    def __init__(self, bank: Bank) -> None:
        self.entries = {it: len(bank.entries_of(it)) for it in bank.branches}
        self.turns = {it: len(bank.turns_of(it)) for it in bank.accounts}
        self.slips = dict(bank.slips)

    def is_of_before(self, request: Request) -> bool:
        """Whether a request bears a slip that its user had. Of a question none is read."""
        return request.kind in TAKES_SLIP and (request.user, request.slip) in self.slips

    def at_old(self, request: Request) -> Request:
        """A request as it is at the bank that goes on. One with an earlier slip names what it named first."""
        moved = copy.copy(request)
        if not is_stated(request) or self.is_of_before(request):
            return moved
        body = request.body
        if request.kind == "statement":
            moved.body = with_members(body, {"start": body["start"] + self.turns.get(body["account"], 0)})
        elif request.kind == "correct":
            moved.body = self.corrects(body)
        elif request.kind == "release" and body["operation"]["procedure"] == "correct":
            moved.body = with_members(body, {"operation": self.corrects(body["operation"])})
        return moved

    def corrects(self, body: Body) -> Body:
        """A correction as it is at the bank that goes on."""
        return with_members(body, {"entry": body["entry"] + self.entries.get(body["branch"], 0)})

    def told_at_old(self, bank: Bank, request: Request, reply: bytes) -> str:
        """The body of a reply of the next year's bank, as the bank that goes on gives it; of a proof, without what begins anew."""
        text = body_of(reply).decode()
        if request.kind == "proof" and is_report(reply):
            return without_begun(text)
        if is_report(reply):
            return self.moved_statement(request, text) if request.kind == "statement" else text
        if is_repeat(bank, request) and self.is_of_before(request):
            return text
        return json_text(self.moved_members(request, json.loads(text)))

    def moved_members(self, request: Request, told: dict[str, int]) -> dict[str, int]:
        """The members of a reply, in which entries have their numbers at the bank that goes on, and a closing counts those of both years."""
        numbers = {it: told[it] + self.entries[told["branch"]] for it in ("entry", "first", "second") if it in told}
        if "closed" in told:
            numbers["entries"] = told["entries"] + self.entries[request.body["branch"]]
        return {**told, **numbers}

    def moved_statement(self, request: Request, text: str) -> str:
        """A statement, in which turns and entries have their numbers at the bank that goes on."""
        first, *lines = text.splitlines()
        moved = self.turns.get(request.body["account"], 0)
        head, start, rest = first[:33], int(first[33:42]) + moved, first[42:]
        return "".join(f"{it}\n" for it in [f"{head}{start:9}{rest}", *(self.moved_line(it, moved) for it in lines)])

    def moved_line(self, line: str, moved: int) -> str:
        turn, branch, number = (int(line[it : it + 9]) for it in (0, 10, 20))
        return f"{turn + moved:9} {branch:9} {number + self.entries[branch]:9}{line[29:]}"


def told_of_old(request: Request, reply: bytes) -> str:
    """The body of a reply of the bank that goes on; of a proof, without what begins anew in the next year."""
    text = body_of(reply).decode()
    return without_begun(text) if request.kind == "proof" and is_report(reply) else text


def is_report(reply: bytes) -> bool:
    return b"\r\nContent-Type: text/plain\r\n" in reply


def without_begun(text: str) -> str:
    """A proof without the lines of what begins anew."""
    return "".join(it for it in text.splitlines(True) if not it.startswith(BEGUN_ANEW))
