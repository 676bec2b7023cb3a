"""Whether replies are those of the reference model: from the states that a bank may be in, what clients got leads to
those that it may be in then."""
from collections.abc import Iterable, Sequence
from typing import NamedTuple

from checks import Wrong
from model.answers import json_text
from replies import body_of
from simulation.ledger import LongBank, Row
from simulation.messages import NOBODY, READS, Message, failure
from simulation.program import Talk
from simulation.table_rows import Tables, first_difference, rows_of_bank


class Allowed(NamedTuple):
    """What may have failed since the program began: replies that are 503, and connections that ended early. Where it is
    dead, no connection was served after the first that is not answered."""

    has_memory_faults: bool = False
    has_disk_faults: bool = False
    may_end: bool = False
    is_dead: bool = False


class State:
    """A bank, and whether its store has stopped."""

    def __init__(self, bank: LongBank, is_stopped: bool = False) -> None:
        self.bank = bank
        self.is_stopped = is_stopped


def is_of_message_alone(reply: bytes) -> bool:
    """Whether a reply says that its message states no request. (Nor is the store asked where nobody has the badge.)"""
    return b'\r\n\r\n{"fault":"M' in reply


def after_failure(state: State, message: Message, number: int, moment: int, allowed: Allowed) -> list[State]:
    """The states after a reply 503."""
    if number == 1 and allowed.has_memory_faults and message.fault not in (1, 2, 3, 4):
        return [state]
    if number == 3 and allowed.has_disk_faults and not state.is_stopped:
        return [State(state.bank, True), State(message.due(state.bank, moment)[0], True)]
    if number == 4 and state.is_stopped:
        return [state]
    raise Wrong(f"{message.given!r} is answered 503 F{number}, and nothing failed so")


def after_reply(state: State, message: Message, reply: bytes, moment: int, allowed: Allowed) -> list[State]:
    """The states after a reply, or what is wrong with it."""
    number = failure(reply)
    if number:
        return after_failure(state, message, number, moment, allowed)
    bank, due = message.due(state.bank, moment)
    if reply != due:
        raise Wrong(f"{message.given!r}\nat moment {moment} is answered\n{reply!r}; due is\n{due!r}")
    if state.is_stopped and message.asked.user != NOBODY and not is_of_message_alone(reply):
        raise Wrong(f"{message.given!r} is answered {reply!r} after the disk failed")
    return [State(bank, state.is_stopped)]


def after_replies(states: list[State], message: Message, reply: bytes, moment: int, allowed: Allowed) -> list[State]:
    """The states after a reply to a message in any of these."""
    found: list[State] = []
    wrong = []
    for state in states:
        try:
            found += after_reply(state, message, reply, moment, allowed)
        except Wrong as why:
            wrong.append(why)
    if not found:
        raise wrong[0]
    return distinct(found)


def distinct(states: list[State]) -> list[State]:
    """The same states, each once."""
    return list({(id(it.bank), it.is_stopped): it for it in states}.values())


def with_beginning(states: list[State], messages: list[Message], rest: bytes, moment: int) -> list[State]:
    """The states in which a beginning of these messages, which got no reply, is carried out; the first may have got a
    beginning of its reply."""
    found = list(states)
    for message in messages:
        made = []
        for state in states:
            bank, due = message.due(state.bank, moment)
            if state.is_stopped or (rest and not due.startswith(rest)):
                continue
            made.append(State(bank))
        states, rest = made, b""
        found += made
    return distinct(found)


def is_503_begun(rest: bytes) -> bool:
    """Whether bytes may begin a reply 503, which is not whole."""
    begin = b"HTTP/1.1 503 Service Unavailable"
    body = body_of(rest)
    bodies = [b'{"fault":"F%d"}' % number for number in range(1, 5)]
    return begin.startswith(rest[: len(begin)]) and any(it != body and it.startswith(body) for it in bodies)


def explained(states: list[State], talks: Sequence[Talk], moment: int, allowed: Allowed) -> list[State]:
    """The states after what clients got, whose connections were served one after another."""
    is_over = False
    for talk in talks:
        if is_over and (talk.replies or talk.rest):
            raise Wrong(f"{talk.given()!r} is answered after a connection that is not")
        if is_over:
            continue
        for message, reply in zip(talk.messages, talk.replies):
            states = after_replies(states, message, reply, moment, allowed)
        left = talk.messages[len(talk.replies) :]
        if left and not allowed.may_end:
            raise Wrong(f"{left[0].given!r}\nat moment {moment} got no reply, but {talk.rest!r}")
        if talk.is_answered() and talk.rest:
            raise Wrong(f"after the last reply came {talk.rest!r}")
        if left and not is_503_begun(talk.rest):
            beginnings = [message.due(state.bank, moment)[1] for state in states for message in left[:1]]
            if not any(it.startswith(talk.rest) for it in beginnings):
                raise Wrong(f"{left[0].given!r} got {talk.rest!r}, which begins no reply that is due: {beginnings[0]!r}")
        if left:
            states = with_beginning(states, left, b"" if is_503_begun(talk.rest) else talk.rest, moment)
            is_over = allowed.is_dead
            if allowed.has_disk_faults and left[0].asked.kind in READS:
                # a report that broke off has stopped the store
                states = distinct([*states, *(State(it.bank, True) for it in states)])
    return states


# ---- connections that are served side by side


MOST_STEPS = 20_000


def content_of(state: State) -> tuple[object, ...]:
    """What a state holds beside the ledger that all share: two orders of the same messages mostly come to the same."""
    bank = state.bank
    slips = frozenset((key, it.kind, json_text(it.body), json_text(it.told)) for key, it in bank.slips.items())
    releases = frozenset((key, it.giver, it.day, json_text(it.operation)) for key, it in bank.releases.items())
    sets = frozenset((number, tuple(found)) for number, found in bank.sets.items())
    kept: tuple[Iterable[object], ...] = (
        *(bank.sessions.items(), bank.users.items(), bank.relations.items()),
        *(bank.triples.items(), bank.accounts.items(), bank.days.items()),
        *(bank.entries, bank.lines, bank.open, bank.officers, bank.suspended, bank.certifiers, bank.used),
    )
    return (state.is_stopped, bank.version, len(bank.proofs), slips, releases, sets, *(frozenset(it) for it in kept))


class Search:
    """Looks for an order of the messages of several connections, each in its own order, in which the replies are due
    and after which a file has the rows that it has. Those without a reply may be carried out at any place, or not."""

    def __init__(self, talks: Sequence[Talk], moment: int, allowed: Allowed, found: Tables) -> None:
        self.talks, self.moment, self.allowed, self.found = talks, moment, allowed, found
        self.entries: dict[Row, Row] = {row[:2]: row for row in found["entries"]}
        self.lines: dict[Row, Row] = {row[:2]: row for row in found["lines"]}
        self.slips: set[Row] = {row[:2] for row in found["slips"]}
        self.days = {row[0]: int(row[3]) for row in found["branches"]}
        self.version = int(found["bank"][0][2])
        self.steps = 0
        self.seen: set[tuple[object, ...]] = set()
        self.wrong: str | None = None

    def fits(self, bank: LongBank) -> bool:
        """Whether what a bank adds to its ledger stands in the file, and it is no later there by its days and its policy."""
        entries = all(self.entries.get((it.branch, it.number), ())[2:9] == it[2:9] for it in bank.entries)
        lines = all(self.lines.get((it.branch, it.number), ())[2:4] == (it.place, it.amount) for it in bank.lines)
        is_late = bank.version > self.version or any(day > self.days[branch] for branch, day in bank.days.items())
        return entries and lines and not is_late and set(bank.slips) <= self.slips

    def is_new(self, states: list[State], places: list[int]) -> bool:
        """Whether the search comes to these states at these places for the first time."""
        size = len(self.seen)
        self.seen.add((*places, frozenset(map(content_of, states))))
        return len(self.seen) > size

    def after(self, states: list[State], places: list[int]) -> State | None:
        """The state after all that is left from these places on, or None."""
        if not self.is_new(states, places):
            return None
        self.steps += 1
        if self.steps > MOST_STEPS:
            return None
        if all(place >= len(talk.replies) for talk, place in zip(self.talks, places)):
            for state in states:
                wrong = first_difference(self.found, rows_of_bank(state.bank))
                if wrong is None:
                    return state
                self.wrong = self.wrong or wrong
        # those that are answered come first
        for at in sorted(range(len(places)), key=lambda at: places[at] >= len(self.talks[at].replies)):
            talk, place = self.talks[at], places[at]
            if place < len(talk.messages):
                found = self.one_more(states, talk, place)
                end = self.after(found, [*places[:at], place + 1, *places[at + 1 :]]) if found else None
                if end:
                    return end
        return None

    def one_more(self, states: list[State], talk: Talk, place: int) -> list[State]:
        """The states after one more message of a talk, or none."""
        message = talk.messages[place]
        if place < len(talk.replies):
            try:
                found = after_replies(states, message, talk.replies[place], self.moment, self.allowed)
            except Wrong as why:
                self.wrong = self.wrong or str(why)
                return []
        else:
            found = [State(message.due(it.bank, self.moment)[0]) for it in states if not it.is_stopped]
            if self.may_have_broken_off(message, place == len(talk.replies)):
                found = distinct([*found, *(State(it.bank, True) for it in states)])
        return [it for it in found if self.fits(it.bank)]

    def may_have_broken_off(self, message: Message, is_first: bool) -> bool:
        """Whether a message without a reply may be a report that broke off, which has stopped the store."""
        return is_first and self.allowed.has_disk_faults and message.asked.kind in READS


def explained_any(states: list[State], talks: Sequence[Talk], moment: int, allowed: Allowed, found: Tables) -> list[State]:
    """The state after what clients got whose connections were served side by side, and after which a file has these
    rows."""
    for talk in talks:
        if not talk.is_answered() and not allowed.may_end:
            raise Wrong(f"{talk.messages[len(talk.replies)].given!r}\nat moment {moment} got no reply, but {talk.rest!r}")
    search = Search(talks, moment, allowed, found)
    end = search.after(states, [0] * len(talks))
    if end is None:
        what = "was found within the steps allowed that" if search.steps > MOST_STEPS else "of them"
        raise Wrong(f"no order of {len(talks)} connections {what} explains their replies and the file: {search.wrong}")
    return [end]
