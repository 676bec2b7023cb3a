"""The life of a bank: days of sessions, drawers and requests, over one file, while things fail (failing.py)."""
import os
import random
import shutil
import sqlite3
import subprocess

from checks import Wrong
from model.bank import Body
from sample_file import ENDINGS
from simulation import errands, failing, forwards
from simulation.coverage import Seen
from simulation.drawing import STRANGERS, Drawing
from simulation.explained import Allowed, State, explained, explained_any
from simulation.ledger import LongBank
from simulation.machine import FAILURES, KILLS, SENDS, Ended, Machine
from simulation.messages import Asked, Message, failure
from simulation.opening import DAY, FIRST_MOMENT, opening_of, write_badges, write_opening
from simulation.plants import Crossing
from simulation.program import MOST_REQUESTS, ByCounter, ByRun, ByServe, Running, Talk, Way, commands_of
from simulation.table_rows import first_difference, rows_of_bank, rows_of_file

# What is asked for, with the number of a user, a teller or a branch, or 0; or None for what is drawn.
Item = tuple[str, int] | None
Agenda = list[Item]

SECONDS = 120
# How many messages are sent at a time on one connection; and how many connections are made at once.
AT_A_TIME = (1, 1, 1, 2, 3, 5, 8)
A_DOZEN = 12
# So often a round is one of many connections, of another manner, or has a client that lets a reply be lost.
MANY, MANY_BY_COUNTER, OTHER_MANNER, SILENT, LOST = 0.03, 0.15, 0.08, 0.002, 0.03
# So often a connection is kept for the next round.
KEPT = 0.5
# How often, at the end of a day, something is done with copies.
BACKUP, RESTORE = 0.3, 0.06
# So often the bank begins as a file of an earlier schema version, the clock goes back, and something else is tried.
UPGRADED, CLOCK_BACK, ERRAND = 0.35, 0.2, 0.4
# So often a year is closed, and a bit is flipped.
FORWARD, FLIPPED = 0.1, 0.2
# So often a branch is closed in the evening.
CLOSED = 0.85


class Life:
    """The life of a bank by a seed. Everything of it stands in a folder."""

    def __init__(self, seed: int, days: int, requests: int, program: str, room: str, plant: str | None = None) -> None:
        self.seed, self.days, self.requests = seed, days, requests
        self.program, self.room, self.plant = program, room, plant
        self.rng = random.Random(f"life {seed}")
        self.seen = Seen()
        self.day, self.fault = 0, "none"
        self.machine = Machine(room)
        self.has = commands_of(program)
        self.file, self.saved = os.path.join(room, "bank"), os.path.join(room, "saved")
        self.badges = os.path.join(room, "badges.csv")
        self.saved_bank: LongBank | None = None
        self.log = open(os.path.join(room, "messages"), "wb", buffering=1 << 16)
        self.version = errands.earlier_version(self.rng) if self.rng.random() < UPGRADED else None
        self.opening = opening_of(self.rng, self.version is not None and not self.version.has_moments)
        self.bank = self.opening.bank.copied()
        self.drawing = Drawing(self.rng, self.opening)
        self.moment = FIRST_MOMENT
        # the messages that clients send again, by user
        self.again: dict[int, list[Message]] = {}
        self.serving: Running | None = None
        # what may have failed since it began, and how many replies said that memory was refused
        self.allowed, self.memory_faults = Allowed(), 0
        # how many messages are left until the program has counted those that it serves, where it does
        self.left, self.is_counted = 0, False

    # -- its beginning

    def begin(self) -> None:
        """Makes the bank, which may be one of an earlier schema version that is migrated."""
        lists = os.path.join(self.room, "lists")
        write_opening(self.opening, lists)
        write_badges(self.opening.badges, self.badges)
        if self.plant == "badge":
            with open(self.badges, "a", encoding="ascii") as file:
                file.write(f"{STRANGERS[0]},{self.opening.staff.tellers[0]}\n")
        self.machine.set(drops_syncs=int(self.plant == "sync"), stands=int(self.plant == "clock"))
        sums = ["--sums"] if "sums" in self.has else []
        self.require_ended(["init", self.file, lists, *sums], (0, b"made\n", b""))
        if self.version:
            errands.upgrade(self, self.version)
        self.require_rows("at the opening")

    def live(self) -> None:
        """Lives all days."""
        self.begin()
        for self.day in range(1, self.days + 1):
            self.one_day()
        self.seen.add_bank(self.bank)

    # -- a day

    def one_day(self) -> None:
        """A day: mornings and evenings are asked for; what is asked for between them is drawn."""
        self.moment = FIRST_MOMENT + self.day * DAY + self.rng.randint(0, 9_000)
        parts = self.rng.randint(3, 5)
        midday: Agenda = [None] * max(self.requests - 30, 20)
        agenda = self.morning() + midday
        size = -(-len(agenda) // parts)
        for at in range(0, len(agenda), size):
            failing.segment(self, agenda[at : at + size], failing.drawn(self.rng, self.has))
            if self.rng.random() < CLOCK_BACK / parts:
                self.moment -= self.rng.randint(1, 3 * DAY)
                self.seen.add("clock set back")
        failing.segment(self, self.evening(), failing.drawn(self.rng, self.has, is_evening=True))
        self.end_day()

    def morning(self) -> Agenda:
        """What is asked for first: sessions, what the policy lost, and drawers."""
        staff = self.opening.staff
        users = [it for it in staff.all() if it not in self.bank.open or self.rng.random() < 0.3]
        agenda: Agenda = [*(("session", it) for it in users), *[("repair", 0)] * 4]
        return [*agenda, *[("drawer-on", 0)] * self.rng.randint(2, len(self.bank.tellers))]

    def evening(self) -> Agenda:
        """What is asked for last: drawers are put off, and days closed."""
        agenda: Agenda = [("drawer-off of", it) for it in self.bank.tellers]
        return [*agenda, *(("close-day of", it) for it in self.bank.branches if self.rng.random() < CLOSED)]

    def end_day(self) -> None:
        """The log goes into the file, which has to hold what it has to; it is copied, or goes back to a copy."""
        self.fault = "the end of the day"
        arguments = ["run", self.file, "--badges", self.badges, "--moment", "0"]
        self.require_ended(arguments, (0, b"", b""))
        if os.path.exists(self.file + "-wal"):
            os.remove(self.file + "-wal")
        self.require_rows("of the file alone")
        self.require_ended(["check", self.file], (0, b"books hold\n", b""))
        if self.rng.random() < BACKUP:
            self.back_up()
        if self.rng.random() < RESTORE and self.saved_bank:
            self.restore(self.saved_bank)
        if self.rng.random() < ERRAND:
            errands.one(self)
        if "forward" in self.has and self.rng.random() < FORWARD:
            forwards.forward(self)
        if "sums" in self.has and self.rng.random() < FLIPPED:
            errands.flip(self)

    # -- copies

    def back_up(self) -> None:
        """Copies the file and its log. Nothing serves them."""
        for ending in ENDINGS:
            if os.path.exists(self.saved + ending):
                os.remove(self.saved + ending)
            if os.path.exists(self.file + ending) and not (self.plant == "copy" and ending):
                shutil.copyfile(self.file + ending, self.saved + ending)
        self.saved_bank = self.bank.copied()
        self.seen.add("backups taken")

    def restore(self, saved: LongBank) -> None:
        """Goes back to the copy, and the model with it."""
        self.fault = "a backup that is restored"
        for ending in ENDINGS:
            if os.path.exists(self.file + ending):
                os.remove(self.file + ending)
            if os.path.exists(self.saved + ending):
                shutil.copyfile(self.saved + ending, self.file + ending)
        self.bank = saved.copied()
        self.seen.add("backups restored")
        self.require_rows("of the backup")

    # -- what the file has to hold

    def require_rows(self, when: str) -> None:
        """Goes through where the file holds the rows of the model."""
        wrong = first_difference(rows_of_file(self.file, self.room), rows_of_bank(self.bank))
        if wrong:
            raise Wrong(f"rows {when}: {wrong}")

    def resolve(self, states: list[State]) -> State:
        """Takes the state that the file is in, which has to be one of these."""
        if len(states) > 1 or self.serving is None:
            found = rows_of_file(self.file, self.room)
            wrong = [first_difference(found, rows_of_bank(it.bank)) for it in states]
            if None not in wrong:
                raise Wrong(f"the file holds none of {len(states)} states: {wrong[0]}; or: {wrong[-1]}")
            states = [states[max(at for at, it in enumerate(wrong) if it is None)]]
        self.bank = states[0].bank
        self.bank.settle()
        return states[0]

    # -- runs

    @property
    def running(self) -> Running:
        """The program, which has to run."""
        if self.serving is None:
            raise LookupError("no program runs")
        return self.serving

    def require_ended(self, arguments: list[str], wanted: Ended) -> None:
        """Goes through where a run of the program ends so."""
        said = self.machine.ended([self.program, *arguments], self.file, SECONDS)
        self.seen.add_exit(said[0], said[2] or (said[1] if said[0] == 1 else b""))
        if said != wanted:
            raise Wrong(f"{arguments[0]} ended with {said!r}; due is {wanted!r}")

    def start(self, way: Way, is_traced: bool = False, requests: int = MOST_REQUESTS) -> Running:
        """Starts the program by `serve` or `run`."""
        running = way(self.machine, self.program, self.file, self.badges, self.moment, is_traced, requests)
        self.serving = running
        self.allowed, self.memory_faults = Allowed(), 0
        if self.plant == "reply" and isinstance(running, ByServe) and running.is_ready():
            running.proxy = Crossing(running.port)
        return running

    # -- rounds

    def take_time(self) -> None:
        """Some seconds pass, where the clock is the machine's."""
        if isinstance(self.running, ByRun):
            self.moment = self.running.moment
        else:
            self.moment += self.rng.choice([0, 1, self.rng.randint(1, 90)])
        self.machine.set(moment=self.moment)
        self.drawing.moment = self.moment

    def repair(self, bank: LongBank) -> Asked:
        """What gives back a row of the opening policy, or anything else."""
        opened, rng = self.opening.bank, self.rng
        staff, drawing = self.opening.staff, self.drawing
        gone = [it for it in bank.suspended if it in staff.all()]
        if gone:
            officer = rng.choice([it for it in staff.officers if it not in gone] or staff.officers)
            return drawing.asked(bank, "restore", officer, {"user": gone[0]})
        for procedure, number in opened.relations:
            if (procedure, number) not in bank.relations:
                return drawing.asked(bank, "certify", staff.certifiers[0], {"procedure": procedure, "set": number})
        for (user, procedure, number), it in opened.triples.items():
            if (user, procedure, number) not in bank.triples:
                body: Body = {"user": user, "procedure": procedure, "set": number, "limit": it.limit}
                return drawing.asked(bank, "grant", staff.certifiers[0], body)
        return drawing.asked(bank, "listing", rng.choice(staff.officers), {})

    def message_of(self, item: Item, bank: LongBank) -> Message:
        """The message of an item of the agenda."""
        drawing = self.drawing
        if item is None:
            return drawing.drawn(bank)
        what, which = item
        if what == "session":
            return drawing.message(drawing.asked(bank, "session", which, {}))
        if what == "repair":
            return drawing.message(self.repair(bank))
        if what == "drawer-off of":
            user, branch = bank.holder(which) or self.opening.staff.tellers[0], bank.branch_of(which)
            counted = max(bank.cash(branch, which) + self.rng.choice([0, 0, -5, 5]), 0)
            return drawing.message(drawing.asked(bank, "drawer-off", user, {"branch": branch, "counted": counted, "teller": which}))
        if what == "close-day of":
            user = self.rng.choice(self.opening.staff.supervisors)
            return drawing.message(drawing.asked(bank, "close-day", user, {"branch": which}))
        return drawing.drawn(bank, what)

    def drawn_talk(self, agenda: Agenda, bank: LongBank, most: int) -> tuple[Talk, LongBank]:
        """A talk of some items of the agenda, which are taken from it, and the bank after it."""
        messages: list[Message] = []
        while agenda and len(messages) < most and not (messages and messages[-1].closes):
            item = agenda.pop(0)
            message = self.message_of(item, bank)
            while message.closes and isinstance(self.running, ByRun):
                message = self.message_of(item, bank)
            bank = message.due(bank, self.moment)[0]
            messages.append(message)
        return Talk(messages), bank

    def talks_again(self) -> list[Talk]:
        """What clients send again, one talk for each user."""
        talks = []
        for user, messages in self.again.items():
            for it in messages:
                it.renew(self.bank.sessions.get(user) or 1)
            talks.append(Talk(messages))
        self.again = {}
        return talks

    def drawn_talks(self, agenda: Agenda) -> list[Talk]:
        """The talks of a round."""
        rng = self.rng
        if self.again and not self.left:
            return self.talks_again()
        many = MANY_BY_COUNTER if isinstance(self.running, ByCounter) else MANY
        if isinstance(self.running, ByServe) and not self.left and rng.random() < many:
            bank, talks = self.bank, list[Talk]()
            for _ in range(A_DOZEN):
                talk, bank = self.drawn_talk(agenda, bank, rng.choice((0, 1, 1, 2)))
                talks.append(talk)
            self.seen.add("dozens of connections at once")
            return talks
        most = rng.choice(AT_A_TIME)
        talk, _ = self.drawn_talk(agenda, self.bank, min(most, self.left or most))
        self.left -= len(talk.messages) if self.left else 0
        return [talk]

    def drawn_manner(self, talks: list[Talk]) -> None:
        """Draws in which manner the only client of a round talks."""
        rng = self.rng
        if not isinstance(self.running, ByServe) or len(talks) != 1 or self.running.kept or self.is_counted:
            return
        if rng.random() < SILENT:
            talks[0].manner = "silent"
        elif rng.random() < OTHER_MANNER:
            talks[0].manner = rng.choice(("bytes", "slow", "half", "unread"))
        elif rng.random() < OTHER_MANNER / 4:
            talks.insert(0, Talk([], "reset"))
            self.seen.add("connections reset")
        if talks[-1].manner != "plain":
            self.seen.add(f"connections {talks[-1].manner}")

    def round(self, agenda: Agenda) -> list[State]:
        """Has clients send some of what the agenda has, and holds the replies against the model. Returns the states."""
        self.take_time()
        talks = self.drawn_talks(agenda)
        self.drawn_manner(talks)
        keeps = len(talks) == 1 and talks[0].manner == "plain" and self.rng.random() < KEPT
        self.write(talks, "sent")
        self.running.converse(talks, keeps)
        self.write(talks, "got")
        self.update_allowed()
        states = self.explained(talks)
        self.note(talks)
        if self.memory_faults > self.machine.get("memory_fired"):
            raise Wrong(f"{self.memory_faults} replies are 503 F1, and fewer calls for memory were refused")
        return states

    def explained(self, talks: list[Talk]) -> list[State]:
        """The states that the replies lead to."""
        if isinstance(self.running, ByCounter) and len(talks) > 1:
            if self.running.is_dead():
                self.lose_power()
            found = rows_of_file(self.file, self.room)
            return explained_any([State(self.bank)], talks, self.moment, self.allowed, found)
        return explained([State(self.bank)], talks, self.moment, self.allowed)

    def lose_power(self) -> None:
        """Has the machine lose power, if each call was kept for that."""
        if self.machine.trace:
            self.fault += f": {self.machine.lose_power(self.file, self.rng)}"

    def update_allowed(self) -> None:
        """What may have failed by now."""
        memory, disk = (self.machine.get(it) > 0 for it in ("memory_fired", "disk_fired"))
        way, kinds = self.machine.get("disk_way"), self.machine.get("disk_kinds")
        if disk and way in KILLS:
            self.running.run.wait(SECONDS)
        fails = disk and way in FAILURES
        is_dead = self.running.is_dead()
        self.allowed = Allowed(memory, fails and kinds != SENDS, memory or fails or is_dead, is_dead)

    def note(self, talks: list[Talk]) -> None:
        """Counts replies, and has clients with slips send again from the first that got none, or 503."""
        for talk in talks:
            for message, reply in talk.pairs():
                if reply is not None:
                    self.memory_faults += failure(reply) == 1
                    self.seen.add_reply(message, reply)
                    self.seen.add("slip sent again", int(message.was_sent))
                is_lost = reply is None or failure(reply) in (1, 3, 4) or self.rng.random() < LOST
                user = message.asked.user
                if message.is_again() and (is_lost or user in self.again):
                    message.was_sent = True
                    self.again.setdefault(user, []).append(message)

    def write(self, talks: list[Talk], what: str) -> None:
        """Writes what was sent or came to the log of messages."""
        for number, talk in enumerate(talks, 1):
            text = talk.given() if what == "sent" else b"".join(talk.replies) + talk.rest
            head = f"== day {self.day}, moment {self.moment}, connection {number} of {len(talks)}, {talk.manner}, {what}\n"
            self.log.write(head.encode() + text + b"\n")

    def close(self) -> None:
        """Ends what runs, and writes the log."""
        if self.serving and not self.serving.is_dead():
            self.serving.killed()
        self.log.close()


FAULTS = (Wrong, OSError, LookupError, ValueError, sqlite3.Error, subprocess.SubprocessError)
