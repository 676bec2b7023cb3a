"""What fails in a part of a day, as it is drawn, and what must hold then: the program is killed, power is lost, calls
to the disk fail, memory is refused.

The program is killed at a call, after half of it or after it, at the start, too, or while idle. The power may fail with
it: of what was not synced file and log hold all, the last write, or some. Reads, writes and syncs fail; the disk has no
room, or takes half a write. Beside that clients are slow, cut, reset or silent, a dozen at once, leave replies unread or
send no heads; the clock goes back, a backup is restored, a year is closed, or killed at that; lists, files and arguments
are refused; and one bit of the file turns, which `check` has to report if pages end in sums.
"""
import errno
from random import Random
from typing import TYPE_CHECKING, NamedTuple

from checks import Wrong
from simulation.explained import State
from simulation.machine import (
    CHANGES,
    FAILS_ON,
    FAILS_ONCE,
    HALF,
    HALF_AND_KILLED,
    KILLED,
    KILLED_AFTER,
    OPENS,
    READS,
    SENDS,
    SIZES,
    SYNCS,
    WRITES,
)
from simulation.program import ByCounter, ByRun, ByServe, Way

if TYPE_CHECKING:
    from simulation.life import Agenda, Life

# How often each is drawn, and how many calls pass at most before it, from when it is armed.
WEIGHTS = {
    "nothing": 3,
    "a kill": 4,
    "a loss of power": 4,
    "a read that fails": 2,
    "a write that fails": 2,
    "a sync that fails": 2,
    "no room": 2,
    "half a write": 1,
    "a reply that is not taken": 1,
    "memory that is refused": 4,
    "a start that fails": 1,
    "a count that is reached": 1,
    "a kill while idle": 1,
}
MOST_CALLS, MOST_MEMORY_CALLS, MOST_START_CALLS = 60, 300, 120
# So often it goes by `run`, and its input ends inside a message.
BY_RUN, CUT = 0.2, 0.3
# So often by `counter` or by `run`, where there is a `counter`.
BY_COUNTER = 0.7
# The kinds of calls that fail, how, and by which error.
OF_DISK = {
    "a read that fails": (READS, errno.EIO),
    "a write that fails": (WRITES | SIZES, errno.EIO),
    "a sync that fails": (SYNCS, errno.EIO),
    "no room": (WRITES | SIZES, errno.ENOSPC),
}
LINES = {b"memory\n", b"file: not read\n", b"stream: broken\n"}
# So often the file and its log are copied after a crash.
BACKUP_AFTER_CRASH = 0.3
# So often the file is read at the end of a run in which nothing failed.
READ_AT_END = 0.2
HALF_A_MESSAGE = b"POST /do/balance HTTP/1.1\r\nHost: bank\r\nContent-Length: 15\r\n\r\n{\"acc"
COUNTED = 25


class Plan(NamedTuple):
    """What fails, and how the program runs meanwhile."""

    name: str
    way: Way

    def is_traced(self) -> bool:
        """Whether each call to the disk is kept."""
        return self.name == "a loss of power"


def drawn(rng: Random, has: set[str], is_evening: bool = False) -> Plan:
    """A plan, by the commands that the program has. In the evening all drawers are put off, which few faults disturb."""
    name = rng.choices(list(WEIGHTS), list(WEIGHTS.values()))[0]
    if is_evening and rng.random() < 0.5:
        name = "nothing"
    way = rng.random()
    if name == "a count that is reached":
        return Plan(name, ByServe)
    if way < BY_RUN and name != "a start that fails":
        return Plan(name, ByRun)
    return Plan(name, ByCounter if "counter" in has and way < BY_COUNTER else ByServe)


def arm(life: "Life", plan: Plan) -> None:
    """Has it fail, some calls from now."""
    machine, rng = life.machine, life.rng
    after = rng.randint(1, MOST_CALLS)
    if plan.name in ("a kill", "a loss of power"):
        machine.arm_disk(after, rng.choice((KILLED, HALF_AND_KILLED, KILLED_AFTER)), rng.choice((CHANGES, CHANGES | SENDS, SYNCS, SENDS)))
    elif plan.name in OF_DISK:
        kinds, error = OF_DISK[plan.name]
        machine.arm_disk(rng.randint(1, 12), rng.choice((FAILS_ONCE, FAILS_ON)), kinds, error)
    elif plan.name == "half a write":
        machine.arm_disk(after, HALF, WRITES)
    elif plan.name == "a reply that is not taken":
        machine.arm_disk(rng.randint(1, 12), FAILS_ONCE, SENDS, errno.EIO)
    elif plan.name == "memory that is refused":
        machine.arm_memory(rng.randint(1, MOST_MEMORY_CALLS), rng.choice((1, 1, 1, 5, 50)))


def segment(life: "Life", agenda: "Agenda", plan: Plan) -> None:
    """Has the agenda asked for while a plan fails. What is left of it then is asked for by a program that nothing
    befalls."""
    life.fault = f"{plan.name}, by {plan.way.name}"
    at, total, is_armed = life.rng.randint(0, len(agenda) // 2), len(agenda), False
    begin(life, plan)
    while agenda or (life.again and not life.is_counted):
        if not is_armed and total - len(agenda) >= at:
            arm(life, plan)
            is_armed = True
        states = life.round(agenda)
        if life.is_counted and not life.left:
            life.resolve(states)
            return end_counted(life, agenda)
        if life.running.is_dead() or any(it.is_stopped for it in states):
            recover(life, plan, states)
            plan = plan._replace(name="nothing")
            begin(life, plan)
        else:
            life.resolve(states)
    return end(life, plan)


def begin(life: "Life", plan: Plan) -> None:
    """Starts the program, once more where that failed."""
    life.machine.disarm()
    life.machine.set(disk_fired=0, memory_fired=0)
    life.left, life.is_counted = 0, False
    if plan.name == "a start that fails":
        fail_start(life, plan.way)
        return
    if plan.name == "a count that is reached":
        life.left, life.is_counted = COUNTED, True
        life.start(plan.way, requests=COUNTED)
    else:
        life.start(plan.way, plan.is_traced())
    if isinstance(life.running, ByServe) and not life.running.is_ready():
        raise Wrong(f"it said {life.running.line!r} first, and ended with {life.running.ended()!r}")


def fail_start(life: "Life", way: Way) -> None:
    """Has a start fail: it ends with its line and changes nothing, or it serves. Then it is started anew."""
    machine, rng = life.machine, life.rng
    if rng.random() < 0.4:
        machine.arm_memory(rng.randint(1, 2_000), rng.choice((1, 1_000)))
    else:
        ways = rng.choice((FAILS_ONCE, FAILS_ON, KILLED))
        machine.arm_disk(rng.randint(1, MOST_START_CALLS), ways, READS | OPENS | CHANGES, errno.EIO)
    running = life.start(way)
    if not running.is_ready():
        status, errors = running.ended()
        is_killed = machine.get("disk_way") == KILLED and status == -9
        fired = machine.get("disk_fired") or machine.get("memory_fired")
        if not fired or not (is_killed or (status == 3 and errors in LINES)):
            raise Wrong(f"a start that failed ended with {status}, {errors!r}")
        life.seen.add_exit(status, errors)
        life.seen.add("starts that failed")
        life.serving = None
        machine.disarm()
        machine.set(disk_fired=0, memory_fired=0)
        life.require_rows("after a start that failed")
        running = life.start(way)
        if not running.is_ready():
            raise Wrong(f"it said {running.line!r} first, and ended with {running.ended()!r}")


def count_fired(life: "Life", plan: Plan) -> None:
    """Counts what failed."""
    life.seen.add(plan.name, int(life.machine.get("disk_fired") > 0 or life.machine.get("memory_fired") > 0))
    life.seen.add("calls for memory refused", life.machine.get("memory_fired"))
    life.seen.add("calls to the disk that failed", life.machine.get("disk_fired"))


def recover(life: "Life", plan: Plan, states: list[State]) -> None:
    """Looks at what is left of a program that ended, or whose store stopped."""
    count_fired(life, plan)
    life.running.let_go()
    is_dead = life.running.is_dead()
    status, errors = life.running.ended() if is_dead else life.running.terminated()
    life.seen.add_exit(status, errors)
    if is_dead and status != -9 and not (status == 3 and errors in LINES):
        raise Wrong(f"it ended with {status}, {errors!r}")
    life.serving = None
    life.machine.disarm()
    life.lose_power()
    life.resolve(states)
    life.seen.add("restarts after a fault")
    if life.rng.random() < BACKUP_AFTER_CRASH:
        life.back_up()


def end(life: "Life", plan: Plan) -> None:
    """Ends the program as it is ended each day, or by a kill or a loss of power while it is idle."""
    count_fired(life, plan)
    life.running.let_go()
    if plan.is_traced() or plan.name == "a kill while idle":
        found = life.running.killed()
        due = {(-9, b"")}
        life.seen.add("idle " + plan.name)
    elif isinstance(life.running, ByCounter) and life.rng.random() < 0.7:
        found, due = life.running.input_ended(), {(0, b"")}
    elif isinstance(life.running, ByServe):
        found, due = life.running.terminated(), {(-15, b"")}
    elif life.rng.random() < CUT:
        found, due = life.running.input_ended(HALF_A_MESSAGE), {(3, b"stream: cut\n")}
    else:
        found, due = life.running.input_ended(), {(0, b"")}
    fired = any(life.machine.get(it) for it in ("disk_after", "disk_fired", "memory_after", "memory_fired"))
    if found not in due and not (fired and (found[0] == -9 or found[0] in (0, 3) and found[1] in LINES | {b""})):
        raise Wrong(f"it ended with {found!r}; due is {due!r}")
    life.seen.add_exit(*found)
    life.serving = None
    life.machine.disarm()
    life.lose_power()
    if plan.name != "nothing" or life.rng.random() < READ_AT_END:
        life.require_rows("at the end of a run")


def end_counted(life: "Life", agenda: "Agenda") -> None:
    """Ends a program that has counted its messages, and goes on by another one."""
    life.running.let_go()
    found = life.running.ended()
    if found != (0, b""):
        raise Wrong(f"it had counted its messages, and ended with {found!r}")
    life.seen.add_exit(*found)
    life.serving = None
    life.require_rows("once it has counted its messages")
    segment(life, agenda, Plan("nothing", ByServe))
