"""The machine that a program runs on: its clock, its disk and its memory do as the simulation asks for, call by call
(machine.c).

Calls are counted from when a fault is armed, so a seed has the same call fail each time.
"""
import contextlib
import mmap
import os
import struct
import subprocess
from random import Random
from typing import BinaryIO

from faults.disk_calls import calls_in
from faults.disk_states import Disk
from preload import preloaded
from sample_file import ENDINGS

# How a run ends: its status, and what it wrote on both streams.
Ended = tuple[int, bytes, bytes]

# The numbers of the block, as machine.c has them.
NUMBERS = (
    "moment stands disk_after disk_way disk_kinds disk_error disk_fired memory_after memory_count memory_fired drops_syncs "
    "waits_part disk_calls memory_calls clock_reads skipped stopped"
).split()
READS, WRITES, SYNCS, SIZES, OPENS, REMOVES, SENDS = (1 << it for it in range(7))
CHANGES = WRITES | SYNCS | SIZES | OPENS | REMOVES
FAILS_ONCE, FAILS_ON, KILLED, HALF_AND_KILLED, HALF, KILLED_AFTER = range(1, 7)
KILLS = (KILLED, HALF_AND_KILLED, KILLED_AFTER)
FAILURES = (FAILS_ONCE, FAILS_ON)
# Of what was written since the last sync a disk may hold a part, too, that is drawn.
SUBSETS = 3


class Machine:
    """A machine, whose block and library stand in a folder."""

    def __init__(self, folder: str) -> None:
        self.folder = folder
        self.library = preloaded("simulation/machine.c", folder, "-fno-builtin")
        self.path = os.path.join(folder, "block")
        with open(self.path, "w+b") as file:
            file.write(bytes(8 * len(NUMBERS)))
            file.flush()
            self.block = mmap.mmap(file.fileno(), 8 * len(NUMBERS))
        # while power can be lost: each call to the disk, and what the files held before
        self.trace: BinaryIO | None = None
        self.before: Disk | None = None

    def set(self, **numbers: int) -> None:
        """Sets numbers of the block."""
        for name, it in numbers.items():
            struct.pack_into("q", self.block, 8 * NUMBERS.index(name), it)

    def get(self, name: str) -> int:
        """A number of the block."""
        return int(struct.unpack_from("q", self.block, 8 * NUMBERS.index(name))[0])

    def arm_disk(self, after: int, way: int, kinds: int, error: int = 0) -> None:
        """Has a call to the disk not be made as it is asked for, `after` calls from now."""
        self.set(disk_way=way, disk_kinds=kinds, disk_error=error, disk_fired=0, disk_after=after)

    def arm_memory(self, after: int, count: int) -> None:
        """Has `count` calls for memory refused, the first of them `after` calls from now."""
        self.set(memory_count=count, memory_fired=0, memory_after=after)

    def disarm(self) -> None:
        """Nothing fails from now on."""
        self.set(disk_after=0, memory_after=0, waits_part=1)

    def environment(self, trace: int | None) -> dict[str, str]:
        """The environment of a program on this machine."""
        found = {"PATH": "/usr/local/bin:/usr/bin:/bin", "LANG": "C.UTF-8", "LD_PRELOAD": self.library, "MACHINE_BLOCK": self.path}
        return found | ({"MACHINE_TRACE": str(trace)} if trace is not None else {})

    def start(self, arguments: list[str], file: str, is_traced: bool = False) -> subprocess.Popen[bytes]:
        """Starts a program, with pipes. If it is traced, power can be lost: what the files hold, and each call from now on, is
        kept."""
        self.trace, kept = None, None
        if is_traced:
            self.before = Disk(file)
            self.trace = open(os.path.join(self.folder, "trace"), "w+b")
            kept = self.trace.fileno()
        return subprocess.Popen(
            arguments,
            bufsize=0,
            env=self.environment(kept),
            pass_fds=() if kept is None else [kept],
            stdin=subprocess.PIPE,
            stdout=subprocess.PIPE,
            stderr=subprocess.PIPE,
        )

    def ended(self, arguments: list[str], file: str, seconds: int, given: bytes = b"", is_traced: bool = False) -> Ended:
        """How a run on this machine ends: its status, and what it writes to both streams."""
        with self.start(arguments, file, is_traced) as run:
            try:
                output, errors = run.communicate(given, seconds)
            finally:
                run.kill()
        return run.returncode, output, errors

    def lose_power(self, file: str, rng: Random) -> str:
        """Leaves in the files what a disk may hold after the calls that were made: says which of its states that is."""
        if self.trace is None or self.before is None:
            raise LookupError("no call to the disk was kept")
        disk = self.before
        with self.trace as trace:
            trace.seek(0)
            for call in calls_in(trace.read()):
                disk.make(call)
        self.trace = None
        state = chosen_state(disk, rng)
        for ending in ENDINGS:
            with contextlib.suppress(FileNotFoundError):
                os.remove(file + ending)
        for ending, text in state.items():
            with open(file + ending, "wb") as opened:
                opened.write(text)
        return ", ".join(f"bank{ending} of {len(text)} bytes" for ending, text in state.items())


def chosen_state(disk: Disk, rng: Random) -> dict[str, bytes]:
    """What the files hold once power is lost: of each what was synced, what was written, or a part of what came between."""
    state: dict[str, bytes] = {}
    for ending, held in disk.held.items():
        ways = list(held.ways())
        for _ in range(SUBSETS if held.since else 0):
            ways.append(held.with_calls([it for it in held.since if rng.random() < 0.5]))
        state[ending] = rng.choice(ways)
    return state
