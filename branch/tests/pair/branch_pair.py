"""The pair: its machines, networks and switch, made by the page's lines, and looked at. This one has our own watch."""
import contextlib
import random
import re
import shutil
import time
from collections.abc import Sequence
from functools import partial
from pathlib import Path

from branch.tests.blocks import blocks
from branch.tests.branches import TELLERS, USERS
from checks import Wrong, require, wait_until
from branch.tests.pair import networks
from branch.tests.pair.comparison import compare, require_same_disks
from branch.tests.pair.image import DISK
from branch.tests.pair.lists import BADGE, write_lists
from branch.tests.pair.machines import HOSTS, MACHINES, PAGE, PAUSE, Machine, on_each, say
from branch.tests.pair.plants import Plant
from branch.tests.pair.power import Switch
from branch.tests.pair.tellers import WITH_SLIPS, Book, client_of, load_of

# What is other here than in an office: the disk, the card's name, and a slower machine with a small disk.
DISK_SETTINGS = f"""
    sed -i 's,/dev/vdb,{DISK},; s,ping-timeout 30,ping-timeout 60,' /etc/drbd.d/bank.res
    mkdir -p /etc/systemd/system/bank-disk.service.d
    printf '[Service]\\nEnvironment=LEAST=16\\n' >/etc/systemd/system/bank-disk.service.d/trial.conf
"""
SAMPLE = "/usr/share/doc/tespiorvu/examples/sample"
WHOLE = "grep -q 'cs:Connected ro:[PS].* ds:UpToDate/UpToDate' /proc/drbd"
SERVES = "systemctl is-active -q bank-front && systemctl is-active -q bank && grep -q ro:Primary /proc/drbd"


class Pair:
    """Two machines with a branch, its tellers and their book."""

    # Which way this is; with what the marks of its blocks on the page begin; and what is other here than there.
    way, prefix = "watch", "watch-"
    settings = DISK_SETTINGS + "sed -i 's,eth0,vec0,' /etc/bank-branch.conf"
    # A machine is up in 10 to 60 seconds, and a branch is taken over in 20 to 60; on a busy machine all takes ten times as long.
    patience = 600

    def __init__(self, folder: Path, image: Path, plant: Plant | None) -> None:
        self.folder, self.image, self.plant = folder, image, plant
        networks.build(HOSTS)
        self.machines = {name: Machine(folder, image, name) for name in MACHINES}
        self.others: dict[str, Machine] = {}
        self.a, self.b = self.machines.values()
        self.switch = Switch(self.machines)
        self.authority, self.book = folder / "authority", Book(folder / "book")
        self.entries = len(self.book.got)

    # ---- from nothing to a branch that serves, or on from what is there

    def make(self, packages: Sequence[Path]) -> None:
        """Installs both machines by the lines of the page, with lists of six tellers."""
        brought = self.folder / "brought"
        shutil.rmtree(brought, ignore_errors=True)
        brought.mkdir()
        for package in (*packages, packages[0].with_name("SHA256SUMS")):
            shutil.copy(package, brought)
        write_lists(brought / "lists")
        self.all_on()
        on_each([*self.machines.values(), *self.others.values()], lambda it: it.put(brought, "/srv/brought"))
        say("both machines have started")
        known = {**self.machines, **self.others}
        own = [it for it in blocks(PAGE) if re.fullmatch(f"sh {self.prefix}[a-z]+", it.mark)]
        for number, (mark, lines, wanted) in enumerate(own):
            who = mark.removeprefix(f"sh {self.prefix}")
            names = list(MACHINES) if who == "both" else [who] if who in known else []
            lines = lines.replace(SAMPLE, "/srv/brought/lists").replace("tess tom sue", f"sue {BADGE} {' '.join(TELLERS)}")

            def carry_out(machine: Machine, lines: str = lines, wanted: str | None = wanted) -> None:
                wrote = machine.done(f"set -e; cd /srv/brought; exec 2>&1; {lines}")
                if wanted:
                    require(wanted.strip() in wrote.splitlines(), True, f"{wanted.strip()!r} of {lines[:40]!r}: {wrote}")
            on_each([known[name] for name in names], carry_out)
            say(f"block {number} of the page is carried out")
            if number == 0:
                on_each(self.machines.values(), lambda it: it.done(self.settings))
        say("the lines of the page are carried out")
        self.await_whole()
        self.a.fetch("/root/authority", self.authority)
        self.begin_sessions()
        (self.folder / "made").touch()

    def sow(self) -> None:
        """Plants the fault, if there is one, while the branch serves. What is started once has it from the next start on."""
        self.switch.is_false = self.plant is not None and self.plant.has_false_switch
        if self.plant and not (self.folder / "sown").exists():
            for line in self.plant.lines:
                on_each(self.machines.values(), partial(Machine.done, text=line))
            (self.folder / "sown").touch()

    def begin_sessions(self) -> None:
        """Each teller begins a session and puts a drawer on; who closes the day begins a session, too."""
        for who in (*TELLERS, "sue"):
            with contextlib.closing(client_of(self.authority, who, seconds=20)) as client:
                has_begun = lambda: client.ask("/session") == (200, '{"session":1}')
                wait_until(has_begun, self.patience, f"session of {who}", 0.5)
        self.begin_drawers()

    def begin_drawers(self) -> None:
        """Each teller puts a drawer on."""
        for i, who in enumerate(TELLERS):
            body = {"branch": 1, "cash": 1000, "teller": 11 + i}
            with contextlib.closing(client_of(self.authority, who, seconds=20)) as client:
                wait_until(lambda: client.ask("/do/drawer-on", body)[0] == 200, self.patience, f"drawer of {who}", 0.5)

    def go_on(self) -> None:
        """Starts machines that were made before, as a person does once both were off."""
        self.all_on()
        self.recover()

    def recover(self) -> None:
        """Does what the page asks of a person after both were off."""
        self.await_same()
        if not self.primary():
            random.choice([self.a, self.b]).carry_out("watch-there")
        self.await_whole()

    def move(self, here: Machine, there: Machine) -> None:
        """Moves the branch by the lines of the page."""
        here.carry_out("watch-here")
        there.carry_out("watch-there")

    def parts(self, there: Machine, moment: float) -> str:
        """How long the parts of a takeover took, since a moment in seconds since 1970, by the journal of the machine that took over."""
        asked = time.time()
        ahead = float(there.done("date +%s.%N")) - (asked + time.time()) / 2 # its clock, which no server sets
        found = [moment + ahead]
        journal = there.done(f"journalctl -o short-unix -u bank-stand-by -u bank-branch --since @{int(found[0])} --no-pager")
        for text in ("the other is silent", "the disk is this machine's", "the branch is here"):
            lines = [line for line in journal.splitlines() if text in line and float(line.split()[0]) > found[-1]]
            if not lines:
                return "parts not found"
            found.append(float(lines[0].split()[0]))
        silent, disk, units = (later - earlier for earlier, later in zip(found, found[1:]))
        return f"silent {silent:.1f}, fenced {disk:.1f}, units {units:.1f} s"

    def serve(self) -> None:
        """Has the tellers post."""
        self.sow()
        self.load = load_of(self.authority, self.book)
        self.load.start()
        self.await_acknowledged()
        say(f"the branch serves at {self.serving().name}")

    # ---- looking

    def primary(self) -> Machine | None:
        """The machine that has the disk, if one has."""
        return next((it for it in self.machines.values() if " ro:Primary/" in it.state()), None)

    def serving(self) -> Machine:
        """The machine that has the branch."""
        found = [it for it in self.machines.values() if it.is_on() and not it.sh(SERVES, timeout=30).returncode]
        require(len(found), 1, f"machines that serve: {[it.name for it in found]}")
        return found[0]

    def sides(self) -> tuple[Machine, Machine]:
        """The machine that has the branch, and the other."""
        here = self.serving()
        return here, self.b if here is self.a else self.a

    def states(self) -> str:
        """What DRBD says on each machine."""
        return ", ".join(f"{it.name}: {it.state() or 'off'}" for it in self.machines.values())

    def await_same(self) -> None:
        """Waits until both disks have the same."""
        def are_same() -> bool:
            states = self.states()
            require("cs:StandAlone" in states, False, f"whether DRBD has given up ({states})")
            return all(it.is_on() and not it.sh(WHOLE, timeout=60).returncode for it in self.machines.values())

        wait_until(are_same, self.patience, "the disks are the same", PAUSE)

    def await_whole(self) -> float:
        """Waits until both disks have the same, and one machine serves; how long that took."""
        since = time.monotonic()
        self.await_same()
        here = self.primary()
        if here is None:
            raise Wrong(f"the branch is on neither: {self.states()}")
        here.await_that(SERVES, self.patience)
        return time.monotonic() - since

    def await_acknowledged(self) -> None:
        """Waits until each teller who has slips has been acknowledged once more."""
        before = {USERS[who]: self.book.count[USERS[who]] for who in WITH_SLIPS}
        are_more = lambda: all(self.book.count[user] > count for user, count in before.items())
        wait_until(are_more, self.patience, "all are acknowledged", 0.1)

    def await_service(self, machine: Machine) -> None:
        """As above, and requires that this machine serves."""
        self.await_acknowledged()
        require(self.serving().name, machine.name, "the machine that serves")

    def check(self) -> int:
        """Has the tellers stop, and compares what the disks have with their book. How many entries are new."""
        self.load.stop(self.patience)
        before, self.entries = self.entries, compare(self.serving(), self.book)
        require_same_disks(list(self.machines.values()))
        self.load.start()
        return self.entries - before

    # ---- mending

    def all_on(self) -> None:
        """Gives power to all machines, and waits until they have started."""
        began = [it for it in (*self.others.values(), *self.machines.values()) if not it.is_on()]
        for each in began:
            each.on()
        on_each(began, Machine.up)

    def repair(self) -> None:
        """After a round that failed: all plugs are in, both machines have power, and the branch is on one."""
        networks.mend(HOSTS)
        self.all_on()
        self.recover()
        self.load.start()

    def all_off(self) -> None:
        """The power of all machines fails, which keep their disks."""
        for each in (*self.machines.values(), *self.others.values()):
            each.off()

    def end(self) -> None:
        """Ends all that the trial began."""
        self.all_off()
