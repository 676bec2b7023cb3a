"""The rounds: what is done to a pair while tellers post. Each returns what was seen."""
import random
import time
from collections.abc import Callable
from functools import partial
from typing import NamedTuple

from branch.tests.blocks import lines_of
from checks import require, wait_until
from branch.tests.pair import networks
from branch.tests.pair.branch_pair import Pair
from branch.tests.pair.image import DISK
from branch.tests.pair.machines import HOSTS, MACHINES, PAGE, PAUSE, THIRD, Machine, on_each
from branch.tests.pair.office import office_over_a_year

# Seconds for which a cut lasts, and for which an old disk is watched. With Pacemaker all takes longer.
CUT, WATCHED = {"watch": (18, 30), "pacemaker": (40, 70)}, {"watch": 30, "pacemaker": 60}
DM = ("export DM_DISABLE_UDEV=1; size=$(cat /sys/block/ubdb/size); "
      f"map() {{ dmsetup load {DISK} --table \"$1\" && dmsetup resume {DISK}; }}; ")


def wait_a_while(least: float = 0.5, most: float = 4) -> None:
    """Waits until a random moment."""
    time.sleep(random.uniform(least, most))


def back(pair: Pair, *machines: Machine) -> str:
    """Gives power to machines, and waits until they have caught up. How long it took."""
    since = time.monotonic()
    for each in machines:
        each.on()
    on_each(machines, Machine.up)
    started = time.monotonic() - since
    took = pair.await_whole()
    return f"back after {started:.0f} s, caught up {took:.0f} s later"


def move(pair: Pair) -> str:
    """The branch is moved by order."""
    here, there = pair.sides()
    pair.move(here, there)
    pair.await_service(there)
    return f"{here.name} to {there.name}; whole after {pair.await_whole():.0f} s"


def power_of_serving(pair: Pair) -> str:
    """The machine that serves loses its power, and comes back."""
    here, there = pair.sides()
    wait_a_while()
    moment = time.time()
    here.off()
    pair.await_service(there)
    seen = pair.parts(there, moment)
    wait_a_while()
    return f"{here.name} off; {seen}; {back(pair, here)}"


def power_of_other(pair: Pair) -> str:
    """The machine that stands by loses its power, and comes back."""
    here, there = pair.sides()
    wait_a_while()
    there.off()
    pair.await_service(here)
    wait_a_while()
    return f"{there.name} off; {back(pair, there)}"


def power_without_switch(pair: Pair) -> str:
    """The machine that serves loses its power while the other can't reach the switch: nobody takes over before that is mended."""
    here, there = pair.sides()
    networks.plug("office", there.name, False)
    wait_a_while()
    here.off()
    since = time.monotonic()
    time.sleep(WATCHED[pair.way])
    silent(pair, since, "a takeover without the switch")
    networks.mend(HOSTS)
    pair.await_service(there)
    return f"{here.name} off; {back(pair, here)}"


def power_without_voice(pair: Pair) -> str:
    """The machine that serves loses its power while the other reaches neither the switch nor the third. Without a voice that one stops its
    disk, so once its cable is mended it can't know whether its disk is the newest, and waits for the other."""
    here, there = pair.sides()
    networks.plug("office", there.name, False)
    wait_a_while()
    here.off()
    since = time.monotonic()
    there.await_that("! grep -q ds: /proc/drbd", pair.patience)
    networks.mend(HOSTS)
    there.await_that("grep -q ds:Consistent/ /proc/drbd", pair.patience)
    time.sleep(WATCHED[pair.way])
    silent(pair, since, f"by {there.name} alone")
    here.start()
    pair.recover()
    return f"{here.name} off, {there.name} without service, {here.name} back; {pair.serving().name} serves"


def silent(pair: Pair, since: float, what: str) -> None:
    """Requires that nothing was acknowledged from a moment on."""
    found = [it for it in pair.book.moments if it.moment > since + 0.5]
    require(len(found), 0, f"acknowledged: {what}")


def both_off(pair: Pair) -> tuple[Machine, Machine]:
    """The machine that serves loses its power, the other takes over, and then loses its own: the one with the old disk, and the other."""
    here, there = pair.sides()
    wait_a_while()
    here.off()
    pair.await_acknowledged()
    wait_a_while()
    there.off()
    return here, there


def back_in_turn(pair: Pair, first: Machine, second: Machine) -> str:
    """One of two machines comes back, and does not serve before the other has come back, too."""
    since = time.monotonic()
    first.start()
    time.sleep(WATCHED[pair.way])
    silent(pair, since, f"by {first.name} alone ({first.state()})")
    second.start()
    pair.recover()
    return f"{first.name} back without service, {second.name} back"


def both_old_first(pair: Pair) -> str:
    """Both lose their power one after another; the one with the old disk comes back first, and must not serve."""
    old, newest = both_off(pair)
    return f"{old.name} off, {newest.name} off, {back_in_turn(pair, old, newest)}"


def both_newest_first(pair: Pair) -> str:
    """Both lose their power one after another; the last that served comes back first, and serves alone."""
    old, newest = both_off(pair)
    newest.on()
    pair.await_acknowledged()
    newest.up()
    require(pair.serving().name, newest.name, "the machine that serves")
    return f"{old.name} off, {newest.name} off, {newest.name} back and serves alone; {old.name} {back(pair, old)}"


def both_newest_waits(pair: Pair) -> str:
    """Both lose their power one after another; the last that served comes back first, and waits for the other, as it can't know which
    disk is the newest."""
    old, newest = both_off(pair)
    return f"{old.name} off, {newest.name} off, {back_in_turn(pair, newest, old)}"


def both_at_once(pair: Pair) -> str:
    """Both lose their power at one moment, and come back."""
    wait_a_while()
    pair.all_off()
    pair.all_on()
    pair.recover()
    return f"both off and back, {pair.serving().name} serves"


def shut_down(pair: Pair) -> str:
    """The machine that stands by is shut down by order, and comes back."""
    here, there = pair.sides()
    since = time.monotonic()
    there.sh("systemctl poweroff")
    wait_until(lambda: not there.is_on(), pair.patience, f"{there.name} is off", 0.2)
    pair.await_acknowledged()
    require(pair.switch.turned_off(since), [], "what was switched off")
    return f"{there.name} shut down; {here.name} serves on; {back(pair, there)}"


def disk_fails(pair: Pair, side: int) -> str:
    """The disk fails below DRBD where the branch is, or on the other side; the branch serves on, and is moved if it was
    there; then the disk is replaced."""
    failed = pair.sides()[side]
    failed.done(DM + 'map "0 $size error"')
    pair.await_acknowledged()
    failed.await_that("grep -q ds:Diskless /proc/drbd", 60)
    leave(pair, failed)
    failed.done(DM + 'map "0 $size linear /dev/ubdb 0" && dd if=/dev/zero of=/dev/ubdb bs=1M count=64 status=none && sync /dev/ubdb')
    failed.carry_out("failed")
    took = pair.await_whole()
    return f"the disk of {failed.name}, replaced by an empty one; the same after {took:.0f} s"


def leave(pair: Pair, failed: Machine) -> None:
    """Moves the branch away from a machine whose disk has failed, if Pacemaker has not done so by itself."""
    if pair.way == "pacemaker":
        time.sleep(30)
        wait_until(pair.primary, pair.patience, "a machine has the disk", PAUSE)
    if pair.primary() is failed:
        here, there = pair.sides()
        pair.move(here, there)
    pair.await_acknowledged()


def night(pair: Pair) -> str:
    """The night: the bank starts anew, the copy is checked, and a third machine fetches it; here that is the other one."""
    here, there = pair.sides()
    newest = "ls -d /var/lib/bank-copies/*-checked | tail -n 1"
    before = here.sh(newest).stdout
    here.done("systemctl start bank-night")
    here.await_that(f'[ "$({newest})" != "{before.strip()}" ] && [ -n "$({newest})" ]', pair.patience)
    third = pair.others.get(THIRD, there)
    fetch = f"export RSYNC_RSH='ssh -i /root/.ssh/reading'; {lines_of(PAGE, 'sh copies')}"
    third.done(f"mkdir -p /root/third && cd /root/third && {{ {fetch}}}")
    third.done(f"cd /root/third/copies/{here.done(newest).rpartition('/')[2]} && sha256sum -c bank.sha256")
    pair.await_acknowledged()
    return f"{here.name} started its bank anew; the copy is at {third.name}"


def third_silent(pair: Pair) -> str:
    """The third machine is cut off, and then loses its power: the branch serves on."""
    here, _ = pair.sides()
    third = pair.others[THIRD]
    networks.plug("office", THIRD, False)
    wait_a_while(*CUT[pair.way])
    pair.await_acknowledged()
    third.off()
    networks.mend(HOSTS)
    wait_a_while()
    pair.await_service(here)
    third.start()
    pair.await_whole()
    return f"{here.name} serves on"


def hung_bank(pair: Pair) -> str:
    """The bank's process stands still; it is begun anew where it is, or on the other machine."""
    here, _ = pair.sides()
    here.done("kill -STOP $(systemctl show --property MainPID --value bank)")
    pair.await_acknowledged()
    pair.await_whole()
    return f"the bank hung at {here.name}; then {pair.serving().name} serves"


def broken_office(pair: Pair) -> str:
    """The office's settings have a fault, so it does not start: the bank serves on where it is, with its night."""
    here, _ = pair.sides()
    here.done("cp -p /etc/bank-office/settings.toml /root && echo '[[' >>/etc/bank-office/settings.toml && systemctl stop bank-office")
    here.await_that("crm_mon -1 | grep -q 'office start on'", pair.patience)
    pair.await_service(here)
    here.done("systemctl is-active -q bank-night.timer && ! systemctl is-active -q bank-office")
    here.done("cp -p /root/settings.toml /etc/bank-office")
    here.carry_out("mended")
    pair.await_whole()
    return f"{here.name} served on without an office, which came back"


def hung_machine(pair: Pair) -> str:
    """The machine that serves stands still for a while, and goes on: by then it has no power."""
    here, there = pair.sides()
    wait_a_while()
    here.hang(True)
    try:
        wait_a_while(*CUT[pair.way])
        pair.await_acknowledged()
        require(here.is_on(), False, f"whether {here.name}, which hangs, has power while {there.name} serves")
    finally:
        here.hang(False)
    require(pair.serving().name, there.name, "the machine that serves")
    return f"{here.name} hung, then was off; {back(pair, here)}"


def full_disk(pair: Pair) -> str:
    """The disk of both is full, so posts are refused; then it has room again, and the bank is begun anew."""
    here, _ = pair.sides()
    disk = here.done("findmnt -n -o TARGET /dev/drbd0 | tail -n 1")
    here.sh(f"dd if=/dev/zero of={disk}/filler bs=64K status=none; sync")
    before = pair.book.statuses[503]
    wait_until(lambda: pair.book.statuses[503] > before, pair.patience, "a post is refused on a full disk", 0.5)
    here.sh("systemctl start bank-disk")
    here.done(f"rm {disk}/filler; sync")
    pair.await_service(here)
    return f"the disk at {here.name} was full, posts were refused"


def upgrade(pair: Pair) -> str:
    """The packages are put in again, first where the branch stands by and then where it serves, while tellers post."""
    here, there = pair.sides()
    for each in (there, here):
        each.done("dpkg -i /srv/brought/*.deb")
        pair.await_service(here)
    return f"put in at {there.name} and at {here.name}, which serves"


def compared(pair: Pair) -> str:
    """The disks are compared by the month's unit; a block that differs is found, and mended as the page says."""
    here, there = pair.sides()
    here.done("systemctl start bank-verify")
    there.done("systemctl start bank-verify") # nothing is done there
    there.done(f"printf different | dd of={DISK} bs=1 seek=$(($(cat /sys/block/drbd0/size) * 512 - 65536)) conv=notrunc status=none; sync")
    here.sh("systemctl start bank-verify")
    here.done("systemctl is-failed -q bank-verify")
    here.carry_out("differ")
    pair.await_whole()
    here.done("systemctl start bank-verify")
    return f"compared at {here.name}: the same; a block spoilt at {there.name}: found, and mended"


def beside(pair: Pair) -> str:
    """Somebody starts the bank by hand where the branch stands by, which its unit refuses."""
    there = pair.sides()[1]
    there.sh("systemctl start bank bank-front", timeout=120)
    time.sleep(5)
    require(there.sh("systemctl is-active bank").stdout.strip(), "inactive", f"the bank at {there.name}, which stands by")
    there.sh("systemctl stop bank-front.socket bank-front bank.socket; systemctl reset-failed 'bank*'")
    pair.await_acknowledged()
    pair.await_whole()
    return f"refused at {there.name}"


def cut(pair: Pair, disks: str, office: str) -> str:
    """Networks are cut for a while, by the machines whose plugs are taken out: `here` serves, `there` stands by, `other` is one of
    another by an isolated port. Then they are mended, and a machine that was switched off gets power."""
    here, there = pair.sides()
    sides: dict[str, list[Machine]] = {"here": [here], "there": [there], "both": [here, there], "": [], "apart": []}
    for network, names in (("disks", disks), ("office", office)):
        for each in sides[names]:
            networks.plug(network, each.name, False)
    if office == "apart":
        networks.apart("office", MACHINES, True)
    since = time.monotonic()
    wait_a_while(*CUT[pair.way])
    if disks and office == "both":
        silent(pair, since, "while nobody reaches the switch")
    seen = ", ".join(f"{it.name} {'on' if it.is_on() else 'off'}" for it in pair.machines.values())
    networks.mend(HOSTS)
    pair.await_acknowledged()
    pair.all_on()
    pair.await_whole()
    return f"{here.name} served; then {seen}; {pair.serving().name} serves"


class Kind(NamedTuple):
    """A kind of round: its name, what is done, how many are wanted, how often another machine may begin to serve in it, and of which
    way to run a pair."""

    name: str
    make: Callable[[Pair], str]
    wanted: int
    turns: int
    ways: tuple[str, ...] = ("watch", "pacemaker")


WATCH, PACEMAKER = ("watch",), ("pacemaker",)
KINDS = (
    Kind("power of the one that serves", power_of_serving, 12, 1),
    Kind("planned move", move, 10, 1),
    Kind("cut from each other", partial(cut, disks="here", office="apart"), 3, 1),
    Kind("power of the other", power_of_other, 5, 0),
    Kind("cut: the cable of the disks", partial(cut, disks="here", office=""), 3, 1),
    Kind("power of both, the old disk first", both_old_first, 2, 2),
    Kind("cut: the one that serves from all", partial(cut, disks="here", office="here"), 3, 1),
    Kind("disk of the one that serves", partial(disk_fails, side=0), 3, 1),
    Kind("cut: the other from all", partial(cut, disks="there", office="there"), 3, 0),
    Kind("power of both, the newest disk first", both_newest_first, 2, 1, WATCH),
    Kind("power of both, the newest disk first, which waits", both_newest_waits, 2, 2, PACEMAKER),
    Kind("cut: both from all", partial(cut, disks="here", office="both"), 3, 1),
    Kind("power of the one that serves, no way to the switch", power_without_switch, 2, 1, WATCH),
    Kind("power of the one that serves, the other without a voice, which waits", power_without_voice, 2, 1, PACEMAKER),
    Kind("cut: the one that serves from the office and the switch", partial(cut, disks="", office="here"), 3, 0),
    Kind("disk of the other", partial(disk_fails, side=1), 2, 0),
    Kind("cut: the other from the office and the switch", partial(cut, disks="", office="there"), 3, 0),
    Kind("power of both at once", both_at_once, 2, 1),
    Kind("the other shut down by order", shut_down, 2, 0),
    Kind("the night, and copies on a third machine", night, 2, 0),
    Kind("disks compared, a block spoilt", compared, 2, 0),
    Kind("a full disk", full_disk, 2, 0),
    Kind("packages put in again", upgrade, 2, 0),
    Kind("a bank started where the branch stands by", beside, 2, 0),
    Kind("the third machine", third_silent, 3, 0, PACEMAKER),
    Kind("a bank that hangs", hung_bank, 2, 1, PACEMAKER),
    Kind("a machine that hangs", hung_machine, 2, 1, PACEMAKER),
    Kind("an office that does not start", broken_office, 2, 0, PACEMAKER),
    Kind("the office, over a year's turn", office_over_a_year, 1, 1, PACEMAKER),
)


def kinds_of(way: str) -> list[Kind]:
    """The kinds of rounds of a way to run a pair."""
    return [it for it in KINDS if way in it.ways]
