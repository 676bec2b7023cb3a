"""The pair with Pacemaker: a third machine with a voice, and a management board for each of the two, which is an ipmi_sim of Debian
whose orders go to the power switch of the trial."""
import contextlib
import subprocess
import time
from pathlib import Path

from checks import Late, Wrong, require, wait_until
from branch.tests.pair.branch_pair import DISK_SETTINGS, SERVES, WHOLE, Pair
from branch.tests.blocks import lines_of
from branch.tests.commands import run
from branch.tests.pair.machines import PAGE, PAUSE, THIRD, Machine
from branch.tests.pair.plants import Plant

# The boards' addresses in the office's network.
BOARDS = {"a": "10.0.0.21", "b": "10.0.0.22"}
LAN = """\
name "{name}"
set_working_mc 0x20
startlan 1
  addr {address} 623
  priv_limit admin
  allowed_auths_admin none md2 md5 straight
  guid a123456789abcdefa123456789abcde{digit}
endlan
chassis_control "{folder}/board {name}"
user 1 true "" "" user 10 none md2 md5 straight
user 2 true "bank" "secret" admin 10 none md2 md5 straight
"""
CONTROLLER = """\
mc_setbmc 0x20
mc_add 0x20 0 no-device-sdrs 0x23 9 8 0x9f 0x1291 0xf02
mc_enable 0x20
"""
# What ipmi_sim has carried out: `board NAME get power` or `board NAME set power 0`.
CONTROL = """\
#!/bin/sh
case "$2 $3 $4" in
"get power "*) what=status ;;
"set power 0") what=off ;;
"set power 1") what=on ;;
*) exit 0 ;;
esac
reply=$(curl -sf -m 20 "http://10.0.0.254/$what/$1") || exit 1
case $reply in on) echo power:1 ;; *) echo power:0 ;; esac
"""
# Machines of one processor on a busy one: corosync's priority would starve the kernel there, all takes longer, and looks alone would
# take a machine's time.
SLOWER = """
    sed -i 's/token: 3000/token: 20000/' /etc/corosync/corosync.conf
    printf 'system {\\n    sched_rr: no\\n}\\n' >>/etc/corosync/corosync.conf
    sed -i 's/timeout=[0-9]*s/timeout=600s/g; s/lanplus=1/& login_timeout=60 shell_timeout=60 power_timeout=60/' /root/*.crm
    sed -i 's/stonith-action=off/& stonith-timeout=600s/' /root/bank.crm
    sed -i 's/interval=\\([1-9][0-9]*\\)s/interval=\\10s/g' /root/*.crm
    for it in bank-pair bank-disk; do
        mkdir -p /etc/systemd/system/$it.timer.d
        printf '[Timer]\\nOnCalendar=\\nOnCalendar=*:0/10\\n' >/etc/systemd/system/$it.timer.d/trial.conf
    done
    systemctl daemon-reload
"""
READY = "systemctl is-active -q pacemaker && systemctl is-active -q corosync-qdevice && ! cibadmin -Q 2>/dev/null | grep -q drbd-fence-by-handler"
OFFICE, NIGHT = (f"systemctl is-active -q {it}" for it in ("bank-office.service", "bank-night.timer"))


class Cluster(Pair):
    """Two machines with Pacemaker, and a third."""

    way, prefix = "pacemaker", ""
    settings = DISK_SETTINGS + SLOWER
    # Pacemaker has its agents run one after another.
    patience = 1200

    def __init__(self, folder: Path, image: Path, plant: Plant | None) -> None:
        super().__init__(folder, image, plant)
        self.others[THIRD] = Machine(folder, image, THIRD)
        self.boards: list["subprocess.Popen[bytes]"] = []
        (folder / "board").write_text(CONTROL)
        (folder / "board").chmod(0o755)
        (folder / "controller").write_text(CONTROLLER)
        for digit, (name, address) in enumerate(BOARDS.items()):
            run("ip", "address", "add", f"{address}/24", "dev", "office")
            (folder / f"{name}.lan").write_text(LAN.format(name=name, address=address, digit=digit, folder=folder))
            self.boards.append(self.board(name))

    def board(self, name: str) -> "subprocess.Popen[bytes]":
        """Starts the management board of a machine."""
        words = ["ipmi_sim", "-n", "-c", f"{name}.lan", "-f", "controller", "-s", f"{name}.board"]
        with open(self.folder / f"{name}.board-log", "ab") as log:
            return subprocess.Popen(words, cwd=self.folder, stdin=subprocess.DEVNULL, stdout=log, stderr=log)

    def recover(self) -> None:
        """Nobody has to do anything after both were off, but to give power to both."""
        self.await_whole()

    def await_whole(self) -> float:
        """Waits until both disks have the same, the branch and its office are on one machine, and either may take over."""
        since = time.monotonic()
        wait_until(self.is_whole, self.patience, "the pair is whole", PAUSE)
        self.require_one_group()
        return time.monotonic() - since

    def all_on(self) -> None:
        """As of a pair; but a machine that Pacemaker switches off gets no power before its board has confirmed that."""
        with contextlib.suppress(Late):
            wait_until(lambda: not self.is_fencing(), self.patience, "no machine is switched off", PAUSE)
        super().all_on()

    def is_fencing(self) -> bool:
        """Whether a machine is off, and Pacemaker still waits for a board."""
        pending = "crm_mon -1 | grep -q '^Pending Fencing'"
        on = [it for it in self.machines.values() if it.is_on()]
        return len(on) == 1 and not on[0].sh(pending, timeout=60).returncode

    def is_whole(self) -> bool:
        """Whether that is so. A machine that Pacemaker switched off, as what it began in a cut, gets power again."""
        self.all_on()
        pair = [it for it in self.machines.values() if it.is_on() and not it.sh(f"{WHOLE} && {READY}", timeout=60).returncode]
        return len(pair) == 2 and sum(not it.sh(f"{SERVES} && {OFFICE}", timeout=60).returncode for it in pair) == 1

    def require_one_group(self) -> None:
        """Requires that what belongs to the branch is active where it serves, and nowhere else."""
        here = self.serving()
        for each in self.machines.values():
            if each is not here:
                found = each.sh("systemctl list-units --no-legend --plain --state=active 'bank*' | cut -d ' ' -f 1").stdout.split()
                own = ("bank-verify.timer", "bank-pair.timer", "bank-limits.service", "bank-trail.service", "bank-trail.socket")
                require([it for it in found if it not in own], [], f"units of the branch at {each.name}, which stands by")
        here.await_that(NIGHT, self.patience)

    def go_on(self) -> None:
        """As of a pair; a move that was cut is forgotten, as it bars the branch from a machine."""
        self.all_on()
        self.a.await_that(lines_of(PAGE, "sh moved"), self.patience)
        self.recover()

    def move(self, here: Machine, there: Machine) -> None:
        """Moves the branch by the lines of the page."""
        here.carry_out("here")
        there.await_that(SERVES, self.patience)
        here.carry_out("moved")

    def parts(self, there: Machine, moment: float) -> str:
        """When the machine was switched off by its board, since a moment in seconds since 1970."""
        since = time.monotonic() - (time.time() - moment)
        orders = self.switch.turned_off(since)
        return f"fenced after {orders[0].moment - since:.1f} s" if orders else "not fenced"

    def check(self) -> int:
        """As of a pair; and what has failed in the round is forgotten, as the page says of what is mended."""
        found = super().check()
        self.serving().carry_out("mended")
        return found

    def end(self) -> None:
        """As of a pair, and the boards."""
        super().end()
        for each in self.boards:
            each.kill()

    def repair(self) -> None:
        """After a round that failed; if the machines can't go on as they are, both begin anew."""
        for each in self.machines.values():
            if each.is_on():
                each.sh(lines_of(PAGE, "sh mended"))
        try:
            super().repair()
        except Wrong:
            for each in self.machines.values():
                each.off()
            super().repair()
