"""A branch whose year was closed twice, fetched by a third machine and brought up on a new one: machines in namespaces, by office/in-systemd."""
import datetime
import shutil
import subprocess
from pathlib import Path
from typing import Any

from branch.tests.blocks import blocks, lines_of
from branch.tests.in_systemd import INSTALL, PAGE, lines_there
from checks import require, wait_until

COPIES, GATHERED, FETCHED = "/var/lib/bank-office-copies", "/var/lib/bank-gathered", "/var/lib/bank-fetched"
PRESENT = f"{COPIES}/present"
FAILED = "systemctl list-units --failed --no-legend --plain"
# What the third machine has of the branch, and the branch of it: their ends of one cable.
OWN, OTHER = "10.8.0.1", "10.8.0.2"
POSTS = (70, 500, 3_000)
# How many seconds a busy machine takes at most for what a quiet one does in ten.
PATIENCE = 600
ORIGIN = "-H 'Desk-Badge: tess' -H 'Content-Type: application/json' -H 'Origin: https://bank.branch' -H 'Sec-Fetch-Site: same-origin'"


def live_day(machine: Any, delta: int) -> None:
    """A day of branch 1 with one post to account 101, closed."""
    for who, path, body in (("tess", "drawer-on", '{"branch":1,"cash":1000,"teller":11}'),
                            ("tess", "post", f'{{"account":101,"branch":1,"delta":{delta},"teller":11}}'),
                            ("tess", "drawer-off", f'{{"branch":1,"counted":{1000 + delta},"teller":11}}'),
                            ("sue", "close-day", '{"branch":1}')):  # fmt: skip
        machine.asked(who, f"/do/{path}", body)


def have_night(machine: Any, order: str = "systemctl start bank-night") -> str:
    """A night, which an order begins, up to what the office does after it. What the order prints."""
    last = machine.sh(f"readlink {COPIES}/handed").stdout
    begun, _, said = machine.done(f"systemctl reset-failed; date +%s; {order}").partition("\n")
    wait_until(lambda: machine.sh(f"readlink {COPIES}/handed").stdout != last, PATIENCE, "the next copy is handed over")
    ended = 'date -d "$(systemctl show -P ExecMainExitTimestamp bank-office-controls)" +%s'
    units = "systemctl show -P ActiveState bank-office-controls bank-office-save bank-office-runs-save bank-office-morning bank-seal bank-audit"
    wait_until(lambda: int(machine.done(ended)) >= int(begun) and "activating" not in machine.done(units).split(), PATIENCE, "the office's night is over")
    return said


def closed_twice(machines: Any) -> None:
    """Two closings in one calendar year: the second takes a name, as bank-forward itself says, and no unit fails."""
    machine = machines.machine("branch")
    year = machine.done("date +%Y")
    live_day(machine, POSTS[0])
    require(have_night(machine, "bank-forward"), "carried forward", "the first closing")
    live_day(machine, POSTS[1])
    refused = machine.sh("bank-forward")
    require((refused.returncode, f"as bank-forward {year}-2" in refused.stderr), (1, True), f"the same name twice: {refused.stderr}")
    require(have_night(machine, f"bank-forward {year}-2"), "carried forward", "the second closing")
    live_day(machine, POSTS[2])
    have_night(machine)
    require(machine.sh(FAILED).stdout, "", "units that failed in the night")
    files = f"/var/lib/bank/{year}/bank /var/lib/bank/{year}-2/bank /var/lib/bank-office/office"
    require(machine.done(f"stat -c '%U %a' {files}").splitlines(), ["bank 600", "bank 600", "bank-office 640"], "the years, and the register")


def cable(one: Any, other: Any) -> None:
    """Joins two machines by a cable; the branch's end has its name there."""
    ends = [Path(f"/proc/{it.run.pid}/task/{it.run.pid}/children").read_text().split()[0] for it in (one, other)]
    words = ["ip", "link", "add", "cable0", "netns", ends[0], "type", "veth", "peer", "name", "cable0", "netns", ends[1]]
    subprocess.run(words, check=True)
    for machine, address in ((one, OWN), (other, OTHER)):
        machine.done(f"ip address add {address}/24 dev cable0; ip link set cable0 up")
    other.done(f"sed '/bank.branch/d' /etc/hosts >/root/hosts; echo {OWN} bank.branch >>/root/hosts; cat /root/hosts >/etc/hosts")


def fetched(machines: Any) -> None:
    """A third machine fetches by ssh what the branch gathered, by the lines of docs/BRANCH.md, and its key is good for nothing else."""
    machine, third = machines.machine("branch"), machines.machine("third")
    cable(machine, third)
    third.done(f"cd /run/folder; {INSTALL} ./next/tespiorvu_*.deb; {lines_of(PAGE, 'sh third', 'ssh-keygen')}")
    (machine.top / "folder/third.pub").write_text(third.done("cat /root/.ssh/id_ed25519.pub") + "\n")
    machine.done(f"cd /run/folder; {lines_of(PAGE, 'sh third', 'authorized_keys')}mkdir -p /run/sshd && ssh-keygen -A && /usr/sbin/sshd")
    host_key = machine.done("cut -d ' ' -f 1,2 /etc/ssh/ssh_host_ed25519_key.pub")
    third.done(f"echo 'bank.branch {host_key}' >/root/.ssh/known_hosts")
    machine.done(f"bank-seal begin >/root/public-key\n{lines_of(PAGE, 'sh', 'start bank-gather')}")
    third.done("systemctl reset-failed; systemctl start bank-fetch")
    printed = machine.done("sed 's/.*: //' /root/public-key")
    require(third.done(f"cat {FETCHED}/public-key"), printed, "the key that is compared with paper")
    require(third.done(f"cat {FETCHED}/*/made"), machine.done(f"cat {GATHERED}/newest/made"), "the night that was fetched")
    refused = third.sh("ssh -o BatchMode=yes bank-fetch@bank.branch cat /etc/passwd")
    require((refused.returncode != 0, refused.stdout), (True, ""), f"another order by that key: {refused.stderr}")


def found_again(machines: Any) -> None:
    """A new machine is brought up from it: a name is found, a statement adds up over the years, and the trail explains an entry."""
    third, new = machines.machine("third"), machines.machine("new")
    third.done(f"cp -a {FETCHED}/2* /run/folder/moved")
    shutil.copytree(third.top / "folder/moved", new.top / "folder/moved", symlinks=True)
    machines.machine("branch").done("cp -a /root/authority /run/folder/authority")
    shutil.copytree(machines.machine("branch").top / "folder/authority", new.top / "folder/authority", symlinks=True)
    new.done(f"cd /run/folder; {INSTALL} ./next/*.deb; systemctl disable --now nginx; cp -a moved authority /root")
    new.lines(lines_there(machines.machine("branch"), blocks(PAGE)))
    new.done("systemctl -q enable --now bank-office.socket bank-office")
    have_night(new)
    require(new.sh(FAILED).stdout, "", "units that failed on the new machine")
    found = new.done(new.curl("tess", "/office/api/search", '{"q":"ann"}', "-f", ORIGIN))
    require('"name":"Ann"' in found.replace(": ", ":"), True, f"who is found: {found}")
    statement(new)
    entry_explained(new)


def statement(machine: Any) -> None:
    """The statement of account 101 over all years, as of the next day."""
    machine.done(f"touch -d '1 day' $(readlink -f {PRESENT})")
    today = datetime.date.fromisoformat(machine.done("date -I"))
    path = f"/office/statements.csv?account=101&first={today}&last={today}"
    rows = machine.done(machine.curl("tess", f'"{path}"', "", "-f", "-G")).splitlines()
    amounts = [it.split(",")[-2:] for it in rows[1:]]
    wanted, balance = [["", "500.00"]], 50_000
    for delta in (2_500, *POSTS):
        balance += delta
        wanted.append([f"{delta / 100:.2f}", f"{balance / 100:.2f}"])
    require(amounts, wanted, "the statement over the years")


def entry_explained(machine: Any) -> None:
    """The trail that came along says who asked for the entry of the second year. (What was asked later is not in that file.)"""
    year = machine.done("date +%Y")
    said = machine.done(f"cp /var/lib/bank/{year}-2/bank /root/year; bank-audit --entries --before /var/lib/bank/{year}/bank /root/year "
                        "/etc/bank-badges.csv /var/log/bank-front/audit.log* || true")  # fmt: skip
    found = [it.split() for it in said.splitlines() if it.startswith("entry ")]
    require([(it[3:7], it[9:11]) for it in found], [(["account", "101", "amount", "500"], ["by", "tess"])], said)


CHECKS = (closed_twice, fetched, found_again)
