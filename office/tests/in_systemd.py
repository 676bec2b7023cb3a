"""Starts the office in a systemd in namespaces, over a copy of this machine that is thrown away, by the lines of docs/OFFICE.md as
they stand, and tries what its units reach. The block marked `sh later` needs a month that is over, and is tried after the others.
Then the branch closes two years, a third such machine fetches it by ssh, and a new one is brought up from that.

    office/in-systemd [PROGRAM [ROOT]]

PROGRAM, crates/bank_cli/out/bank_cli where it is left out, is packed by tools/release, twice, as Debian's revisions 1 and 2. ROOT is
a folder with a Debian of its own, in place of this machine. It needs root, a cgroup2 file system, and in ROOT the packages that
branch/in-systemd and office/test need, and openssh-server, whose daemon runs in the namespaces alone. Nothing of this machine is
changed. The last line is 'N passed, M failed'; the exit status is 1 where M is not 0.
"""
import shutil
import sys
from collections.abc import Callable
from functools import wraps
from pathlib import Path
from typing import Any

from branch.tests import in_systemd
from branch.tests.blocks import DOCS, Block, blocks, lines_of
from branch.tests.in_systemd import INSTALL, make_all
from checks import require, wait_until
from office.tests.at_work import brought_up
from office.tests.at_work.brought_up import FAILED

PAGE = DOCS / "OFFICE.md"
OWN = "bank-office"
SETTINGS = "/etc/bank-office/settings.toml"
KEY, RUNS = "/etc/bank-office/office.key", "/var/lib/bank-office-runs"
MONTH = ("journal.csv", "balances.csv", "proofs.csv", "interest-and-fees.csv", "interest-accrued.csv", "journal.hledger", "journal.beancount")
# What each unit reaches of what at_work/probe.py tries, in its order.
TRIED = ["/run/bank.socket", "/run/bank-office-approvals.socket", KEY, "/var/lib/bank", "/var/lib/bank-copies", "/etc/bank-front",
         "/var/log/bank-front", RUNS, "/run/dbus", "the list of badges", "writing a copy",
         "writing a saved copy", "the front"]  # fmt: skip
REACHED: dict[str, list[str]] = {"bank-office": [], "bank-office-approvals": [RUNS], "bank-office-runs": [KEY, RUNS, "the front"]}


def page(machine: Any) -> None:
    """The lines of docs/OFFICE.md, as they stand, after those of docs/BRANCH.md up to the first that asks the bank."""
    branch = [it for it in blocks(in_systemd.PAGE) if it.mark == "sh"]
    office = [it for it in blocks(PAGE) if it.mark == "sh"]
    saved = Block("sh", "until ls /var/lib/bank-office/saved/2* /var/lib/bank-office-runs/saved/2* >/dev/null 2>&1; do sleep 0.2; done\n", None)
    machine.lines([*branch[:in_systemd.first_post(branch)], office[0], saved, *office[1:]])
    units = ["bank", "bank-front", "bank-office", "bank-office.socket", "bank-office-approvals.socket", "bank-office-runs.timer",
             "bank-office-badges.path", "bank-office-rights.path", "bank-office-rights.timer"]  # fmt: skip
    require(machine.done(f"systemctl is-active {' '.join(units)}").split(), ["active"] * len(units), "units")
    # The lines stop the office while the night would start it anew, so bank-renew may have failed.
    require(machine.sh(f"{FAILED} 'bank-office*'").stdout, "", "units of the office that failed")
    for who, keeper in (("tess", "false"), ("olga", "true")):
        found = machine.done(machine.curl(who, "/office/api/here", "", "-f", "-G"))
        require(f'"keeper":{keeper}' in found, True, f"the office by https, of {who}: {found}")


def installed(machine: Any) -> None:
    """What is installed is faultless, shut in, and its service answers at its socket, which the front alone opens."""
    require(machine.done("systemd-analyze verify /lib/systemd/system/bank-office* 2>&1"), "", "what verify says")
    require(machine.done("dpkg --verify tespiorvu-office"), "", "files that differ from the package")
    require(machine.done("stat -c '%U %G %a' /etc/bank-office /etc/bank-office/settings.toml").splitlines(),
            [f"root {OWN} 750", f"root {OWN} 640"], "its settings")  # fmt: skip
    require(machine.done("bank-office export holders").split(",")[0], "holder", "the command")
    stranger = "mkdir -m 1777 /tmp/shared; setpriv --reuid nobody --clear-groups sh -c 'echo raise SystemExit >/tmp/shared/tespiorvu.py'"
    found = machine.done(f"{stranger}; cd /tmp/shared && bank-office export users")
    require(found.split(",")[0], "badge", "the command in a stranger's folder")
    for socket in (OWN, "bank-office-approvals"):
        asked = "-H 'Bank-Badge: nobody' http://office/office/runs/1"
        ask = f"curl -sS -o /dev/null -w '%{{http_code}}' --unix-socket /run/{socket}.socket {asked}"
        for who, wanted in (("bank-front", (0, "403")), ("nobody", (7, "000")), ("bank", (7, "000")), (OWN, (7, "000"))):
            ran = machine.sh(f"setpriv --reuid {who} --regid $(id -g {who}) --init-groups {ask}")
            require((ran.returncode, ran.stdout), wanted, f"the socket of {socket} by {who}")
    require(machine.done("cd /var/lib/bank-office && stat -c '%n %U %a' . office secret saved").splitlines(),
            [f". {OWN} 750", f"office {OWN} 640", f"secret {OWN} 600", f"saved {OWN} 750"], "its folder")  # fmt: skip
    runs = f"{OWN}-runs"
    require(machine.done(f"cd {RUNS} && stat -c '%n %U %G %a' . runs secret saved {KEY}").splitlines(),
            [f". {runs} {runs} 700", f"runs {runs} {runs} 600", f"secret {runs} {runs} 600", f"saved {runs} {runs} 700",
             f"{KEY} root {runs} 640"], "the folder of runs, and their key")  # fmt: skip


def copies(machine: Any) -> None:
    """After the check of a night's copy the office is handed that, and the office may not write it."""
    require(machine.done(f"stat -L -c '%U %G %a' {brought_up.PRESENT}"), "bank bank-office 640", "the copy")
    found = machine.done("curl -sS --unix-socket /run/bank-office.socket -H 'Bank-Badge: sue' http://office/office/days")
    require("Branch 1" in found, True, "the day books")


def shut_in(machine: Any) -> None:
    """A process with the rights of the office's units reaches neither the bank's socket nor its files; the office's reaches nothing of
    runs, and that of runs alone the front."""
    shutil.copy(Path(brought_up.__file__).with_name("probe.py"), machine.top / "folder")
    for unit, reached in REACHED.items():
        change = ("s#^ExecStart=.*#ExecStart=/usr/bin/python3 /run/folder/probe.py#; s/^Type=.*/Type=oneshot/; "
                  "/^Restart/d; /^ExecStartPre/d; /^Requires/d; /^Wants/d; /^PartOf/d")  # fmt: skip
        # (its name begins with bank-, too, so that the drop-in of all services is read)
        machine.done(f"sed '{change}' /lib/systemd/system/{unit}.service >/etc/systemd/system/{unit}-probe.service; "
                     f"systemctl daemon-reload; systemctl start {unit}-probe")  # fmt: skip
        said = machine.done(f"journalctl -q -o cat -u {unit}-probe _COMM=python3").splitlines()
        require(said[:-1], [f"{'REACHED' if it in reached else 'refused'} {it}" for it in TRIED], f"what {unit} reaches")
        require("'present'" in said[-1], True, said[-1])


def apart(machine: Any) -> None:
    """The office's own user, with no unit around it, reads neither the key nor the approvals."""
    for path in (KEY, f"{RUNS}/runs", f"{RUNS}/secret"):
        ran = machine.sh(f"runuser -u {OWN} -- head -c 1 {path}")
        require((ran.returncode, ran.stdout), (1, ""), f"{path} by {OWN}")
    require(machine.done(f"runuser -u {OWN}-runs -- head -c 15 /var/lib/bank-office/office"), "SQLite format 3", "the register by runs")


def leaves(machine: Any) -> None:
    """A keeper whom an officer suspends loses the office within a minute, and a badge off the bank's list, too."""
    keepers = "sed -i 's/^keepers = .*/keepers = [\"{}\"]/' {}; systemctl restart {}"
    machine.done(keepers.format("tess", SETTINGS, OWN))
    seen = lambda: machine.status_of("tess", "/office/sheets", "", "-G")
    require(seen(), 200, "a keeper")
    user = '{"user":' + machine.done("sed -n s/^tess,//p /etc/bank-badges.csv").strip() + "}"
    machine.asked("olga", "/session", "")
    for command, status in (("suspend", 403), ("restore", 200)):
        machine.asked("olga", f"/policy/{command}", user)
        wait_until(lambda: seen() == status, 60, f"{command} of a keeper is seen")
    for change, status in (("s/^tess,/other,/", 403), ("s/^other,/tess,/", 200)):
        machine.done(f"sed -i {change} /etc/bank-badges.csv")
        wait_until(lambda: seen() == status, 60, f"{change} in the list of badges is seen")
    machine.done(keepers.format("olga", SETTINGS, OWN))


def books(machine: Any) -> None:
    """A day of branch 1 that is closed, in the office's copy, and a holder of accounts at both branches."""
    for who in ("tess", "sue"):
        machine.asked(who, "/session", "")
    brought_up.live_day(machine, 2_500)
    machine.done("cd /run/folder && echo holder,name,address,document,note,since >holders.csv && echo 1,Ann,Street,,, >>holders.csv && "
                 "echo account,holder,may >holdings.csv && echo 101,1,owns >>holdings.csv && echo 201,1,owns >>holdings.csv && "
                 "bank-office import holders holders.csv && bank-office import holdings holdings.csv")  # fmt: skip
    brought_up.have_night(machine)


def night(machine: Any) -> None:
    """Over a day that was closed each unit of the night ends well, and leaves what it is for."""
    books(machine)
    require(machine.sh(FAILED).stdout, "", "units that failed in the night")
    place = "/var/lib/bank-office/policy-log"
    found = machine.done(f"cd {place} && ls saved/2* >/dev/null && stat -c '%n %U %a' . policy saved")
    require(found.splitlines(), [f". {OWN} 750", f"policy {OWN} 640", f"saved {OWN} 750"], "the policy's log")
    require(machine.done("head -n 1 /var/lib/bank-office-trail/cards.csv"), "badge,serial,valid,first,last", "the use of cards")


def upgraded(machine: Any) -> None:
    """Later packages start the service anew. Its socket, what was set, the register and the nights stay."""
    state = f"systemctl show -P MainPID {OWN}; systemctl show -P ActiveEnterTimestampMonotonic {OWN}.socket; tail -n 1 {SETTINGS}"
    machine.done(f"echo '# mine' >>{SETTINGS}")
    kept = ("bank-office export holders; ls -d /var/lib/bank-copies/*-checked /var/lib/bank-office-copies/*; "
            "sqlite3 /var/lib/bank-office/policy-log/policy 'SELECT night, made, version, policy, state FROM nights'")
    before, books = machine.done(state).splitlines(), machine.done(kept)
    machine.done(f"{INSTALL} /run/folder/next/*.deb")
    require([one == other for one, other in zip(before, machine.done(state).splitlines())], [False, True, True], "process, socket, settings")
    require((machine.done(kept), "Ann" in books, "begun" in books), (books, True, True), "register and nights")
    require('"badge":"tess"' in machine.done(machine.curl("tess", "/office/api/here", "", "-f", "-G")), True, "the office by https")
    require(machine.done("dpkg-query -W -f '${Version} ' tespiorvu tespiorvu-office").count("-2"), 2, "the later revision")


def papers(machine: Any) -> None:
    """The lines of docs/OFFICE.md that need a month that is over, and the unit that writes each month's papers, over a copy whose
    day is put back to the first of that month."""
    copy = f"$(readlink -f {brought_up.PRESENT})"
    machine.done(f"cp -p {copy} /root/present; for it in entries lines; do sqlite3 /root/present \"UPDATE $it SET moment = "
                 f"$(date -d '2026-11-01 12:00' +%s)\"; done; touch -d 2026-12-02 /root/present; cp -p /root/present {copy}")  # fmt: skip
    said = machine.done(f"set -e; {lines_of(PAGE, 'sh later')}")
    folder = "/var/lib/bank-office/papers"
    files = [line.rpartition(": ")[0] for line in said.splitlines()]
    require([Path(it).name for it in files], ["statements-1.pdf", "statement-101.pdf"], "the statements")
    line, month = "/run/systemd/system/bank-office-papers.service.d", "/usr/share/tespiorvu/office month 2026-11"
    machine.done(f"rm -r {folder}; mkdir {line}; printf '[Service]\\nExecStart=\\nExecStart={month}\\n' >{line}/month.conf; "
                 "systemctl daemon-reload && systemctl start bank-office-papers")  # fmt: skip
    machine.done(f"cd {folder}/2026-11 && ls {' '.join(MONTH)} && qpdf --check statements-1.pdf && pdftotext statements-1.pdf - | grep Ann")
    require(int(machine.done(f"rm -r {line} && systemctl daemon-reload && wc -l <{folder}/2026-11/journal.csv")) > 1, True, "a journal")


def purged(machine: Any) -> None:
    """Once purged, nothing of it runs, its register and copies are there, and the counter works."""
    kept = "cd /var/lib/bank-office && sha256sum office secret saved/* ../bank-office-runs/runs ../bank-office-copies/present /etc/bank-office/office.pem"
    machine.done(f"systemctl stop {OWN} bank-office-runs.timer")
    before = machine.done(kept)
    machine.done("DEBIAN_FRONTEND=noninteractive apt-get purge -y tespiorvu-office; systemctl reload bank-front")
    require(machine.done(kept), before, "what a purge leaves")
    require(machine.sh(f"ls {SETTINGS} /etc/bank-front/*office* /etc/systemd/system/*/bank-office*; pgrep gunicorn").stdout, "", "what it removes")
    require(machine.status_of("tess", "/office/api/here", "", "-G"), 503, "no office")
    balance = f'{{"balance":{52_500 + sum(brought_up.POSTS)}}}'
    require(machine.asked("tess", "/do/balance", '{"account":101}'), balance, "the counter")


def of_branch(check: Callable[[Any], None]) -> Callable[[Any], None]:
    """A check of the machine that has the branch."""

    @wraps(check)
    def make(machines: Any) -> None:
        check(machines.machine("branch"))

    return make


# All that is tried, in its order. (What moves the branch comes while it is whole, and before its package is purged.)
CHECKS = (*map(of_branch, (page, installed, copies, shut_in, apart, leaves, night, upgraded, papers)),
          *brought_up.CHECKS, of_branch(purged))

if __name__ == "__main__":
    sys.exit(make_all(__doc__, CHECKS))
