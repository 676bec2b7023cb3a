"""Starts a systemd in namespaces, over a copy of this machine that is thrown away, and tries there the package: the lines of
docs/BRANCH.md as they stand, the units, an upgrade at work, and its removal.

    branch/in-systemd [PROGRAM [ROOT]]

PROGRAM, crates/bank_cli/out/bank_cli if it is not given, is packed by tools/release, twice, as Debian's revisions 1 and 2. ROOT
is a folder with a Debian of its own, as debootstrap makes it, in place of this machine. It needs root, a cgroup2 file system,
what tools/release needs, and in ROOT systemd and all that the package depends on and recommends, as there is no network in the
namespaces. Nothing of this machine is changed. The last line is 'N passed, M failed'; the exit status is 1 if M is not 0.

Of docs/BRANCH.md one shell carries out the blocks marked `sh`, one after another, in a folder with the package. If a block
without a mark follows, it is what they have to print. The blocks marked `sh new` belong on another machine, which is a second such
systemd, after the first block; what the first machine leaves in /root/moved is brought there.
"""
import contextlib
import json
import os
import re
import shutil
import signal
import subprocess
import sys
import tempfile
from functools import partial
from pathlib import Path

from branch.tests.blocks import DOCS, blocks, require_carried_out, script_of
from branch.tests.branches import PATIENCE, TELLERS, is_page_of_office, write_lists
from branch.tests.commands import ended, packed
from checks import Check, Late, Report, reader, require, wait_until

PAGE = DOCS / "BRANCH.md"
# From the package to the answer to the first post.
MOST_SECONDS = 300
UNITS = "bank bank.socket bank-front bank-front.socket bank-disk.timer bank-night.timer"
INSTALL = "DEBIAN_FRONTEND=noninteractive apt-get install -y"
ENVIRONMENT = ["HOME=/root", "SYSTEMD_COLORS=0", "SYSTEMD_PAGER=", "PATH=/usr/local/sbin:/usr/local/bin:/usr/sbin:/usr/bin:/sbin:/bin"]
# Holds 150 connections, waits until some new ones are allowed again, and tries three more, and one of another address.
HOLDING = """
import socket, time
def opened(source):
    made = socket.socket()
    made.bind((source, 0))
    try:
        made.connect(("10.9.0.1", 443))
    except OSError:
        return None
    return made
held = [it for it in (opened("10.9.0.2") for _ in range(150)) if it]
time.sleep(2)
of_another = opened("10.9.0.3")
print(len(held), sum(opened("10.9.0.2") is not None for _ in range(3)), of_another is not None)
more = [it for k in range(4, 8) for it in (opened(f"10.9.0.{k}") for _ in range(60)) if it]
print(len(held + more), opened("10.9.0.8") is not None)
"""
BOOT = r"""
set -e
top=$1 root=$2
mount -t tmpfs tmpfs "$top/over"
mkdir "$top/over/upper" "$top/over/work" "$top/over/root"
mount -t overlay overlay -o "lowerdir=$root,upperdir=$top/over/upper,workdir=$top/over/work" "$top/over/root"
cd "$top/over/root"
mount -t proc proc proc
mount -t sysfs sysfs sys
mount -t cgroup2 cgroup2 sys/fs/cgroup
mount -t tmpfs tmpfs run -o mode=755
mount -t tmpfs tmpfs tmp -o mode=1777
mount -t tmpfs tmpfs dev -o mode=755
for name in null zero full random urandom tty; do touch dev/$name; mount --bind /dev/$name dev/$name; done
mkdir dev/shm dev/pts dev/mqueue dev/hugepages
mount -t tmpfs tmpfs dev/shm
ln -s /proc/self/fd dev/fd
ln -s pts/ptmx dev/ptmx
mkdir run/folder
mount --bind "$top/folder" run/folder
rm -f usr/sbin/policy-rc.d # by which an image for containers has packages start nothing
rm -rf etc/systemd/system
mkdir etc/systemd/system
: >etc/fstab
echo 00000000000000000000000000000001 >etc/machine-id
for unit in udevd.service udev-trigger.service udevd-control.socket udevd-kernel.socket networkd.service resolved.service logind.service \
    tmpfiles-setup.service tmpfiles-setup-dev.service tmpfiles-clean.timer update-utmp.service timesyncd.service firstboot.service \
    sysusers.service journal-flush.service journal-catalog-update.service update-done.service binfmt.service modules-load.service \
    sysctl.service random-seed.service remount-fs.service; do ln -s /dev/null etc/systemd/system/systemd-$unit; done
for unit in ldconfig.service dev-hugepages.mount dev-mqueue.mount sys-kernel-debug.mount sys-kernel-tracing.mount sys-kernel-config.mount \
    sys-fs-fuse-connections.mount proc-sys-fs-binfmt_misc.automount; do ln -s /dev/null etc/systemd/system/$unit; done
printf '[Unit]\nRequires=basic.target\nAfter=basic.target\n' >etc/systemd/system/trial.target
ip link set lo up
pivot_root . mnt
umount -l /mnt
exec env -i container=trial PATH=/usr/sbin:/usr/bin:/sbin:/bin /lib/systemd/systemd --unit=trial.target --log-target=journal
"""


class Machine:
    """A machine in namespaces. /run/folder has the packages, later ones in next/, and the lists of six tellers in six/."""

    def __init__(self, packages, root):
        self.top = Path(tempfile.mkdtemp(prefix="in-systemd-"))
        self.top.chmod(0o755)
        (self.top / "over").mkdir()
        folder = self.top / "folder"
        (folder / "next").mkdir(parents=True)
        for files, to in zip(packages, (folder, folder / "next")):
            for file in (*files, files[0].with_name("SHA256SUMS")):
                shutil.copy(file, to)
        write_lists(folder / "six")
        groups = re.search(r"^\S+ (\S+) cgroup2 ", Path("/proc/mounts").read_text(), re.MULTILINE)[1]
        self.group = Path(groups, self.top.name)
        self.group.mkdir()
        enter = f'echo $$ >"{self.group}/cgroup.procs" && exec "$@"'
        unshare = ["unshare", "--mount", "--pid", "--net", "--uts", "--ipc", "--cgroup", "--fork", "--kill-child", "--propagation", "private"]
        command = ["sh", "-c", enter, "sh", *unshare, "sh", "-c", BOOT, "boot", self.top, root]
        self.run = subprocess.Popen(command, stdin=subprocess.DEVNULL, start_new_session=True)
        is_running = lambda: self.sh("systemctl is-system-running").stdout.strip() == "running"
        wait_until(is_running, 3 * PATIENCE, "systemd has started", 0.2)

    def sh(self, text):
        """Has a shell on that machine carry out a text; its status, output and errors."""
        child = Path(f"/proc/{self.run.pid}/task/{self.run.pid}/children").read_text().split()
        if not child:
            return subprocess.CompletedProcess([], 1, "", "")
        command = ["nsenter", "-t", child[0], "-m", "-p", "-n", "-u", "-i", "-C", "-r", "-w", "env", "-i", *ENVIRONMENT, "bash", "-c", text]
        return ended(*command)

    def done(self, text):
        """The output of a text that has to be carried out well."""
        found = self.sh(text)
        require(found.returncode, 0, f"{text[:60]!r}: {found.stdout[-900:]}{found.stderr[-900:]}: its status")
        return found.stdout.strip()

    def lines(self, found):
        """Carries out blocks of a page in one shell, which print what they have to; after how many seconds each ended."""
        return require_carried_out(found, self.sh(f"exec 2>&1; set -e; cd /run/folder\n{script_of(found)}").stdout)

    def curl(self, who, path, body, *more):
        """A command that asks as a teller, from that machine."""
        tellers = f"/root/authority/tellers/{who}"
        host = "office.bank.branch" if is_page_of_office(path.strip('"')) else "bank.branch"
        shown = f"--cert {tellers}.pem --key {tellers}.key --cacert /root/authority/front/authority.pem --resolve {host}:443:127.0.0.1"
        return f"curl -sS --http1.1 --max-time 60 {shown} {' '.join(more)} -H 'Bank-Session: 1' -d '{body}' https://{host}{path}"

    def asked(self, who, path, body):
        return self.done(self.curl(who, path, body, "-f"))

    def status_of(self, who, path, body, *more):
        return int(self.done(self.curl(who, path, body, *more, "-o /dev/null", "-w '%{http_code}'", "--max-time 150")))

    def close(self):
        self.run.kill()
        self.run.wait()
        with contextlib.suppress(Late):
            wait_until(self.has_no_group, 10, "its group is empty", 0.2)
        shutil.rmtree(self.top, ignore_errors=True)

    def has_no_group(self):
        """Whether its group could be removed, as all that ran in it has ended."""
        with contextlib.suppress(OSError):
            for folder, _, _ in os.walk(self.group, topdown=False):
                os.rmdir(folder)
        return not self.group.exists()


class Machines:
    """The machines that were started, by what they are for."""

    def __init__(self, packages, root):
        self.packages, self.root, self.started = packages, root, {}

    def machine(self, name):
        """The machine of this name, started if it is not there yet."""
        if name not in self.started:
            self.started[name] = Machine(self.packages, self.root)
        return self.started[name]

    def close(self):
        for each in self.started.values():
            each.close()


def first_post(found):
    """The place of the first block that asks the bank."""
    return [lines.startswith("ask()") for _, lines, _ in found].index(True)


def page(machines):
    """The lines of docs/BRANCH.md, as they stand, and those for another machine there."""
    machine, found = machines.machine("page"), blocks(PAGE)
    seconds = machine.lines([it for it in found if it[0] == "sh"])[first_post(found)]
    print(f"    {seconds} seconds to the first post")
    require(seconds <= MOST_SECONDS, True, f"{seconds} seconds to the first post")
    other = machines.machine("other")
    for it in ("moved", "authority"):
        machine.done(f"cp -r /root/{it} /run/folder/{it}")
        shutil.copytree(machine.top / "folder" / it, other.top / "folder" / it)
    other.done("cp -r /run/folder/moved /run/folder/authority /root")
    other.lines([found[0], *lines_there(machine, found)])
    other.asked("tess", "/session", "")


def lines_there(machine, found):
    """The blocks for another machine, with the authority, and the characters on a machine's paper."""
    paper = machine.done("sed 's/.*: //' /root/public-key")
    return [it._replace(lines=f"ca=/root/authority paper={paper}\n{it.lines}") for it in found if it.mark == "sh new"]


def install(machines):
    """The units start, and none is faulty. From here on the branch has six tellers."""
    machine = machines.machine("six")
    # Of the page the lines up to the first that asks the bank, with other badges and lists.
    badges = f"for badge in {' '.join([*TELLERS, 'sue'])}; do bank-certificates teller /root/authority $badge; done"
    lists = re.compile(r"^lists=.*$", re.MULTILINE), "lists=/run/folder/six"
    people = re.compile(r"^for badge in .*$", re.MULTILINE), badges
    found = [it._replace(lines=people[0].sub(people[1], lists[0].sub(lists[1], it.lines))) for it in blocks(PAGE)]
    machine.lines(found[:1])
    require(machine.sh(f"systemctl is-active {UNITS}").stdout.split(), ["inactive"] * 6, "units after the installation")
    enabled = machine.sh(f"systemctl is-enabled {UNITS}").stdout.split()
    require(enabled, ["disabled", "static", *["disabled"] * 4], "units after the installation")
    machine.lines(found[1:first_post(found)])
    require(machine.done("systemd-analyze verify $(find /lib/systemd/system/bank* -maxdepth 0 -type f) 2>&1"), "",
            "what verify says")
    require(machine.done("dpkg --verify tespiorvu"), "", "files that differ from the package")
    made = machine.done("bank-lists /usr/share/doc/tespiorvu/examples/two-branches.toml /run/two-branches")
    require(made.split()[0], "made:", "lists of an office")
    require(len(machine.done("man -w bank_cli bank_cli-counter bank-accept bank-audit bank-bring-up bank-certificates bank-check bank-evidence bank-fetch "
                             "bank-forward bank-gather bank-lists bank-policy bank-seal").split()), 14, "manual pages")
    require(machine.done(f"systemctl is-active {UNITS}").split(), ["active"] * 6, "units")
    require(machine.done("stat -c '%U %a' /var/lib/bank/bank"), "bank 600", "the bank's file")
    for i, who in enumerate(TELLERS):
        require(machine.asked(who, "/session", ""), '{"session":1}', who)
        machine.asked(who, "/do/drawer-on", f'{{"branch":1,"cash":1000,"teller":{11 + i}}}')


def shut_in(machines):
    """Nobody else on the machine opens the bank's socket; the front's workers have no file of the trail open, and can neither reach
    one nor read the key; what they write to a pipe is a line more."""
    machine = machines.machine("six")
    for who, wanted in (("nobody", 7), ("bank-front", 0)):
        as_them = f"setpriv --reuid {who} --regid $(id -g {who}) --clear-groups"
        found = machine.sh(f"{as_them} curl -s -m 3 --unix-socket /run/bank.socket http://bank/session -d ''").returncode
        require(found, wanted, f"curl to the bank, by {who}")
    spaces = machine.done("for unit in bank bank-front; do readlink /proc/$(systemctl show -P MainPID $unit)/ns/net; done; "
                          "readlink /proc/1/ns/net").split()
    require(len(set(spaces)), 3, "networks")
    machine.done("until [ -s /var/log/bank-front/audit.log ]; do sleep 0.1; done")
    require(machine.done("stat -c '%U %a' /var/log/bank-front /var/log/bank-front/audit.log").split(),
            ["bank-trail", "700", "bank-trail", "600"], "the trail")
    worker = machine.done("pgrep -u bank-front nginx")
    for text in (": >/var/log/bank-front/audit.log", "truncate -s 0 /var/log/bank-front/policy.log", "ls /var/log/bank-front",
                 ": >/run/bank-trail/audit", "cat /etc/bank-front/server.key", "cat /var/lib/bank/bank"):
        found = machine.sh(f"nsenter -t {worker} -m setpriv --reuid bank-front --regid bank-front --clear-groups sh -c '{text}'")
        require((found.returncode != 0, "ermission denied" in found.stderr), (True, True), f"{text}: {found.stderr}")
    opened = machine.done(f"for fd in /proc/{worker}/fd/*; do readlink $fd; done").split()
    require([it for it in opened if it.startswith("/var/log/")], [], "files of the trail that a worker has open")
    pipe = machine.done(f"for fd in /proc/{worker}/fd/*; do [ $(readlink $fd) = /run/bank-trail/audit ] && echo $fd; done | head -n 1")
    before = machine.done("sha256sum </var/log/bank-front/audit.log; stat -c %s /var/log/bank-front/audit.log").split()
    machine.done(f"echo '{{\"time\":\"forged\"}}' >{pipe}; until grep -q forged /var/log/bank-front/audit.log; do sleep 0.1; done")
    require(machine.done(f"head -c {before[2]} /var/log/bank-front/audit.log | sha256sum").split()[0], before[0], "the lines before it")


def next_entry(machine):
    """The number of one entry more, of nothing. The file itself is locked while it is served."""
    return json.loads(machine.asked("amy", "/do/post", '{"account":101,"branch":1,"delta":0,"teller":11}'))["entry"]


def restarts_at_work(machines):
    """Six tellers post without slips, ten times per second each, while the bank starts anew twenty times and the front twice: no
    request is lost and none refused."""
    machine, posts = machines.machine("six"), 300
    before = next_entry(machine)
    loops = []
    for i, who in enumerate(TELLERS):
        body = json.dumps({"account": 101 + i, "branch": 1, "delta": 1, "teller": 11 + i})
        one = machine.curl(who, "/do/post", body, "--rate 600/m", "-o /dev/null", "-w '%{http_code}\\n'")
        path = "https://bank.branch/do/post"
        loops.append(one.replace(path, " ".join([f"{path} -o /dev/null"] * posts)) + f" >/tmp/{who}.found 2>&1 &")
    orders = "for i in $(seq 10); do for j in 1 2; do sleep 0.7; systemctl restart bank; done; systemctl reset-failed bank; done"
    machine.done("\n".join(loops) + f"\nsleep 1; systemctl reload bank-front; {orders}; systemctl reload bank-front; wait")
    found = {}
    for who in TELLERS:
        for line in machine.done(f"cat /tmp/{who}.found").splitlines():
            found[line] = found.get(line, 0) + 1
    held = machine.done("grep -cE '\"seconds\":(0.[2-9]|[1-9])' /var/log/bank-front/audit.log; true")
    print(f"    replies {found}; {held} took 0.2 s or more")
    require(found, {"200": 6 * posts}, "replies")
    require(next_entry(machine) - before - 1, 6 * posts, "entries")


def ended_by_itself(machines):
    """A bank that is killed, or whose input has ended, is there again at once."""
    machine = machines.machine("six")
    ask = machine.curl("amy", "/do/balance", '{"account":101}', "-f", "-o /dev/null", "-w '%{http_code} '")
    machine.done("systemctl reset-failed; systemctl kill -s KILL --kill-whom=main bank")
    require(machine.done(ask), "200", "killed")
    another = ("for i in $(seq 600); do new=$(systemctl show -P MainPID bank); [ $new = 0 ] || [ $new = $old ] || exit 0; "
               "sleep 0.1; done; exit 1")
    for _ in range(3):
        machine.done(f"old=$(systemctl show -P MainPID bank); kill $(cat /run/bank/holder); {another}")
        require(machine.done(ask), "200", "its input has ended")
    machine.done("systemctl reset-failed")


def refused(machines):
    """A bank whose list of badges or whose file is refused stays down, and its file as it was, until somebody has looked."""
    machine, folder, badges = machines.machine("six"), "/var/lib/bank", "/etc/bank-badges.csv"
    machine.done(f"systemctl stop bank; cp -a {folder} {badges} /root/")
    for spoil, status in ((f"echo x >>{badges}", 1), (f"sqlite3 {folder}/bank 'UPDATE accounts SET balance = 1 WHERE account = 101'", 3)):
        machine.done(f"{spoil}; sha256sum {folder}/bank >/root/sum; systemctl start bank; "
                     "until systemctl is-failed bank; do sleep 0.2; done")
        require(machine.done("systemctl show -P ExecMainStatus bank"), str(status), "how it ended")
        require(machine.status_of("amy", "/do/balance", '{"account":101}'), 502, "the reply")
        require(machine.sh("systemctl is-failed bank bank.socket").stdout.split(), ["failed"] * 2, "then")
        machine.done("sha256sum -c --status /root/sum")
        machine.done(f"rm {folder}/bank*; cp -a /root/bank/bank* {folder}; cp -a /root/bank-badges.csv {badges}; "
                     "systemctl reset-failed; systemctl start bank")
        machine.asked("amy", "/do/balance", '{"account":101}')
        machine.done("systemctl stop bank")
    machine.done("systemctl start bank")


def disk_that_failed(machines):
    """While the bank that runs has said that its disk failed, a unit fails; once it is started anew, none does."""
    machine, line = machines.machine("six"), "/run/systemd/system/bank.service.d/says.conf"
    machine.done("systemctl reset-failed; systemctl start bank-disk")
    machine.done(f"mkdir {line.rpartition('/')[0]}; printf '[Service]\\nExecStartPre=echo disk: failed\\n' >{line}; "
                 "systemctl daemon-reload; systemctl restart bank; journalctl --sync; ! systemctl start bank-disk")
    require(machine.sh("systemctl is-failed bank-disk").stdout.strip(), "failed", "the unit")
    machine.done(f"rm {line}; systemctl daemon-reload; systemctl restart bank; systemctl start bank-disk")
    machine.asked("amy", "/do/balance", '{"account":101}')


def full_disk(machines):
    """A bank whose disk is full refuses what it can't write, and is started anew by itself once there is room."""
    machine, folder, post = machines.machine("six"), "/var/lib/bank", '{"account":101,"branch":1,"delta":1,"teller":11}'
    machine.done(f"systemctl stop bank-disk.timer bank.socket; cp -a {folder} /root/full; "
                 f"mount -t tmpfs -o size=100m,mode=700,uid=$(id -u bank),gid=$(id -g bank) full {folder}; cp -a /root/full/. {folder}; "
                 "systemctl reset-failed; systemctl start bank")
    require(machine.status_of("amy", "/do/post", post), 200, "before")
    ask = machine.curl("amy", "/do/post", post, "-o /dev/null", "-w '%{http_code}'")
    machine.sh(f"cat /dev/zero >{folder}/fill")
    machine.done(f"for i in $(seq 300); do [ $({ask}) "
                 "= 200 ] || exit 0; done; exit 1")
    require(machine.status_of("amy", "/do/post", post), 503, "with a full disk")
    require(machine.sh("journalctl --sync; systemctl start bank-disk").returncode, 1, "the look at a full disk")
    machine.done(f"rm {folder}/fill; systemctl start bank-disk")
    require(machine.status_of("amy", "/do/post", post), 200, "with room again")
    machine.done(f"systemctl stop bank.socket; rm -rf /root/full; cp -a {folder} /root/full; umount {folder}; cp -a /root/full/. {folder}; "
                 "systemctl reset-failed; systemctl start bank bank-disk.timer")
    machine.asked("amy", "/do/balance", '{"account":101}')


def addresses_are_limited(machines):
    """One address of the network holds as many connections as limits.conf says, and another is answered meanwhile; a card with all its
    addresses holds as many as that says; another table of nftables stays as it is."""
    machine = machines.machine("six")
    machine.done("""nft add table ip mine
        unshare --net sleep 600 >/dev/null 2>&1 & sleep 0.5; other=$!
        ip link add mine0 type veth peer name mine1 netns $other
        ip address add 10.9.0.1/24 dev mine0; ip link set mine0 up
        nsenter -t $other -n sh -c 'for k in $(seq 2 8); do ip address add 10.9.0.$k/24 dev mine1; done; ip link set mine1 up'
        echo $other >/run/other""")
    held = machine.done(f"nsenter -t $(cat /run/other) -n python3 -c '{HOLDING}'")
    require(held.split(), ["100", "0", "True", "299", "False"], "connections of an address, more of it a while later, of another; of all of the card, and one more")
    require(machine.done("systemctl restart bank-limits; nft list tables").splitlines().count("table ip mine"), 1, "a table of others")
    machine.done("systemctl stop bank-limits; ! nft list table ip bank_front; systemctl start bank-limits; kill $(cat /run/other)")


def night(machines):
    """The night starts the bank anew, and what else runs, while all are answered, and leaves a checked copy that has the bank's
    entries; the audit trail is rotated."""
    machine = machines.machine("six")
    last = next_entry(machine)
    running = "systemctl show -P MainPID bank bank-front bank-trail"
    before = machine.done(running).split()
    ask = machine.curl("amy", "/do/balance", '{"account":101}', "-o /dev/null", "-w '%{http_code}\\n'")
    machine.done(f"systemctl reset-failed; (until [ -e /tmp/morning ]; do {ask}; sleep 0.05; done) >/tmp/night 2>&1 & "
                 "systemctl start bank-night; until ls -d /var/lib/bank-copies/*-checked || systemctl is-failed bank-copy; do sleep 0.2; done; "
                 "until systemctl show -P ExecMainExitTimestamp bank-renew | grep .; do sleep 0.2; done; sleep 1; touch /tmp/morning; wait")
    require(set(machine.done("cat /tmp/night").split()), {"200"}, "replies over the night")
    require([it for it in machine.done(running).split() if it in before], [], "processes that are as before")
    results = machine.done("systemctl show -P Result bank-night bank-copy bank-certificates bank-renew").split()
    require(results, ["success"] * 4, "results")
    machine.done("echo 2026-01-31 amy >>/etc/bank-front/last-days; ! systemctl start bank-certificates")
    require(machine.done("journalctl -q -o cat -u bank-certificates | grep ends"), "amy ends on 2026-01-31", "a certificate that ends")
    copy = machine.done("ls -d /var/lib/bank-copies/*-checked | tail -n 1")
    require(machine.done(f"ls {copy}").split(), ["bank", "bank.sha256"], "the copy")
    require(machine.done(f"sqlite3 -readonly {copy}/bank 'SELECT max(number) FROM entries'"), str(last), "its last entry")
    # A request gets its line some time after its reply.
    machine.done("sleep 1; logrotate -f /etc/logrotate.d/bank-front; ls /var/log/bank-front/audit.log-*; ! ls /var/log/bank-front/audit.log")
    machine.asked("amy", "/do/balance", '{"account":101}')
    machine.done("for i in $(seq 600); do [ -s /var/log/bank-front/audit.log ] && exit 0; sleep 0.1; done; exit 1")
    found = machine.done("stat -c '%U %a' /var/log/bank-front/audit.log; wc -l </var/log/bank-front/audit.log").split()
    require(found, ["bank-trail", "600", "1"], "the next audit trail")


def upgrade_at_work(machines):
    """Posts every 0.05 seconds over an upgrade are all answered 200, also from a version that wrote the trail otherwise. The bank is a
    new process and the front the same; the sockets stay open; a changed setting stays; the trail goes on."""
    machine = machines.machine("six")
    body = '{"account":101,"branch":1,"delta":1,"teller":11}'
    post = machine.curl("amy", "/do/post", body, "-o /dev/null", "-w '%{http_code}\\n'")
    state = ("for it in bank bank-front; do systemctl show -P MainPID $it; done; for it in bank bank-front; do systemctl show "
             "-P ActiveEnterTimestampMonotonic $it.socket; done; tail -n 1 /etc/bank-front/settings.js")
    machine.done("systemctl reset-failed; echo '// mine' >>/etc/bank-front/settings.js")
    # In an earlier version there were no pipes, and the files of the trail were root's.
    machine.done("systemctl stop bank-trail.socket bank-trail; rm -r /run/bank-trail; chown -R root: /var/log/bank-front")
    before, entry = machine.done(state).split("\n"), next_entry(machine)
    machine.done(f"""(until [ -e /tmp/enough ]; do {post} || echo none; sleep 0.05; done) >/tmp/posts 2>&1 &
        sleep 1
        {INSTALL} /run/folder/next/tespiorvu_*.deb >/tmp/upgrade 2>&1 || {{ cat /tmp/upgrade; exit 1; }}
        sleep 2; touch /tmp/enough; wait""")
    statuses, after = machine.done("cat /tmp/posts").split(), machine.done(state).split("\n")
    print(f"    {len(statuses)} posts over the upgrade: {sorted(set(statuses))}")
    require(set(statuses), {"200"}, "replies")
    require(next_entry(machine) - entry - 1, len(statuses), "entries")
    require([one == other for one, other in zip(before, after)], [False, True, True, True, True], f"{before}, then {after}")
    require(machine.done("dpkg-query -W -f '${Version}' tespiorvu").endswith("-2"), True, "the later revision")
    machine.asked("amy", "/do/balance", '{"account":101}')
    machine.done("for i in $(seq 600); do tail -n 1 /var/log/bank-front/audit.log | grep -q balance && exit 0; sleep 0.1; done; exit 1")
    require(set(machine.done("stat -c %U /var/log/bank-front/*").split()), {"bank-trail"}, "whose the trail is")


def removed_and_back(machines):
    """Once removed, nothing runs; once purged, the books, the copies, the audit trail and the certificates are there; installed
    again, the package serves the same books."""
    machine = machines.machine("six")
    last = next_entry(machine)
    machine.done("DEBIAN_FRONTEND=noninteractive apt-get remove -y tespiorvu")
    require(machine.sh(f"systemctl is-active {UNITS}").stdout.split(), ["inactive"] * 6, "units after the removal")
    require(machine.sh("pgrep -l 'bank_cli|nginx'; pgrep -u bank-trail; ls /run/bank.socket /usr/bin/bank_cli; nft list tables | grep bank")
            .stdout, "", "what is left of it")
    sums = "sha256sum /var/lib/bank/bank* /etc/bank-badges.csv /etc/bank-front/*.pem; ls /var/lib/bank-copies /var/log/bank-front"
    before = machine.done(sums)
    machine.done("DEBIAN_FRONTEND=noninteractive apt-get purge -y tespiorvu")
    require(machine.done(sums), before, "what a purge leaves")
    settings = "ls /etc/bank-front/*.conf /etc/logrotate.d/bank-front /etc/systemd/system/*/bank*"
    require(machine.sh(settings).stdout, "", "what a purge removes")
    machine.done(f"{INSTALL} /run/folder/tespiorvu_*.deb; systemctl -q enable --now bank-front.socket bank bank-front bank-disk.timer bank-night.timer")
    require(next_entry(machine), last + 1, "the next entry")


CHECKS = (page, install, shut_in, restarts_at_work, ended_by_itself, refused, disk_that_failed, full_disk, addresses_are_limited, night,
          upgrade_at_work, removed_and_back)


def make_all(description, checks):
    """Makes checks of machines with the packages of the program that is given. The exit status."""
    arguments = reader(description, has_checks=False)
    arguments.add_argument("root", metavar="ROOT", nargs="?", default="/", help="a folder with a Debian of its own")
    given = arguments.parse_args()
    signal.signal(signal.SIGTERM, lambda *_: sys.exit(1)) # so that the machines are ended, too
    report = Report(len(checks))
    with tempfile.TemporaryDirectory(prefix="in-systemd-packages-") as made:
        machines = Machines([packed(given.program, f"{made}/{it}", "--revision", it) for it in ("1", "2")], given.root)
        try:
            for it in checks:
                before = report.failed
                report.make([Check(it.__name__, partial(it, machines))])
                for name, machine in machines.started.items() if report.failed > before else ():
                    print(f"{name}:\n{machine.sh('journalctl --no-pager -n 40').stdout}", flush=True)
        finally:
            machines.close()
    return report.end()


if __name__ == "__main__":
    sys.exit(make_all(__doc__, CHECKS))
