"""The Debian that both machines start from, made once for all trials in a folder."""
import os
import shutil
import textwrap
from pathlib import Path

from branch.tests.commands import run
from preload import preloaded

# What docs/BRANCH.md, docs/OFFICE.md and docs/TWO-MACHINES.md install, and what the packages need, as the machines reach no archive;
# and what the trial itself uses.
BASE = ("systemd systemd-sysv dbus udev kmod iproute2 procps nginx-light libnginx-mod-http-echo nftables openssl curl logrotate "
        "sqlite3 python3 drbd-utils iputils-arping openssh-server openssh-client rsync dmsetup ca-certificates").split()
MORE = ("pacemaker pacemaker-cli-utils corosync corosync-qdevice corosync-qnetd crmsh resource-agents fence-agents ipmitool psmisc "
        "fonts-dejavu-core gunicorn python3-flask qpdf weasyprint").split()
# Nothing is started in the folder that becomes the image.
NO_START = "#!/bin/sh\nexit 101\n"
MODULES = Path("/usr/lib/uml/modules")
# Below DRBD is a linear map of the second disk, so that a disk can be made to fail.
DISK = "/dev/mapper/bank"
# Nothing is plugged in here, and 600 terminals would take a minute: no udev, and addresses by hand.
AT_START = """\
    [Unit]
    DefaultDependencies=no
    After=local-fs.target
    Before=network.target network-online.target
    [Service]
    Type=oneshot
    RemainAfterExit=yes
    ExecStart=/usr/local/sbin/at-start
    [Install]
    WantedBy=multi-user.target network-online.target
    """
AT_START_SCRIPT = """\
    #!/bin/sh
    case $(uname -n) in a) host=11 ;; b) host=12 ;; *) host=13 ;; esac
    for network in 0 1 2; do
        ip address add 10.0.$network.$host/24 dev vec$network
        ip link set vec$network gso_max_segs 1 up
    done
    modprobe dm-mod
    DM_DISABLE_UDEV=1 dmsetup create bank --table "0 $(cat /sys/block/ubdb/size) linear /dev/ubdb 0"
    """
# What stands before the key of the third machine, as docs/TWO-MACHINES.md has it.
READS = 'restrict,command="rrsync -ro /var/lib/bank-copies"'
# It asks the power switch of the trial.
SWITCH = """\
    #!/bin/sh
    [ "$(curl -sf -m 5 http://10.0.0.254/off/$1)" = off ]
    """
MASKED = "e2scrub_reap getty.target systemd-logind systemd-udevd systemd-udev-trigger".split()
DISABLED = ("systemd-networkd nginx drbd pacemaker corosync corosync-qdevice corosync-qnetd logd apt-daily.timer "
            "apt-daily-upgrade.timer dpkg-db-backup.timer e2scrub_all.timer fstrim.timer").split()


def write(path: Path, text: str, mode: int = 0o644) -> None:
    """Writes a file of the image."""
    path.parent.mkdir(parents=True, exist_ok=True)
    path.write_text(textwrap.dedent(text))
    path.chmod(mode)


def settle(root: Path, key: Path) -> None:
    """Makes of a fresh Debian one that starts as a machine of the trial. Its second key reads copies, and nothing else."""
    (root / "root/.ssh").mkdir(mode=0o700, exist_ok=True)
    reading = key.with_name("reading")
    shutil.copy(key, root / "root/.ssh/id_ed25519")
    shutil.copy(reading, root / "root/.ssh/reading")
    known = f'{key.with_suffix(".pub").read_text()}{READS} {reading.with_suffix(".pub").read_text()}'
    write(root / "root/.ssh/authorized_keys", known, 0o600)
    write(root / "root/.ssh/config", "Host *\nStrictHostKeyChecking no\nUserKnownHostsFile /dev/null\nLogLevel ERROR\n", 0o600)
    write(root / "etc/hosts", "127.0.0.1 localhost\n10.0.1.11 a\n10.0.1.12 b\n10.0.0.13 third\n")
    write(root / "etc/fstab", "")
    write(root / "etc/machine-id", "")
    (root / "etc/hostname").unlink(missing_ok=True)
    write(root / "etc/systemd/system/at-start.service", AT_START)
    write(root / "usr/local/sbin/at-start", AT_START_SCRIPT, 0o755)
    write(root / "etc/bank-switch", SWITCH, 0o755)
    write(root / "etc/systemd/journald.conf.d/trial.conf", "[Journal]\nStorage=persistent\nSyncIntervalSec=1s\nSystemMaxUse=16M\n")
    run("sed", "-i", "s/^UsePAM yes/UsePAM no/", root / "etc/ssh/sshd_config") # half of what a look takes
    for order, units in (("enable", ["at-start", "ssh"]), ("mask", MASKED), ("disable", DISABLED)):
        run("chroot", root, "systemctl", "-q", order, *units)
    shutil.copytree(MODULES, root / "lib/modules", dirs_exist_ok=True)
    shutil.rmtree(root / "var/cache/apt/archives", ignore_errors=True)


def make(folder: Path) -> Path:
    """The path of the image, which is made if it is not there yet. Beside it are the key that all machines know, and what
    linux.uml needs of a processor with many registers."""
    root, key, image = folder / "root", folder / "key", folder / "base.img"
    if not (folder / "debian").exists():
        shutil.rmtree(root, ignore_errors=True)
        run("debootstrap", "--variant=minbase", f"--include={','.join(BASE)}", "bookworm", root)
        write(root / "usr/sbin/policy-rc.d", NO_START, 0o755)
        quick = ("-o", "Dpkg::Options::=--force-unsafe-io")
        run("chroot", root, "apt-get", "-qq", *quick, "install", "-y", "--no-install-recommends", *MORE,
            env={**os.environ, "DEBIAN_FRONTEND": "noninteractive"})
        (root / "usr/sbin/policy-rc.d").unlink()
        (folder / "debian").touch()
    for it in (key, key.with_name("reading")):
        if not it.exists():
            run("ssh-keygen", "-q", "-t", "ed25519", "-N", "", "-f", it)
    if not image.exists():
        settle(root, key)
        run("mkfs.ext4", "-q", "-d", root, f"{image}.new", "3G")
        Path(f"{image}.new").rename(image)
    preloaded("../branch/tests/pair/registers.c", str(folder))
    return image
