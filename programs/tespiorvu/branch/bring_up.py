"""Brings a new machine up from what bank-gather left, on which the packages are installed and there is no bank yet; as
root. The package has it as bank-bring-up.

    bank-bring-up [--into ROOM] FOLDER CHARACTERS

FOLDER is one night's, of /var/lib/bank-fetched; CHARACTERS are what `bank-seal begin` printed, from paper. If the night
is not as that key signed it, nothing is brought. Owners and modes are of the package that is installed, by
/usr/share/tespiorvu/parts. With --into a folder ROOM gets all, and no owners: a rehearsal. It starts nothing, as two
machines must never serve one bank.
"""
import grp
import os
import pwd
import re
import shutil
import subprocess
import sys
from fnmatch import fnmatchcase
from pathlib import Path
from typing import NoReturn

from ..places import ROOT
from .gather import BESIDE, MADE, PUBLIC, SIGNATURE, SUMS, VERSIONS, Part, parts, reached, sums_of, versions
from .seal import characters, openssl, sum_of

# Of a pair, one machine at a time has the disk with the bank.
PAIR = "etc/systemd/system/bank.service.d/two-machines.conf"


def refuse(why: str) -> NoReturn:
    """Refuses a night, of which nothing is brought."""
    sys.exit(f"bank-bring-up: {why}")


def verify(night: Path, paper: str) -> None:
    """Refuses a night that is not as the key whose characters are on paper signed it."""
    if not (night / SIGNATURE).is_file() or not (night / PUBLIC).is_file():
        refuse(f"{night} is not signed: gathered without the key of the seals, or by a version that did not sign")
    found, signed = characters(sum_of((night / PUBLIC).read_bytes())), (night / SUMS, "-sigfile", night / SIGNATURE)
    if re.sub("[- ]", "", paper).lower() != found.replace("-", ""):
        refuse(f"{night} has the public key {found}, and not the one on paper")
    if not openssl("pkeyutl", "-verify", "-rawin", "-pubin", "-inkey", night / PUBLIC, "-in", *signed):
        refuse(f"{night / SUMS} is not as it was signed: take another night's")


def part_of(path: str, is_folder: bool) -> Part:
    """The part that a path is of, the first by its lines; of a folder above parts, the first of these."""
    names = path.split("/")
    on_the_way = [it for it in parts() if all(map(fnmatchcase, names, it.place.split("/"))) and not path.endswith(".key")]
    at_or_below = [it for it in on_the_way if it.place.count("/") < len(names)]
    found = at_or_below or (on_the_way if is_folder else [])
    return found[0] if found else refuse(f"/{path} of the night is no part of a branch")


def planned(night: Path) -> dict[str, Part]:
    """What is brought, a folder before what is in it, with the part of each, if all files are as they were signed."""
    found = {path: is_folder for path, _, is_folder in reached(os.open(night, os.O_RDONLY), [], refuse)}
    if set(sums_of(night).splitlines()) != set((night / SUMS).read_text().splitlines()):
        refuse(f"{night} is not as it was gathered: take another night's")
    if re.fullmatch("[0-9]+T[0-9]+Z", night.name) and (night / MADE).read_text() != f"{night.name}\n":
        refuse(f"{night} has the name of another night")
    return {path: part_of(path, is_folder) for path, is_folder in found.items() if path not in BESIDE}


def bring(source: Path, target: Path, mode: int, owner: str) -> None:
    """Brings a file, or a folder that is not there, which may be entered by whoever may read."""
    if source.is_dir():
        if target.is_dir():
            return
        target.mkdir()
        mode |= (mode & 0o444) >> 2
    else:
        target.unlink(missing_ok=True)
        shutil.copyfile(source, target)
        os.utime(target, ns=(source.stat().st_atime_ns, source.stat().st_mtime_ns))
    if owner:
        shutil.chown(target, *owner.split(":"))
    target.chmod(mode)


def bring_up(night: Path, paper: str, room: Path | None) -> int:
    """Brings a night to this machine, or to a room. The status of the check of its books."""
    root, gathered = room or ROOT, (night / VERSIONS).read_text()
    file = root / "var/lib/bank/bank"
    if file.exists():
        refuse(f"{file} is there already: this is for a machine without a bank")
    verify(night, paper)
    plan = planned(night)
    owners = {f"{user.pw_name}:{group.gr_name}" for user in pwd.getpwall() for group in grp.getgrall()}
    for path, part in plan.items():
        if not room and part.owner not in owners:
            refuse(f"there is no user and group {part.owner}: install first {' '.join(gathered.split())}")
        if (root / path).is_symlink():
            refuse(f"{root / path} is a link here")
    root.mkdir(exist_ok=True)
    for path, part in plan.items():
        bring(night / path, root / path, part.mode, "" if room else part.owner)
    check = ["bank_cli", "check", str(file)]
    if room:
        if not file.exists() and (root / PAIR).exists():
            return 0
        # If the check makes the log, it also gives it an owner, which bank-fetch.service may not.
        file.with_name("bank-wal").touch()
        return subprocess.run(check, check=False).returncode
    if versions() != gathered:
        print(f"gathered by {' '.join(gathered.split())}, and here is {' '.join(versions().split())}", file=sys.stderr)
    subprocess.run(["systemctl", "daemon-reload"], check=False)
    return subprocess.run(["runuser", "-u", "bank", "--", *check], check=False).returncode


def main() -> int:
    """Does what is asked for."""
    os.umask(0o077)
    try:
        match sys.argv[1:]:
            case ["--into", room, night, paper]:
                return bring_up(Path(night), paper, Path(room))
            case [night, paper]:
                return bring_up(Path(night), paper, None)
    except OSError as error:
        refuse(str(error))
    print(__doc__, file=sys.stderr)
    return 2
