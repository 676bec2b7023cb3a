"""Gathers what makes a branch, by /usr/share/tespiorvu/parts, into one folder for a third machine to fetch; as root.
The package has it as bank-gather.

/var/lib/bank-gathered/newest has each part at its place; `made`, the moment; `versions` of the packages; public.pem, of
the key of the seals; SHA256SUMS over all, and its signature by that key. The two newest stay. User bank-fetch may read
them. It takes files and folders of plain names, and no keys. If a part has anything else, as a link, if the newest copy
of the bank that was checked is older than a day, if an open file has no copy, or if there is no key of the seals, all
else is gathered, and the exit status is 1.
"""
import grp
import hashlib
import os
import re
import shutil
import subprocess
import sys
import time
from collections.abc import Callable, Iterator
from fnmatch import fnmatchcase
from pathlib import Path
from stat import S_ISDIR, S_ISREG
from typing import NamedTuple

from ..places import ROOT
from .seal import KEY, openssl

GATHERED = ROOT / "var/lib/bank-gathered"
MOMENT = "%Y%m%dT%H%M%SZ"
# What a night has beside the parts.
MADE, VERSIONS, SUMS, SIGNATURE, PUBLIC = BESIDE = "made", "versions", "SHA256SUMS", "SHA256SUMS.sig", "public.pem"
# A file or folder: its path, what is open of it until the next is reached, and whether it is a folder.
Reached = tuple[str, int, bool]


class Part(NamedTuple):
    """A line of `parts`: its place, its user and group, the mode of its files, and the pattern of its copies, if it is
    open at its place."""

    place: str
    owner: str
    mode: int
    copies: str


def parts() -> list[Part]:
    """All parts, in the order of their lines."""
    text = (ROOT / "usr/share/tespiorvu/parts").read_text(encoding="utf-8")
    rows = [it.split() for it in text.splitlines() if it and not it.startswith("#")]
    return [Part(place[1:], owner, int(mode, 8), "".join(copies)[1:]) for place, owner, mode, *copies in rows]


def reached(folder: int, patterns: list[str], refuse: Callable[[str], object], above: str = "") -> Iterator[Reached]:
    """Each file and folder that patterns name, one for each step below a folder, and all below these. Each is opened in
    its folder, which is open, so nobody can put a link in the way. Anything else, or of no plain name, is refused."""
    for name in sorted(it for it in os.listdir(folder) if not patterns or fnmatchcase(it, patterns[0])):
        path, odd = above + name, f"/{ascii(above + name)[1:-1]} is no file or folder of a plain name"
        try:
            opened = os.open(name, os.O_RDONLY | os.O_NOFOLLOW | os.O_NONBLOCK, dir_fd=folder)
        except FileNotFoundError: # it was renamed meanwhile, as files of the trail are
            continue
        except OSError: # a link, or a socket
            refuse(odd)
            continue
        mode = os.fstat(opened).st_mode
        if not re.fullmatch("[A-Za-z0-9._-]+", name) or not (S_ISREG(mode) or S_ISDIR(mode)):
            refuse(odd)
        elif len(patterns) <= 1:
            yield path, opened, S_ISDIR(mode)
            yield from reached(opened, [], refuse, f"{path}/") if S_ISDIR(mode) else ()
        elif S_ISDIR(mode):
            yield from reached(opened, patterns[1:], refuse, f"{path}/")
        os.close(opened)


def versions() -> str:
    """The packages that are installed, with their versions."""
    asked = ["dpkg-query", "-W", "-f", "${Package} ${Version}\n", "tespiorvu*"]
    return subprocess.run(asked, capture_output=True, check=False, text=True).stdout


def sums_of(night: Path) -> str:
    """SHA256SUMS, of all files of a night but that and its signature."""
    text = ""
    for file in sorted(it for it in night.rglob("*") if it.is_file() and it not in (night / SUMS, night / SIGNATURE)):
        with open(file, "rb") as it:
            text += f"{hashlib.file_digest(it, 'sha256').hexdigest()}  ./{file.relative_to(night)}\n"
    return text


class Night:
    """The night that is begun, the one before it, and the exit status."""

    def __init__(self) -> None:
        self.begun, self.before, self.status = GATHERED / "begun", (GATHERED / "newest").resolve(), 0
        self.top = os.open(ROOT, os.O_RDONLY)

    def say(self, what: str) -> None:
        """Says what is wrong."""
        print(f"bank-gather: {what}", file=sys.stderr)
        self.status = 1

    def take(self, place: str, to: str = "") -> None:
        """Takes what is at a place, or one file for another place. What is as in the night before is the same file."""
        for path, opened, is_folder in reached(self.top, place.split("/"), self.say):
            kept, same, state = self.begun / (to or path), self.before / (to or path), os.fstat(opened)
            if is_folder or kept.exists() or path.endswith(".key"):
                continue
            if path.startswith("etc/") and re.search(rb"PRIVATE\sKEY", os.pread(opened, 1 << 16, 0)):
                self.say(f"/{path} is a key, and no part of a night")
                continue
            kept.parent.mkdir(parents=True, exist_ok=True)
            if same.is_file() and (same.stat().st_size, same.stat().st_mtime_ns) == (state.st_size, state.st_mtime_ns):
                os.link(same, kept)
            else:
                copy = ["cp", "--reflink=auto", "--preserve=timestamps", f"/proc/self/fd/{opened}", str(kept)]
                subprocess.run(copy, check=True, pass_fds=[opened])

    def take_copy(self, place: str, copies: str) -> None:
        """Takes the newest copy of a part that is open at its place."""
        found = [path for path, _, is_folder in reached(self.top, copies.split("/"), self.say) if not is_folder]
        if not found:
            return self.say(f"/{place}: there is no copy of it yet in /{copies}")
        self.take(found[-1], place)
        checked = re.search("([^/]*)-checked/bank$", found[-1])
        if checked and checked[1] < time.strftime(MOMENT, time.gmtime(time.time() - 26 * 3600)):
            self.say(f"the newest copy that was checked is of {checked[1]}")

    def end(self, name: str) -> None:
        """Adds the moment, the versions, and the sums, signed. User bank-fetch may then read the night."""
        made, listed, sums, signature, public = (self.begun / it for it in BESIDE)
        made.write_text(f"{name}\n")
        listed.write_text(versions())
        is_signed = KEY.exists() and openssl("pkey", "-in", KEY, "-pubout", "-out", public)
        sums.write_text(sums_of(self.begun))
        if not is_signed or not openssl("pkeyutl", "-sign", "-rawin", "-inkey", KEY, "-in", sums, "-out", signature):
            self.say("without the key of the seals a night is not signed, and brings up no machine: `bank-seal begin`")
        for it in (self.begun, *self.begun.rglob("*")):
            if os.geteuid() == 0:
                os.chown(it, 0, grp.getgrnam("bank-fetch").gr_gid)
            it.chmod(0o750 if it.is_dir() else 0o640)


def gather() -> int:
    """Gathers a night. The exit status."""
    night, name, leads = Night(), time.strftime(MOMENT, time.gmtime()), GATHERED / "leads"
    shutil.rmtree(night.begun, ignore_errors=True)
    night.begun.mkdir()
    try:
        for it in parts():
            if not it.copies:
                night.take(it.place)
            elif os.path.lexists(ROOT / it.place):
                night.take_copy(it.place, it.copies)
        night.end(name)
        subprocess.run(["sync", "-f", str(night.begun)], check=True)
        night.begun.rename(GATHERED / name)
    finally: # if the disk is full, the room is for others
        shutil.rmtree(night.begun, ignore_errors=True)
    leads.unlink(missing_ok=True) # of a run that was cut off
    leads.symlink_to(name)
    leads.rename(GATHERED / "newest")
    for old in GATHERED.glob("[0-9]*Z"):
        if old.name not in (name, night.before.name):
            shutil.rmtree(old)
    return night.status


def main() -> int:
    """Does what is asked for."""
    os.umask(0o077)
    if sys.argv[1:]:
        print(__doc__, file=sys.stderr)
        return 2
    try:
        return gather()
    except (OSError, subprocess.CalledProcessError) as error:
        print(f"bank-gather: {error}", file=sys.stderr)
        return 1
