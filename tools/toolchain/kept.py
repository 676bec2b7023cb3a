"""What the tools keep of their work from one run to the next, each piece under a checksum of all that it hangs on.

It lies in $XDG_CACHE_HOME/tespiorvu, or in ~/.cache/tespiorvu, with a folder for each kind of piece. Nothing there goes stale, as
a change of what a piece hangs on gives it another name; so the folder may be removed at any time. If it can't be
read or written, nothing is kept, and all work is done anew.
"""
import contextlib
import glob
import hashlib
import os
import tempfile

from repository import TOP, below

PLACE = os.path.join(os.environ.get("XDG_CACHE_HOME") or os.path.expanduser("~/.cache"), "tespiorvu")
# The files of the kit that name it and what it was built from, and its programs.
NAMES_OF_KIT, PROGRAMS_OF_KIT = ("KIT-ID", "WHAT"), ("bin/*", "toolchain/bin/*")


def sum_of(*parts):
    """The checksum of texts, numbers, bytes, and lists of them."""
    return hashlib.sha256(repr(parts).encode()).hexdigest()


def sum_of_file(path):
    """The checksum of a file, or none if it can't be read."""
    try:
        with open(path, "rb") as file:
            return hashlib.sha256(file.read()).hexdigest()
    except OSError:
        return None


def sum_of_kit(home):
    """The checksum of what names the toolchain's kit, and of the size and time of each of its programs."""
    programs = sorted(path for it in PROGRAMS_OF_KIT for path in glob.glob(os.path.join(home, it)))
    found = [(os.path.relpath(it, home), os.stat(it).st_size, os.stat(it).st_mtime_ns) for it in programs]
    return sum_of([sum_of_file(os.path.join(home, it)) for it in NAMES_OF_KIT], found)


def sum_of_tools(names):
    """The checksum of files of tools/, and of this one."""
    return sum_of([(it, sum_of_file(os.path.join(TOP, "tools", it))) for it in (*names, "toolchain/kept.py")])


def sum_of_files(folder, *patterns):
    """The checksum of the files below a folder whose paths match one of these patterns."""
    paths = sorted(path for it in patterns for path in glob.glob(f"{folder}/{it}", recursive=True))
    return sum_of([(os.path.relpath(it, folder), sum_of_file(it)) for it in paths if os.path.isfile(it)])


def sum_below(uses, crate, libraries, home):
    """The checksum of the libraries on which a crate stands, or none if one of them is not built. Each has a file with the sums of
    its others, and of the libraries of the kit below it."""
    ours = [it for it in below(uses, [crate]) if it != crate]
    of_kit = sorted({"std", *(used for it in [crate, *ours] for used in uses[it])} - {*ours})
    places = {**{it: f"{libraries}/crates/{it}/out/rlib" for it in ours}, **{it: f"{home}/rlibs" for it in of_kit}}
    found = [(it, uses.get(it), sum_of_file(f"{at}/{it}.rlib/format")) for it, at in places.items()]
    return sum_of(uses[crate], found) if all(it for _, _, it in found) else None


def own_folder(kind):
    """The folder for pieces of this kind, or none if there can be none that is the user's own."""
    if kind is None:
        return None
    folder = os.path.join(PLACE, kind)
    try:
        os.makedirs(folder, 0o700, exist_ok=True)
        return folder if os.path.isabs(folder) and os.stat(folder).st_uid == os.geteuid() else None
    except OSError:
        return None


class Kept:
    """The pieces of a kind that are kept; with no kind, none is. If all is to be done anew, none of them is given."""

    def __init__(self, kind, is_anew=False):
        self.folder, self.is_anew = own_folder(kind), is_anew

    def get(self, name):
        """The bytes that are kept under this name, or none. A file that is not whole is none."""
        if not self.folder or not name or self.is_anew:
            return None
        path = os.path.join(self.folder, name)
        try:
            with open(path, "rb") as file:
                head, _, piece = file.read().partition(b"\n")
            os.utime(path)
        except OSError:
            return None
        return piece if head == hashlib.sha256(piece).hexdigest().encode() else None

    def put(self, name, piece):
        """Keeps these bytes under this name: they are written apart first, so that no other run reads half of them."""
        if not self.folder or not name:
            return
        with contextlib.suppress(OSError):
            with tempfile.NamedTemporaryFile(dir=self.folder, prefix="new-", delete=False) as file:
                file.write(hashlib.sha256(piece).hexdigest().encode() + b"\n" + piece)
            os.replace(file.name, os.path.join(self.folder, name))

    def drop(self, name):
        """Keeps nothing under this name."""
        if self.folder and name:
            with contextlib.suppress(OSError):
                os.remove(os.path.join(self.folder, name))

    def shrink(self, most):
        """Removes the pieces that were used longest ago, until the others take no more bytes of the disk than these."""
        if not self.folder:
            return
        with contextlib.suppress(OSError):
            found = [(it.stat().st_mtime, 512 * it.stat().st_blocks, it.path) for it in os.scandir(self.folder)]
            for _, size, path in sorted(found, reverse=True):
                most -= size
                if most < 0:
                    os.remove(path)
