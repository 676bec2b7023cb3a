"""Banks in files, made by the built program from the sample's opening lists."""
import json
import os
import shutil
import subprocess
import tempfile
import threading
from typing import Any

from checks import Wrong
from repository import TOP

LISTS = os.path.join(TOP, "sample")
BADGES = os.path.join(LISTS, "badges.csv")
# A bank is a file and the log that may stand beside it.
ENDINGS = ("", "-wal")
SECONDS = 240


def message(badge: str, path: str, body: object = None, session: int = 1) -> bytes:
    """The bytes of a request by the user of a badge in a session."""
    text = "" if body is None else json.dumps(body)
    fields = [f"POST {path} HTTP/1.1", "Host: bank", f"Bank-Badge: {badge}", f"Bank-Session: {session}", f"Content-Length: {len(text)}"]
    return ("\r\n".join(fields) + "\r\n\r\n" + text).encode()


# What opens the bank that `sample` serves: a session of each user, and two drawers.
OPENED = b"".join(
    [
        *(message(badge, "/session") for badge in ("olga", "carl", "cora", "tess", "tom", "sue")),
        message("tess", "/do/drawer-on", {"branch": 1, "cash": 40000, "teller": 11}),
        message("tom", "/do/drawer-on", {"branch": 1, "cash": 5000, "teller": 12}),
    ]
)


def run_arguments(file: str, moment: int) -> list[str]:
    """The arguments by which a bank in a file is served."""
    return ["run", file, "--badges", BADGES, "--moment", str(moment)]


def run_to_end(words: list[str], given: bytes = b"", **how: Any) -> tuple[int, bytes, bytes]:
    """How a run ends: its status, and what it wrote on both streams."""
    ran = subprocess.run(words, input=given, capture_output=True, timeout=SECONDS, check=False, **how)
    return ran.returncode, ran.stdout, ran.stderr


def ended(program: str, words: list[str], given: bytes = b"") -> bytes:
    """What a run wrote to standard output. It has to end well."""
    status, output, errors = run_to_end([program, *words], given)
    if (status, errors) != (0, b""):
        raise Wrong(f"{words[0]} ended with status {status} and wrote {output[-200:]!r} and {errors!r}")
    return output


def make_sample(program: str, file: str, sums: bool = True) -> None:
    """Makes the bank that `sample` serves in a file, by `init` and by one `run` that opens its sessions and drawers. Its pages
    end in sums, or not."""
    if ended(program, ["init", file, LISTS, *["--sums"] * sums]) != b"made\n":
        raise Wrong("init did not say that the bank was made")
    if ended(program, run_arguments(file, 0), OPENED).count(b" 200 OK") != 8:
        raise Wrong("the bank was not opened")


def copy_bank(file: str, target: str) -> None:
    """Copies a bank."""
    for ending in ENDINGS:
        if os.path.exists(file + ending):
            shutil.copyfile(file + ending, target + ending)


class SampleBanks:
    """Copies of the bank that `sample` serves, which is made in a folder once a copy is asked for."""

    def __init__(self, program, room):
        self.program, self.room = program, room
        self.lock, self.bank = threading.Lock(), None

    def made(self):
        """The file of the bank itself."""
        with self.lock:
            if not self.bank:
                bank = os.path.join(self.room, "sample")
                make_sample(self.program, bank)
                self.bank = bank
        return self.bank

    def copy(self):
        """The file of another copy, in a folder of its own. Its name is short, as the path of a Unix socket has room for a
        hundred bytes."""
        file = os.path.join(tempfile.mkdtemp(dir=self.room), "bank")
        copy_bank(self.made(), file)
        return file


def require_sound(program: str, file: str) -> None:
    """Passes if `check` says that the books of a bank hold."""
    said = ended(program, ["check", file])
    if said != b"books hold\n":
        raise Wrong(f"check said {said!r}")
