"""No text of the program is a badge: whoever knows what stands in it is nobody. Lists are read at the paths that were named.

    tools/faults/badges [--list] [--only TEXT] [PROGRAM]

PROGRAM is crates/bank_cli/out/bank_cli if it is left out. Every text of its data, and every text between quotes in the sources of its
crates, is sent as a badge that opens a session, to `run` and to `counter` over a bank whose list of badges has one user: as it
stands, and each word of it. Each gets rule 1, but for the one badge of the list, which is such a text, too, so a check that
overlooked it fails.

The files that `init` and `run` open, also in vain, are those lists and the bank's own.
"""
import functools
import glob
import os
import re
import subprocess
import tempfile
from collections.abc import Iterator

from checks import Check, Wrong, lacking, reader, require, run_checks
from faults.disk_calls import Watched
from replies import statuses_in
from repository import BANK_PROGRAM, TOP, below, dependencies
from sample_file import BADGES, LISTS, ended, make_sample, run_arguments
from serving import Counter, asked

# What a badge may be, and the least of it that is looked for.
MOST, LEAST = 64, 4
TEXTS = re.compile(rb"[\x20-\x7e]{%d,}" % LEAST)
WORDS = re.compile(rb"[\x21-\x7e]+")
NAMES = re.compile(rb"[0-9A-Za-z_-]+")
QUOTED = re.compile(rb"\"((?:[^\"\\\n]|\\.)*)\"")
# The badge of the list, which the program has for a word of its command line.
LISTED = b"badges"
AT_ONCE = 500


def texts_of_sources() -> Iterator[bytes]:
    """The texts between quotes in the sources of the program's crates."""
    for crate in below(dependencies(), [BANK_PROGRAM]):
        for path in glob.glob(os.path.join(TOP, "crates", crate, "src", "**", "*.rt"), recursive=True):
            with open(path, "rb") as file:
                yield from QUOTED.findall(file.read())


def data_of(program: str, folder: str) -> bytes:
    """The data of a program that it only reads, and that it begins with."""
    path = os.path.join(folder, "data")
    sections = [f"--only-section={it}" for it in (".rodata", ".data", ".data.rel.ro")]
    subprocess.run(["objcopy", "-O", "binary", *sections, program, path], check=True)
    with open(path, "rb") as file:
        return file.read()


def badges_of(program: str, folder: str) -> list[bytes]:
    """What may be a badge among the texts of the program, each once."""
    texts = [*TEXTS.findall(data_of(program, folder)), *texts_of_sources()]
    words = {word for text in texts for pattern in (WORDS, NAMES) for word in pattern.findall(text)}
    return sorted(it for it in words if LEAST <= len(it) <= MOST)


def message(badge: bytes) -> bytes:
    """A request that opens a session by this badge."""
    return b"POST /session HTTP/1.1\r\nHost: bank\r\nBank-Badge: %s\r\nContent-Length: 0\r\n\r\n" % badge


def require_nobody(badges: list[bytes], statuses: list[int]) -> str:
    """Asks that each of these badges was refused but the listed one. Returns how many there were."""
    require(len(statuses), len(badges), "replies")
    taken = [badge for badge, status in zip(badges, statuses) if status != 403]
    if taken != [LISTED]:
        raise Wrong(f"not refused, and the list has {LISTED!r} alone: {taken[:20]}")
    return f"{len(badges)} texts"


class OfList(Counter):
    """A run of `counter` with a list of badges of its own."""

    def __init__(self, program: str, file: str, badges: str) -> None:
        self.badges = badges
        super().__init__(program, file)

    def arguments_at(self, file: str, port: int, requests: int) -> list[str]:
        """The arguments of the run."""
        return [self.badges if it == BADGES else it for it in super().arguments_at(file, port, requests)]


class Badges:
    """The program, its texts, and a folder with a bank and a list of one badge."""

    def __init__(self, program: str, folder: str) -> None:
        self.program, self.badges = program, badges_of(program, folder)
        self.file, self.listed = (os.path.join(folder, it) for it in ("bank", "badges.csv"))
        make_sample(program, self.file)
        with open(self.listed, "wb") as file:
            file.write(b"badge,user\n%s,7\n" % LISTED)

    def to_run(self) -> str:
        """Sends them to `run`."""
        words = ["run", self.file, "--badges", self.listed, "--moment", "1"]
        output = ended(self.program, words, b"".join(message(it) for it in self.badges))
        return require_nobody(self.badges, statuses_in(output))

    def to_counter(self) -> str:
        """Sends them to `counter`, some on each connection."""
        lots = [self.badges[at : at + AT_ONCE] for at in range(0, len(self.badges), AT_ONCE)]
        with OfList(self.program, self.file, self.listed) as serving:
            statuses = [it for lot in lots for it in statuses_in(asked(serving.port, b"".join(map(message, lot))))]
            serving.require_done()
        return require_nobody(self.badges, statuses)


def opened_by(program: str, folder: str, words: list[str]) -> set[str]:
    """Which files a run opens, or asks for in vain."""
    (status, _, errors), calls = Watched(program, folder).calls(words, os.path.join(folder, "opened"))
    require((status, errors), (0, b""), f"the end of {words[0]}")
    return {it.data.decode() for it in calls if it.kind in "cmo"}


def require_named_files(program: str, room: str) -> None:
    """Passes if `init` and `run` read the lists that are named to them, and of other files the bank's own alone."""
    with tempfile.TemporaryDirectory(dir=room) as folder:
        file = os.path.realpath(os.path.join(folder, "bank"))
        own = {file, f"{file}-new", f"{file}-wal"}
        lists = {os.path.join(LISTS, it) for it in os.listdir(LISTS)} - {BADGES}
        require(opened_by(program, folder, ["init", file, LISTS]) - own, lists, "what init opens beside the bank")
        require(opened_by(program, folder, run_arguments(file, 1)) - own, {BADGES}, "what run opens beside the bank")


def main() -> int:
    given = reader(__doc__).parse_args()

    def checks_of(room: str) -> list[Check]:
        badges = functools.cache(lambda: Badges(given.program, room))
        lacks = lacking("objcopy")
        return [
            Check("no text is a badge of run", lambda: badges().to_run(), lacks),
            Check("no text is a badge of counter", lambda: badges().to_counter(), lacks),
            Check("lists are those that are named", lambda: require_named_files(given.program, room)),
        ]

    return run_checks(given, checks_of)
