"""Checks of what an auditor takes along: it verifies by its own page, and has no key; and a write-protected file is checked."""
import os
import shutil
from collections.abc import Callable
from functools import partial
from pathlib import Path

from branch.tests.branches import PATH, Files
from branch.tests.commands import ran
from checks import require
from branch.tests.month import Asked, Month


def shell(text: str, folder: Path) -> tuple[int, str]:
    """The status of lines that a shell carries out in a folder, and what they say."""
    return ran("sh", "-euc", text, cwd=folder, env={"PATH": PATH})


def lines_of(page: Path) -> list[str]:
    """The commands of the page: the indented lines, those that go on joined."""
    blocks = page.read_text().split("\n\n")
    return [it for it in blocks if it.startswith("    ") and not it.strip().startswith("sha256sum seals")]


def evidence_verifies(files: Files) -> None:
    """What bank-evidence gathers verifies by the lines of its page, without the bank's program; it has no key, and names a file that is
    altered."""
    month = Month(files, "taken")
    month.day(posts=2)
    month.good_night()
    month.said("seal", "night")
    month.forward("2026")
    month.day(posts=2, more=[Asked("carl", "/session", ""), Asked("carl", "/policy/grant", {"user": 7, "procedure": "proof", "set": 1, "limit": 0})])
    month.good_night()
    paper = month.said("seal", "night").split()[-1]
    month.put("usr/share/doc/tespiorvu/release.txt", "commit: 0\n")
    folder = month.folder / "gathered"
    said = month.said("evidence", str(folder))
    verifies = [it.replace("CHARACTERS", paper).replace("YEAR", "2026") for it in lines_of(folder / "VERIFY.txt")]
    require(len(verifies), 6, "what the page has to carry out")
    shown = shell(verifies[0], folder)
    require((shown[0], shown[1].strip() in said), (0, True), f"the sums: {shown}")
    status, seals = shell(verifies[1], folder)
    require((status, seals.splitlines()[0]), (0, "2 seals, 0 faults; the paper is of seal 2, 0 came after it"), "the seals")
    require(shell(verifies[2], folder)[0], 0, "a signature by hand")
    require(shell(verifies[3], folder), (0, ""), "the books by sqlite3")
    status, entries = shell(verifies[4], folder)
    require((status, all(it.startswith("entry ") for it in entries.splitlines()), len(entries) > 0), (0, True, True), f"the join: {entries[-300:]}")
    require(shell(verifies[5], folder), (0, "version 0 to 1: nothing is missing\n"), "the policy")
    require([it for it in folder.rglob("*") if it.is_file() and b"PRIVATE KEY" in it.read_bytes()], [], "keys")
    with open(folder / "badges.csv", "a", encoding="utf-8") as file:
        file.write("eve,7\n")
    require(shell(verifies[0], folder)[0], 1, "the sums of a list of badges that was changed")
    require(month.run("evidence", folder).returncode, 2, "a folder that is there")
    no_key_is_taken(month)


def no_key_is_taken(month: Month) -> None:
    """A link to a key, wherever a service user can write, is refused; so are an odd name, a pipe, and a key."""
    key, log = month.folder / "etc/bank-seal/seal.key", month.trail / "audit.log-x"
    read = {month.trail: "audit.log-x policy.log-x", month.copies: "99990101T000000Z-checked", month.bank: "2025",
            month.checked()[-1]: "bank bank.sha256 accepted differs", month.bank / "2026": "bank bank-wal bank.sha256",
            month.seals: "000009.json 000009.sig 000009.tsr public.pem"}  # fmt: skip
    cases: list[tuple[Path, Callable[[Path], object], str]] = [
        *((it / name, partial(os.symlink, key), "is a link") for it, names in read.items() for name in names.split()),
        (log.with_name("audit.log-\n"), Path.touch, "has an odd name"), (log, os.mkfifo, "is no file"),
        (log, partial(shutil.copy, key), "this is a key")]  # fmt: skip
    for number, (place, plant, why) in enumerate(cases):
        aside = place.exists()
        if aside:
            place.rename(month.folder / "aside")
        plant(place)
        ended = month.run("evidence", month.folder / f"by-{number}")
        require((ended.returncode, why in ended.stderr), (1, True), f"{place}: {ended}")
        place.unlink()
        if aside:
            (month.folder / "aside").rename(place)


def write_protected_file(files: Files) -> None:
    """A file that may not be written, in a folder that may not, is checked, and nothing is left beside it; one that is damaged is refused."""
    month = Month(files, "protected")
    room = month.folder / "room"
    room.mkdir()
    shutil.copy(month.file, room / "bank")
    for path, mode in ((room / "bank", 0o400), (room, 0o500)):
        path.chmod(mode)
    require(month.said("check-file", str(room / "bank")), "books hold\n", "a write-protected file")
    require(os.listdir(room), ["bank"], "what is beside it")
    room.chmod(0o700)
    (room / "bank").chmod(0o600)
    os.truncate(room / "bank", 2048)
    statuses = [month.run("check-file", room / it).returncode for it in ("bank", "none")]
    require(statuses, [3, 2], "a damaged file, and none")


CHECKS: list[Callable[[Files], None]] = [evidence_verifies, write_protected_file]
