"""Checks of the seals of days: what they name once a sealed day, a seal, or all of them were altered."""
import contextlib
import http.server
import json
import shutil
import threading
from collections.abc import Callable, Iterable, Iterator
from pathlib import Path

from branch.tests.branches import PATH, Files, self_signed
from branch.tests.commands import printed, run
from checks import require
from branch.tests.month import Month
from branch.tests.tampering import exchange, take_away

VERIFIES, MOST_LINES = "tespiorvu/branch/verify_seals.py", 80


def sealed_night(month: Month) -> str:
    """A night in which nothing is wrong, and then the seals. What is printed."""
    month.good_night()
    return month.said("seal", "night")


def files_of(month: Month) -> list[Path]:
    """The newest copy, and the files of closed years."""
    return [month.checked()[-1] / "bank", *month.bank.glob("2*/bank")]


def verified(month: Month, seals: Path, paper: str, files: Iterable[Path], *more: str | Path) -> tuple[int, list[str]]:
    """The status of a verification in a folder of its own, by the one file, and what it prints."""
    elsewhere = month.folder / "elsewhere"
    elsewhere.mkdir(exist_ok=True)
    shutil.copy(month.files.share / VERIFIES, elsewhere)
    given = "--paper", paper, *more, seals, month.seals / "public.pem", *files
    return printed("/usr/bin/python3", "-I", "verify_seals.py", *given, cwd=elsewhere, env={"PATH": PATH})


def sealed_month(files: Files) -> tuple[Month, str]:
    """A month with two days, the second closed after its first night, a year's end, and a day of the next; the characters on paper."""
    month = Month(files, "sealed")
    require(month.said("seal", "newest"), "no day is sealed\n", "the newest seal of none")
    month.day()
    require(sealed_night(month).count("\n"), 1, "seals of the first night")
    month.day(closed=False)
    require(sealed_night(month), "", "seals of a day that is open")
    (month.trail / "audit.log").rename(month.trail / "audit.log-20261201")
    month.ask(*month.closing())
    require(sealed_night(month)[:24], "seal 2, branch 1, day 2:", "the seal of a day that was closed after its first night")
    run("gzip", month.trail / "audit.log-20261201")
    month.day()
    month.forward("2026")
    month.day()
    paper = sealed_night(month).splitlines()
    require([it.rpartition(":")[0] for it in paper], [f"seal {it}, branch 1, day {it}" for it in (3, 4)], "seals of both years")
    require(month.said("seal", "newest"), paper[-1] + "\n", "the newest")
    return month, paper[-1].split()[-1]


def days_are_sealed(files: Files) -> None:
    """Each closed day has a seal, across a year's end and names of the trail; an honest month verifies; what was altered afterwards is
    named by day and table, and a seal that is gone, edited, or of another key, too. Days sealed anew by the same key are refused
    by the characters on the paper."""
    month, paper = sealed_month(files)
    require(len((files.share / VERIFIES).read_text().splitlines()) <= MOST_LINES, True, "how long what verifies is")
    trail = [it for file in month.trail.glob("audit.log*") for it in ("--trail", file)]
    wanted = (0, ["4 seals, 0 faults; the paper is of seal 4, 0 came after it"])
    require(verified(month, month.seals, paper, files_of(month), *trail), wanted, "an honest month")
    require(month.said("seal", "verify", "--paper", paper, str(month.seals), str(month.seals / "public.pem"), *map(str, files_of(month))),
            wanted[1][0] + "\n", "by the command")
    require(verified(month, month.seals, paper[:-1] + "x", files_of(month))[0], 1, "no characters of a paper")
    altered_days(month, paper)
    altered_seals(month, paper)
    altered_trail(month, paper)


def altered_days(month: Month, paper: str) -> None:
    """Rows of sealed days that were altered are named."""
    newest, year = files_of(month)
    room = month.folder / "altered"
    room.mkdir()
    for what, day, tables in ((lambda file: exchange(file, 2, False), 2, ("entries", "lines")), (lambda file: exchange(file, 1, True), 1, ("entries", "lines")),
                              (take_away, 3, ("entries", "proofs"))):
        shutil.copy(year, room / "bank")
        what(room / "bank")
        status, said = verified(month, month.seals, paper, [newest, room / "bank"])
        named = [f"seal {day}, branch 1, day {day}: {it} are not as sealed" for it in tables]
        require((status, [it for it in named if it not in said]), (1, []), f"what is not named of altered rows: {said}")


def key_of(month: Month) -> Path:
    return month.folder / "etc/bank-seal/seal.key"


def resealed(month: Month, seals: Path, key: Path) -> None:
    """Seals all days anew, in another chain, with a key: the moment of the first one's copy is another."""
    before = ""
    for file in sorted(seals.glob("0*.json")):
        seal = {**json.loads(file.read_text()), "before": before}
        seal["copy"] = seal["copy"].replace("2026", "2025")
        file.write_text(json.dumps(seal, separators=(",", ":")) + "\n")
        run("openssl", "pkeyutl", "-sign", "-rawin", "-inkey", key, "-in", file, "-out", file.with_suffix(".sig"))
        before = run("sha256sum", file).split()[0]


def altered_seals(month: Month, paper: str) -> None:
    """A seal that is gone, edited or of another key is named; all of them anew by the same key are good, and not those of the paper."""
    other = month.folder / "other.key"
    run("openssl", "genpkey", "-algorithm", "ed25519", "-out", other)

    def said(change: Callable[[Path], object]) -> str:
        seals = month.folder / "changed"
        shutil.copytree(month.seals, seals)
        change(seals)
        status, lines = verified(month, seals, paper, files_of(month))
        shutil.rmtree(seals)
        require(status, 1, f"the status with altered seals: {lines}")
        return "\n".join(lines)

    require("seal 2, branch 1, day 3: not the next of the chain" in said(lambda it: (it / "000002.json").unlink()), True, "a seal that is gone")
    require(said(lambda it: (it / "000004.json").unlink()), "3 seals, 0 faults; no seal has the characters of the paper", "the last one gone")
    edited = said(lambda it: (it / "000002.json").write_text((it / "000002.json").read_text().replace('"day":2', '"day":1', 1)))
    require([it in edited for it in ("seal 2, branch 1, day 1: not signed by that key", "seal 3, branch 1, day 3: not the next of the chain")], [True] * 2, edited)
    require(said(lambda it: resealed(month, it, other)).count("not signed by that key"), 4, "seals of another key")
    require(said(lambda it: resealed(month, it, key_of(month))), "4 seals, 0 faults; no seal has the characters of the paper", "sealed anew")


def altered_trail(month: Month, paper: str) -> None:
    """A line of the trail that was altered after its seal is named; and so is a file of it that is gone, by the next seal."""
    packed, now = month.trail / "audit.log-20261201.gz", month.trail / "audit.log"
    changed = month.folder / "audit.log"
    changed.write_bytes(now.read_bytes().replace(b'"status":"200"', b'"status":"403"', 3).replace(b'"status":"403"', b'"status":"200"', 1))
    status, said = verified(month, month.seals, paper, files_of(month), "--trail", packed, "--trail", changed)
    require((status, [it.partition(": ")[2][:26] for it in said[:-1]]), (1, ["audit.log is not as sealed"]), f"an altered trail: {said}")
    now.write_text("".join(now.read_text().splitlines(keepends=True)[1:]))
    month.day(posts=1)
    require("a file of audit.log is gone" in sealed_night(month), True, "a trail whose beginning is gone")


SERVER = """[one]
serial = serial
signer_cert = server.pem
signer_key = server.key
signer_digest = sha256
default_policy = 1.2.3.4
digests = sha256
ess_cert_id_alg = sha256
"""


@contextlib.contextmanager
def stamping(room: Path) -> Iterator[str]:
    """A server of RFC 3161, with a certificate in server.pem of a folder. Its address."""
    room.mkdir()
    (room / "settings").write_text(SERVER)
    (room / "serial").write_text("01\n")
    self_signed(room / "server", "/CN=stamps", "-addext", "extendedKeyUsage=critical,timeStamping")

    class Handler(http.server.BaseHTTPRequestHandler):
        """Answers a query by openssl."""

        def do_POST(self) -> None: # noqa: N802 - the name of http.server
            (room / "query").write_bytes(self.rfile.read(int(self.headers["Content-Length"])))
            given = "-config", "settings", "-section", "one", "-queryfile", "query", "-out", "reply"
            run("openssl", "ts", "-reply", *given, cwd=room)
            self.send_response(200)
            self.end_headers()
            self.wfile.write((room / "reply").read_bytes())

        def log_message(self, *_: object) -> None: # pylint: disable=arguments-differ
            """Says nothing."""

    with http.server.HTTPServer(("127.0.0.1", 0), Handler) as server:
        running = threading.Thread(target=server.serve_forever)
        running.start()
        try:
            yield f"http://127.0.0.1:{server.server_port}/"
        finally:
            server.shutdown()
            running.join()


def stamps_are_verified(month: Month, paper: str) -> None:
    """Each seal gets a time stamp once, and without one, or with that of another seal, verification says so."""
    room, (file, *_) = month.folder / "stamps", files_of(month)
    with stamping(room) as url:
        require([month.said("seal", "stamp", url).count("is stamped") for _ in range(2)], [len(list(month.seals.glob("0*.json"))), 0], "stamps")
    given = "--stamps", room / "server.pem"
    status, said = verified(month, month.seals, paper, [file], *given)
    require((status, [it for it in said if "time stamp" in it]), (0, []), f"with stamps: {said}")
    stamp = next(month.seals.glob("*.tsr"))
    stamp.write_bytes(stamp.read_bytes()[:-20] + bytes(20))
    require("no valid time stamp" in "".join(verified(month, month.seals, paper, [file], *given)[1]), True, "a stamp that is altered")


def seal_bears_what_was_accepted(files: Files) -> None:
    """What root's word took stands in the next seal, and where the chain was altered no seal is made."""
    month = Month(files, "accepted")
    month.day()
    stamps_are_verified(month, sealed_night(month).split()[-1])
    exchange(month.file, 1, False)
    require(month.accept("--by", "Rut", "a disk failed"), 0, "bank-accept")
    month.day(posts=1)
    require(month.night()[0], 0, "the night that is accepted")
    paper = month.said("seal", "night").split()[-1]
    status, said = verified(month, month.seals, paper, files_of(month))
    require((status, "seal 2, branch 1, day 2: (accepted by Rut: a disk failed)" in said), (1, True), f"the seal: {said}")
    require("seal 1, branch 1, day 1: entries are not as sealed" in said, True, f"the earlier seal: {said}")
    require(key_of(month).stat().st_mode & 0o777, 0o400, "the key's mode")
    (month.seals / "000001.json").unlink()
    require(month.run("seal", "night").returncode, 1, "a seal on a chain that is not whole")


CHECKS: list[Callable[[Files], None]] = [days_are_sealed, seal_bears_what_was_accepted]
