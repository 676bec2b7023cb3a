"""What the front's trail hands to the office: the policy's log over rotated files, and from when to when cards were used."""
import csv
import gzip
import json
import os
import subprocess
import time
from pathlib import Path

from office.tests.conftest import PROGRAMS

LOG, OUT = "var/log/bank-front", "var/lib/bank-office-trail"
MAP = '"0A" "amy";\n"0B" "ben";\n"0C" "amy";\n'


def line(badge: str, certificate: str, ended: float) -> str:
    """A line of the audit trail."""
    return json.dumps({"badge": badge, "certificate": certificate, "ended": ended, "path": "/do/post"}) + "\n"


def hand_over(folder: Path, valid: str = MAP) -> dict[tuple[str, str], tuple[int, int, int]]:
    """What the unit does, and the cards that it hands over: whether they are valid, and their first and last use."""
    subprocess.run([PROGRAMS / "hand-trail"], env={"BANK_ROOT": str(folder)}, input=valid, text=True, check=True)
    with open(folder / OUT / "cards.csv", newline="") as file:
        return {(it["badge"], it["serial"]): (int(it["valid"]), int(it["first"]), int(it["last"])) for it in csv.DictReader(file)}


def test_cards_have_their_first_and_last_use_over_all_files(tmp_path: Path) -> None:
    log, present = tmp_path / LOG, int(time.time())
    log.mkdir(parents=True)
    (tmp_path / OUT).mkdir(parents=True)
    with gzip.open(log / "audit.log-20260101.gz", "wt") as file:
        file.write(line("amy", "0A", 100.5) + line("cai", "0D", 70))
    (log / "audit.log-20260102").write_text(line("amy", "0A", 300) + '{"time":"x","lost":3}\n{"badge":"amy","certi')
    (log / "audit.log").write_text(line("amy", "0C", 400) + line("", "0B", 500) + line("ben", "", 500))
    wanted = {("amy", "0A"): (1, 100, 300), ("amy", "0C"): (1, 400, 400), ("ben", "0B"): (1, 0, 0), ("cai", "0D"): (0, 70, 70)}
    assert hand_over(tmp_path) == wanted
    assert [it.stat().st_mode & 0o777 for it in sorted((tmp_path / OUT).iterdir())] == [0o640, 0o640]
    for it in log.iterdir():  # what was handed before is kept when its files are old, or gone
        os.utime(it, (present - 10 * 86_400,) * 2)
    (log / "audit.log-20260101.gz").unlink()
    (log / "audit.log").write_text(line("amy", "0A", 900))
    assert hand_over(tmp_path, '"0A" "amy";\n') == {("amy", "0A"): (1, 100, 900), ("amy", "0C"): (0, 400, 400), ("cai", "0D"): (0, 70, 70)}


def test_the_policys_log_is_handed_whole_in_order(tmp_path: Path) -> None:
    log = tmp_path / LOG
    log.mkdir(parents=True)
    (tmp_path / OUT).mkdir(parents=True)
    with gzip.open(log / "policy.log-20260101.gz", "wt") as file:
        file.write("1\n")
    (log / "policy.log-20260102").write_text("2\n")
    (log / "policy.log").write_text("3\ntorn")
    (log / "policy.log.old").write_text("x\n")
    assert hand_over(tmp_path, "") == {}
    assert (tmp_path / OUT / "policy.log").read_text() == "1\n2\n3\n"
