"""Rights that end at the bank end in the office: by the list of badges, and by the front's log of commands, handed over."""
import datetime
import json
import os
import subprocess

import pytest
from office.tests.conftest import EVERYTHING, POST, PROGRAMS, Office

QUEUE = "/office/api/queue"


@pytest.fixture(autouse=True)
def bank(office: Office) -> None:
    """A bank whose copy was made a minute ago. Cai, a teller, sees accounts by one triple."""
    bank = office.bank()
    bank.grant(11, [9], EVERYTHING, 0)
    at = int((office.copies / "present").stat().st_mtime) - 60
    os.utime(office.copies / "present", (at, at))


def line(command: str, body: dict[str, object], status: str = "200", late: int = 0) -> str:
    """A line of the front's log, `late` seconds from now."""
    time = (datetime.datetime.now().astimezone() + datetime.timedelta(seconds=late)).isoformat(timespec="seconds")
    said = {"time": time, "badge": "olga", "path": f"/policy/{command}", "status": status, "bank": status, "body": json.dumps(body)}
    return json.dumps(said) + "\n"


def hand_over(office: Office, *lines: str) -> None:
    """What the unit does with a log."""
    subprocess.run([PROGRAMS / "hand-rights"], env={"BANK_ROOT": str(office.root)}, input="".join(lines), text=True, check=True)


def statuses(office: Office, *badges: str) -> list[int]:
    """Whether these badges see names."""
    return [office.ask(badge, "/office/accounts/101").status_code for badge in badges]


def test_who_is_suspended_loses_all_at_once(office: Office) -> None:
    assert statuses(office, "tess", "kim", "cai") == [200, 200, 200]
    hand_over(office, line("suspend", {"user": 7}), line("suspend", {"user": 3}), line("suspend", {"user": 11}, "403"))
    assert statuses(office, "tess", "kim", "cai") == [403, 403, 200]
    assert "suspended" in office.ask("kim", "/office/sheets").text
    hand_over(office, line("suspend", {"user": 7}), line("restore", {"user": 7}))
    assert statuses(office, "tess", "kim") == [200, 403]


def test_a_triple_that_is_revoked_or_withdrawn_shows_nothing(office: Office) -> None:
    set_no = 7  # the last of the bank's sets
    revoked = line("revoke", {"user": 11, "procedure": "balance", "set": set_no})
    hand_over(office, line("revoke", {"user": 11, "procedure": "balance", "set": 1}))
    assert statuses(office, "cai") == [200]
    hand_over(office, revoked)
    assert statuses(office, "cai", "tess") == [403, 200]
    again = {"user": 11, "procedure": "balance", "set": set_no, "limit": 0}
    hand_over(office, revoked, line("grant", {**again, "first": 0, "last": 1}))
    assert statuses(office, "cai") == [403]
    hand_over(office, revoked, line("grant", again))
    assert statuses(office, "cai") == [200]
    hand_over(office, revoked, line("grant", again), line("withdraw", {"procedure": "balance", "set": set_no}))
    assert statuses(office, "cai") == [403]


def test_a_lower_limit_is_that_of_a_releaser_at_once(office: Office) -> None:
    office.api("tess", "asks", {"wish": "release", "operation": {**POST, "delta": 90_000}})
    key = {"user": 9, "procedure": "release", "set": 5}
    for limit, count in ((90_000, 1), (89_999, 0)):
        hand_over(office, line("revoke", key), line("grant", {**key, "limit": limit}))
        assert len(office.ask("sue", QUEUE).json["waiting"]) == count, limit
    assert len(office.ask("sam", QUEUE).json["waiting"]) == 1


def test_what_was_handed_stays_when_the_log_is_rotated_and_goes_with_the_next_copy(office: Office) -> None:
    hand_over(office, line("suspend", {"user": 7}))
    hand_over(office)
    hand_over(office, '{"time":"2026-11-30T10:00', '{"time":"2026-11-30T10:00:00+00:00","lost":3}\n', line("suspend", {"user": 3}))
    assert statuses(office, "tess", "kim") == [403, 403]
    assert (office.copies / "rights").stat().st_mode & 0o777 == 0o640
    later = int((office.copies / "present").stat().st_mtime) + 3600
    os.utime(office.copies / "present", (later, later))
    assert statuses(office, "tess", "kim") == [200, 200]
    hand_over(office)
    assert (office.copies / "rights").read_text() == ""


def test_a_command_before_the_copy_is_of_the_copy(office: Office) -> None:
    hand_over(office, line("suspend", {"user": 7}, late=-120))
    assert statuses(office, "tess") == [200]
