"""Notes on entries and cash lines: who keeps and sees them, and whose purpose an entry bears."""
import sqlite3
from typing import Any

import pytest
from tespiorvu.office import notes
from tespiorvu.office.books import ENTRIES, Entry
from tespiorvu.office.copies import Copies
from office.tests.conftest import Office

PURPOSE: dict[str, Any] = {"branch": 1, "day": 2, "row": "entry", "number": 3, "kind": "purpose", "text": "Rent of May"}


@pytest.fixture(autouse=True)
def bank(office: Office) -> None:
    """A bank whose branch 1 has entries 1 and 2 of its first day, and is at its second; user 20 may work at branch 2 alone."""
    bank = office.bank()
    bank.post(1, 101, 700)
    bank.post(1, 102, 800, user=8)
    bank.close_day(1)
    bank.grant(8, [12], [(3, 1, 1), (4, 1, 1), (6, 1, 1)])
    bank.grant(20, [1], [(3, 2, 2)])


def kept(office: Office, badge: str = "tess", **changed: Any) -> Any:
    """The reply to a note."""
    return office.api(badge, "notes", {**PURPOSE, **changed})


def seen(office: Office, badge: str, account: int) -> Any:
    """The purposes of an account's entries as a user sees them, by branch and entry, and whether the entry's moment is known."""
    found = office.ask(badge, f"/office/api/purposes?account={account}").json["purposes"]
    return {f"{it['branch']} {it['entry']}": (it["text"], it["moment"] is not None) for it in found}


def test_who_works_at_a_branch_keeps_a_note_and_who_sees_its_proof_reads_it(office: Office) -> None:
    assert office.ask("tess", "/office/api/day?branch=1").json == {"branch": 1, "day": 2}
    assert kept(office).json == {"kept": 1, "branch": 1, "day": 2}
    assert kept(office, "far").status_code == 403
    assert [(it["badge"], it["number"], it["text"]) for it in office.ask("sue", "/office/api/notes?branch=1&day=2").json["notes"]] == [
        ("tess", 3, "Rent of May")]
    assert office.ask("tess", "/office/api/notes?branch=1&day=2").status_code == 403
    assert office.ask("far", "/office/api/day?branch=1").status_code == 403


def test_the_same_note_is_kept_once_and_never_changes(office: Office) -> None:
    assert [kept(office, numbers=[3, 4]).json["kept"], kept(office, numbers=[3, 4, 5]).json["kept"]] == [2, 1]
    assert kept(office, "tom", numbers=[3]).json["kept"] == 1
    with office.opened() as found:
        for statement in ("UPDATE notes SET text = ''", "DELETE FROM notes"):
            with pytest.raises(sqlite3.IntegrityError):
                found.execute(statement)


@pytest.mark.parametrize("changed", [
    {"number": 3, "day": 1}, {"number": 0}, {"numbers": []}, {"number": True}, {"text": " "}, {"text": "two\nlines"}, {"text": 5},
    {"text": "x" * 201}, {"kind": "joke"}, {"row": "account"}, {"row": "line", "day": 1, "number": 9}, {"day": 34}, {"day": 0},
    {"numbers": [*range(1, 202)]}, {"branch": "1"}], ids=str)  # fmt: skip
def test_what_is_no_note_is_refused(office: Office, changed: dict[str, Any]) -> None:
    assert kept(office, **changed).status_code == 422


def test_without_a_day_a_note_is_of_the_open_one(office: Office) -> None:
    assert kept(office, day=None).json["day"] == 2
    assert kept(office, row="line", kind="difference", text="Miscounted").status_code == 200


def test_an_entry_bears_the_last_purpose_of_whoever_made_it(office: Office) -> None:
    for badge, text in (("tess", "Rent"), ("tess", "Rent of May"), ("tom", "Not mine")):
        assert kept(office, badge, day=1, number=1, text=text).status_code == 200
    kept(office, "tess", day=1, number=1, kind="reason", text="Another kind")
    assert seen(office, "tess", 101) == {"1 1": ("Rent of May", True)}
    with office.opened() as found, Copies(office.copies).present() as copy:
        entries = [Entry(*it) for it in copy.rows(f"{ENTRIES} WHERE it.account = 101")]
        assert notes.purposes(found, Copies(office.copies), entries) == {(1, 1, 1): "Rent of May"}
    badges = office.copies / "badges.csv"
    badges.write_text(badges.read_text().replace("tess,7\n", "tess2,7\n").replace("tom,8\n", ""))
    assert seen(office, "sue", 101) == {"1 1": ("Rent of May", True)}
    with office.opened() as found:  # one of an earlier version is of who has its badge now
        found.executescript("ALTER TABLE notes DROP COLUMN user; PRAGMA user_version = 4")
    assert seen(office, "sue", 101) == {}
    badges.write_text(badges.read_text().replace("tess2,", "tess,"))
    assert (seen(office, "sue", 101), kept(office).json["kept"]) == ({"1 1": ("Rent of May", True)}, 1)


def test_purposes_since_the_copy_are_ones_own_or_of_a_branch_whose_proof_is_shown(office: Office) -> None:
    kept(office, "tess", number=3, text="Mine")
    kept(office, "tom", number=4, text="Another's")
    assert seen(office, "tess", 101) == {"1 3": ("Mine", False)}
    kept(office, "tom", numbers=[2, 3], text="Not his")
    assert seen(office, "sue", 101) == {"1 3": ("Mine (tess); Not his (tom)", False), "1 4": ("Another's (tom)", False)}
    assert office.ask("tess", "/office/api/purposes?account=201").status_code == 403
