"""The chain of changes, by which what was altered or taken away shows; and holders who are forgotten."""
import json
import sqlite3
from contextlib import closing
from pathlib import Path

import pytest
from tespiorvu.office import chain, forgetting, register
from tespiorvu.office.register import Holder, Holding
from tespiorvu.office.store import Refused, now, opened
from office.tests.conftest import Office, earlier_register

YEAR = 366 * 86_400
SECRETS = ("Ann One", "Secret Street", "Passport 7", "owes much", "Ann Two")


@pytest.fixture(autouse=True)
def holders(office: Office) -> None:
    """Ann, whose account is no longer hers, and Bea, whose is; a bank in which nobody is suspended."""
    office.bank()
    office.keep(Holder(1, "Ann One", "Secret Street", "Passport 7", "owes much", "2020-01-31"), Holder(2, "Bea"))
    office.keep(Holding(101, 1, "owns"), Holding(102, 2, "owns"))
    office.keep(Holder(1, "Ann Two"), Holding(101, 1, "none"), badge="lee")


def faults(office: Office) -> list[str]:
    """What the chain says."""
    with office.opened() as found:
        return list(chain.faults_of(found))


def saved(office: Office, capsys: pytest.CaptureFixture[str]) -> tuple[int, str]:
    """The status of the nightly copy, and what it complains of."""
    return office.command("save"), capsys.readouterr().err


def rewrite(office: Office, *statements: str) -> None:
    """What somebody who has the file does to it, past its triggers."""
    with closing(sqlite3.connect(office.settings.file)) as found, found:
        for name in ("changes_stay", "texts_stay", "changes_are_kept"):
            found.execute(f"DROP TRIGGER {name}")
        for it in statements:
            found.execute(it)


@pytest.mark.parametrize("statement, fault", [
    ("DELETE FROM changes WHERE change = 3", "change 4 does not follow from the one before"),
    ("DELETE FROM changes WHERE change = 1", "change 2 does not follow from the one before"),
    ("UPDATE changes SET badge = 'tom' WHERE change = 5", "change 5 does not follow from the one before"),
    ("UPDATE changes SET moment = moment + 1 WHERE change = 6", "change 6 does not follow from the one before"),
    ("UPDATE changes SET new = '{}' WHERE change = 2", "change 2 has other texts than it was made with"),
    ("UPDATE changes SET old = NULL WHERE change = 5", "change 5 has other texts than it was made with"),
    ("UPDATE changes SET digest = '00' WHERE change = 6", "change 6 does not follow from the one before"),
])  # fmt: skip
def test_a_change_that_is_altered_or_taken_away_shows(office: Office, statement: str, fault: str) -> None:
    assert faults(office) == []
    rewrite(office, statement)
    assert fault in faults(office)


def test_the_last_change_can_not_be_taken_away_after_a_copy(office: Office, capsys: pytest.CaptureFixture[str]) -> None:
    assert saved(office, capsys) == (0, "")
    rewrite(office, "DELETE FROM changes WHERE change = 6")
    assert faults(office) == []
    assert saved(office, capsys) == (1, "bank-office: change 6 of the copy before is gone, or is another\n")


def test_a_chain_that_was_made_anew_shows(office: Office, capsys: pytest.CaptureFixture[str]) -> None:
    assert saved(office, capsys) == (0, "")
    with closing(sqlite3.connect(office.settings.file)) as found, found:
        found.row_factory = sqlite3.Row
        rows = [dict(it) for it in found.execute("SELECT * FROM changes ORDER BY change")]
        found.execute("DROP TABLE changes")
        found.execute(
            "CREATE TABLE changes (change INTEGER PRIMARY KEY, moment INTEGER, badge TEXT, what TEXT, row TEXT, old TEXT, new TEXT, "
            "salt TEXT, digest TEXT, sum TEXT) STRICT"
        )
        for it in rows:
            names = ("change", "moment", "badge", "what", "row", "old", "new")
            chain.add(found, {name: it[name] for name in names} | ({"badge": "tom"} if it["change"] == 1 else {}))
    assert faults(office) == []
    assert saved(office, capsys)[0] == 1


def test_a_holder_is_forgotten_once_the_term_is_over(office: Office, monkeypatch: pytest.MonkeyPatch) -> None:
    with office.opened() as found:
        for number, why in ((1, "is kept until"), (2, "has account 102"), (3, "There is no holder")):
            with pytest.raises(Refused, match=why):
                forgetting.forget(found, "(command)", number, 10)
        assert forgetting.due(found, 10) == []
        at = now() + 10 * YEAR
        monkeypatch.setattr(forgetting, "now", lambda: at)
        assert [it.holder for it in forgetting.due(found, 10)] == [1]
        forgetting.forget(found, "(command)", 1, 10)
        assert forgetting.due(found, 10) == []
        assert register.holder_of(found, 1) == Holder(1, "Holder 1")
        assert list(register.search(found, "ann")) == []
        assert list(chain.faults_of(found)) == []
        kept = [json.loads(it["old"] or it["new"]) for it in found.execute("SELECT * FROM changes WHERE what = 'holding' ORDER BY change")]
        assert [(it["account"], it["holder"]) for it in kept] == [(101, 1), (102, 2), (101, 1)]
    content = office.settings.file.read_bytes()
    assert [it for it in SECRETS if it.encode() in content] == []
    page = office.ask("kim", "/office/holders/1")
    assert (page.status_code, "Holder 1: Holder 1" in page.text) == (200, True)


def test_the_command_forgets_and_lists(office: Office, capsys: pytest.CaptureFixture[str]) -> None:
    given, none = [office.command("forget"), office.command("forget", "1")], "years_kept = 0\n"
    assert (given, capsys.readouterr().err.split(" until ")[0]) == ([0, 1], "bank-office: Holder 1 is kept")
    assert (office.command("forget", more=none), capsys.readouterr().out) == (0, "1 Ann Two\n")
    given = [office.command("forget", "1", more=none), office.command("forget", more=none)]
    assert (given, capsys.readouterr().out) == ([0, 0], "")


def test_changes_of_an_earlier_register_become_a_chain(tmp_path: Path) -> None:
    with earlier_register(tmp_path / "earlier") as found:
        rows = [(5, "kim", "holder", "1", None, "{}"), (6, "kim", "holder", "1", "{}", '{"a": 1}'), (7, "lee", "run", "1", None, "{}")]
        found.executemany("INSERT INTO changes (moment, badge, what, row, old, new) VALUES (?, ?, ?, ?, ?, ?)", rows)
    with opened(tmp_path / "earlier") as found:
        kept = [tuple(it) for it in found.execute("SELECT moment, badge, what, row, old, new FROM changes ORDER BY change")]
        assert (kept, list(chain.faults_of(found)), chain.head_of(found).change) == (rows, [], 3)
        with pytest.raises(sqlite3.IntegrityError, match="never"):
            found.execute("DELETE FROM changes")


def columns_of(found: sqlite3.Connection) -> dict[str, set[str]]:
    """The tables, but those of runs, each with its columns."""
    tables = [it["name"] for it in found.execute("SELECT name FROM sqlite_master WHERE type = 'table' AND name NOT LIKE 'runs%'")]
    return {it: {row["name"] for row in found.execute(f"PRAGMA table_info({it})")} for it in tables}


def test_an_earlier_register_has_the_tables_of_a_new_one(tmp_path: Path) -> None:
    with earlier_register(tmp_path / "earlier"):
        pass
    with opened(tmp_path / "earlier") as found, opened(tmp_path / "new") as new:
        brought_up, made = columns_of(found), columns_of(new)
        assert {name: brought_up[name] for name in made} == made
        for it in (found, new):  # else a sheet of many holders reads all names for each
            plan = it.execute("EXPLAIN QUERY PLAN DELETE FROM name_words WHERE holder = 1").fetchone()["detail"]
            assert "INDEX name_words_by_holder" in plan
