"""The register: names of all kinds, search, CSV, and that nothing is lost."""
import re
import sqlite3

import pytest
from tespiorvu.office import migrations, register, sheets
from tespiorvu.office.register import Holder
from tespiorvu.office.store import Refused
from office.tests.conftest import Office
from hypothesis import example, given, settings, strategies
from office.tests.odd_names import ODD_NAMES

HEADING = "holder,name,address,document,note,since\n"


def sheet_of(names: list[str]) -> bytes:
    """A sheet of holders with these names."""
    own = [Holder(number, name, f"{number} Main Street, Town\nUpstairs", since="2026-01-31") for number, name in enumerate(names, 1)]
    return sheets.sheet_text(Holder._fields, own).encode()


def test_each_odd_name_is_found_by_the_beginning_of_its_words(office: Office) -> None:
    with office.opened() as found:
        assert sheets.imported(found, "kim", "holders", sheet_of(ODD_NAMES)) >= 40
        for number, name in enumerate(ODD_NAMES, 1):
            words = [it for it in register.asked_words(name) if register.is_enough({it})]
            assert words, name
            for word in words:
                begins = word if len(word) < 3 else word[:-1]
                if register.is_enough({begins}):
                    assert number in [it.holder for it in register.search(found, begins)], (name, begins)


@pytest.mark.parametrize("asked, name", [
    ("muller", "Jürgen Müller"), ("MÜL", "Jürgen Müller"), ("o'neil", "Shaun O'Neil"), ("oneil", "Shaun O'Neil"),
    ("neil", "Shaun O'Neil"), ("漢", "漢字 太郎"), ("jo da", "João da Silva"), ("strass", "Anna Straße"),
    ("mueller", "Jürgen Müller"), ("groesser", "Uta Größer"), ("jaeg", "Änne Jäger"), ("mueller", "Ann Mueller"),
])  # fmt: skip
def test_accents_and_letter_case_do_not_matter(office: Office, asked: str, name: str) -> None:
    with office.opened() as found:
        sheets.imported(found, "kim", "holders", sheet_of([name, "Somebody Else"]))
        assert [it.name for it in register.search(found, asked)] == [name]


@pytest.mark.parametrize("asked", ["bauer", "queen", "sue"])
def test_what_is_no_umlaut_stays_as_it_is(asked: str) -> None:
    assert register.spellings_of(asked) == {asked}


@pytest.mark.parametrize("asked", ["", "a", "-", "a b"])
def test_a_search_begins_with_two_letters(office: Office, asked: str) -> None:
    with office.opened() as found, pytest.raises(Refused):
        list(register.search(found, asked))


def test_a_search_has_at_most_twenty_words(office: Office) -> None:
    with office.opened() as found:
        assert list(register.search(found, " ".join(f"aa{it}" for it in range(20)))) == []
        with pytest.raises(Refused, match="at most 20 words"):
            list(register.search(found, " ".join(f"aa{it}" for it in range(21))))


@pytest.mark.parametrize("record, why", [
    ("x,Ann,,,,", "holder is a whole number"), ("0,Ann,,,,", "whole number"),
    ("1000000000,Ann,,,,", "whole number"), ("01,Ann,,,,", "whole number"), ("1,,,,,", "name has 1 to 200"),
    ("1, ,,,,", "name has 1 to 200"), (f"1,{'x' * 201},,,,", "and not 201"),
    ("1,Ann,,,,31.1.2026", "since is a date"), ("1,Ann\x07,,,,", "U+0007"), ("1,\u202enna,,,,", "U+202E"),
    ("1,\u200b,,,,", "U+200B"), ("1,A\u200dB,,,,", "U+200D"), ("1,A\u3164,,,,", "U+3164"), ("1,\ufffe,,,,", "U+FFFE"),
    ("1,\u2800,,,,", "U+2800"), ("1,Ann,A\U000e0041,,,", "U+E0041"), ("1,\u00a0,,,,", "name has 1 to 200"),
    ('1,"Ann,,,,', "unexpected end"), ("1,Ann", "2 fields"), ("1,Ann,,,,,", "7 fields"),
])  # fmt: skip
def test_a_bad_record_is_refused_by_its_line_and_nothing_is_taken(office: Office, record: str, why: str) -> None:
    good = f"{HEADING}5,Good,,,,\r\n"
    with office.opened() as found:
        with pytest.raises(sheets.SheetRefused, match="holders.csv, line 3: ") as refused:
            sheets.imported(found, "kim", "holders", (good + record).encode())
        assert why in str(refused.value)
        assert register.holders(found) == []


@pytest.mark.parametrize("name, text, why", [
    ("holders", "", "line 1: the file is empty"), ("holders", "name,holder\n", "line 1: the heading is holder, name"),
    ("holders", "holder;name,address;document;note;since\n", "line 1: the heading"),
    ("holdings", "account,holder,may\n101,1,owns\n", "line 2: there is no holder 1"),
    ("users", "badge,user,name\ntess,7,Tess\ntess,8,Tom\n", "line 3: the same as line 2"),
    ("users", "badge,user,name\na b,7,Tess\n", "line 2: 'a b' is no badge"),
    ("users", "badge,user,name\ntess,10000,Tess\n", "line 2: user is a number from 1 to 9,999"),
    ("holders", f'{HEADING}1,Ann,"one\r\ntwo\r\nthree",,,\r\nx,Ben,,,,\r\n', "line 5"),
    ("holders", f"{HEADING}1,Zoë,,,,\n", "line 2: it is not UTF-8"),
])  # fmt: skip
def test_a_bad_sheet_is_refused_by_its_line(office: Office, name: str, text: str, why: str) -> None:
    with office.opened() as found, pytest.raises(sheets.SheetRefused) as refused:
        sheets.imported(found, "kim", name, text.encode("latin-1"))
    assert why in str(refused.value)


LETTERS = strategies.characters(blacklist_categories=register.UNSHOWN, blacklist_characters=[*register.BLANK])
NAME = strategies.text(LETTERS, min_size=1, max_size=200).map(register.spaced).filter(bool)


@given(strategies.lists(NAME, max_size=5))
@example(ODD_NAMES)
@settings(max_examples=60)
def test_any_names_come_out_equal(names: list[str]) -> None:
    found = sqlite3.connect(":memory:", isolation_level=None)
    found.row_factory = sqlite3.Row
    migrations.make_tables(found, migrations.REGISTER.scripts)
    assert sheets.imported(found, "kim", "holders", sheet_of(names)) == len(names)
    assert [it.name for it in register.holders(found)] == names
    text = sheets.exported(found, "holders")
    assert sheets.imported(found, "kim", "holders", text.encode()) == 0
    assert sheets.exported(found, "holders") == text


def test_no_blanks_hide_a_part_of_a_name_and_one_that_stands_is_not_judged(office: Office) -> None:
    with office.opened() as found:
        names = "Ann\u00a0\t Meier" + "\u3000" * 20, " Ann Meier "
        assert [sheets.imported(found, "kim", "holders", sheet_of([it])) for it in names] == [1, 0]
        found.execute("UPDATE holders SET name = 'An\u200bn'")
        assert sheets.imported(found, "kim", "holders", sheets.exported(found, "holders").encode()) == 0


@given(strategies.text() | strategies.text(strategies.sampled_from("a'=+-@;\t\n\r\uff1d\uff0b")))
def test_no_part_of_a_guarded_field_is_a_formula_and_it_comes_back(text: str) -> None:
    guarded = sheets.guarded(text)
    assert sheets.bare(guarded) == text and not guarded.startswith("\t")
    assert not any(it.startswith(tuple("=+-@\uff1d\uff0b")) for it in re.split("[;\t\n\r]", guarded))


def test_a_formula_after_a_semicolon_or_a_line_is_a_text() -> None:
    for begins in "=+-@\t":
        assert sheets.guarded(f"{begins}1") == f"'{begins}1"
    for name, out in (("Meier;=1+1", "Meier;'=1+1"), ("a\n=1", "a\n'=1"), ("\uff1d1", "'\uff1d1"), ("a=b; c", "a=b; c"), ("O'Neil", "O'Neil")):
        assert sheets.guarded(name) == out


def test_a_sheet_of_fewer_columns_is_taken(office: Office) -> None:
    with office.opened() as found:
        more = (("", ""), (",born", ",1961-12-31"), (",born,language,warning", ",1961-12-31,de,ask for the card"))
        for heading, rest in more:
            text = f"holder,name,address,document,note,since{heading}\n1,Ann,,,,2026-01-31{rest}\n"
            assert sheets.imported(found, "kim", "holders", text.encode()) == 1
        assert register.holder_of(found, 1) == Holder(1, "Ann", "", "", "", "2026-01-31", "1961-12-31", "de", "ask for the card")
        for column in ("", ",born"):
            with pytest.raises(sheets.SheetRefused, match="line 1: the heading is holder, name"):
                sheets.imported(found, "kim", "holders", f"holder,name,address,document,note{column}\n".encode())
        for it in (Holder(1, "Ann", born="x y"), Holder(1, "Ann", language="x y"), Holder(1, "Ann", proposer="x y")):
            with pytest.raises(Refused, match="and not 'x y'|is no badge"):
                register.require_holder(it)


def test_each_change_is_kept_with_who_and_when(office: Office) -> None:
    with office.opened() as found:
        sheets.imported(found, "kim", "holders", sheet_of(["Ann"]))
        sheets.imported(found, "kim", "holdings", b"account,holder,may\n101,1,owns\n")
        sheets.imported(found, "lee", "holders", sheet_of(["Ann Smith"]))
        sheets.imported(found, "lee", "holdings", b"account,holder,may\n101,1,none\n")
        kept = [(it["badge"], it["what"], it["old"] is None, it["new"] is None)
                for it in found.execute("SELECT * FROM changes ORDER BY change")]
        assert kept == [
            ("kim", "holder", True, False), ("kim", "holding", True, False), ("lee", "holder", False, False),
            ("lee", "holding", False, True)]
        for text in ("DELETE FROM changes", "UPDATE changes SET badge = 'tom'"):
            with pytest.raises(sqlite3.IntegrityError, match="never"):
                found.execute(text)


def test_what_is_kept_is_on_the_disk_before_it_is_answered(office: Office) -> None:
    office.bank()
    for opened in (office.opened, office.opened_runs):
        with opened() as found:
            assert found.execute("PRAGMA synchronous").fetchone()[0] >= 2
