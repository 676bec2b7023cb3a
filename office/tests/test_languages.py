"""The four languages: each sentence is translated, with the same places and the counter's terms; numbers, dates, sheets are
as a language writes them; no page of the office is English in a German browser; what somebody typed stays as typed."""
import ast
import datetime
import functools
import json
import re
import sqlite3
from collections.abc import Callable, Iterator
from decimal import Decimal
from pathlib import Path
from typing import Any

import pytest
from jinja2 import Environment, nodes
from tespiorvu.branch import replay_policy
from tespiorvu.office import books, controls, register, runs, sheets
from tespiorvu.office.languages import LANGUAGES, NAMES, Count, Language, Sentence, Term, as_kept, from_kept, language_of
from tespiorvu.policy import Kind
from tespiorvu.procedures import PROCEDURES
from tespiorvu.office.register import Holder, Holding, User
from tespiorvu.office.policy_file import explain, nights_of, opened_policy
from tespiorvu.office.settings import OFFICES
from office.tests.bank_file import TABLES
from office.tests.conftest import POST, Office
from office.tests.policy_bank import TESS, PolicyBank
from office.tests.test_controls import PLANTED, honest_month

from pages.counter_texts import pattern_of, terms_and_retired

HERE, OTHERS = controls.QUERIES.parent, LANGUAGES[1:]
PLACE = re.compile(r"\{(\w+)\}")
# What says a sentence, which is a constant, and its first argument. (languages.py has no sentence of its own.)
SAYS = {"Refused", "Taken", "Forbidden", "Sentence", "say", "t"}
# The text of a template that has no `t`, which is in letters, but for what is the same in every language.
LETTERS, ALIKE = re.compile("[A-Za-z]{2,}"), {"camt", "csv", "CSV", "PDF"}
SHOWN_ATTRIBUTES = re.compile(r"""\b(?:aria-label|title|alt)=(["'])(.*?)\1""", re.DOTALL)
TAG, JINJA = re.compile(r"<[^>]*>", re.DOTALL), re.compile(r"\{\{.*?\}\}|\{%.*?%\}|\{#.*?#\}", re.DOTALL)
# What tables and lists have: terms that a page says as they are there.
KEPT = {
    *books.FORMS.values(), *books.CASH_FORMS.values(), "deposit", "withdrawal", "waiting", "claimed", "done", "refused",
    "withdrawn", "proposed", "approved", "carried out", *runs.KINDS, *register.MAY, "none",
    *sheets.SHEETS, "holder", "holding", "user", "run", "change", "moment", "what", "row", "old", "new", "kind", "first", "last",
    *(it for sheet in sheets.SHEETS.values() for it in sheet.heading), "approved by", "withdrawn by", "refused ones again by",
    "reason", "purpose", "account", "branch", "drawer", "other", "source", "target", "delta", "amount", "cash", "entries", "balance", "vault", "drawers",
    "cash_entries", "differences", "number", "home", "form", "corrects", "corrected_by", "balance_after", "year", "teller", "transaction",
    "day", "date", "value date", "balance before", "balance after", "balance by the proof", "vault by the proof",
    "from", "to", "interest accrued", "opening", "moved", "ledger", "debit", "credit", "text",
    *PROCEDURES, *(it.name.lower() for it in Kind), *replay_policy.COMMANDS, *OFFICES, "auditor", "procedure", "set", "limit", "members",
    "True", "False", controls.LEFT, "{sheet}.csv, line {line}: {why}",
}  # fmt: skip
# English sentences that have the word of a term, and mean something else.
NOT_THE_TERM = {
    "entry": {"double entry"},
    "move": {"in-one-hand", "users who have what must not meet in one hand", "In one hand:", "Nothing that must not meet in one hand."},
    "counter": {"[[{kind}]] of branch {branch}: teller {teller} {where}; write a spare drawer of this branch"},  # a setting's name
}


def sentences_in(file: Path) -> Iterator[tuple[str | None, str, set[Any]]]:
    """The sentences of a module or a template, None for one that is no constant; where each stands, and the places that it
    is given, None being a mapping."""
    text = file.read_text(encoding="utf-8")
    for call in Environment().parse(text).find_all(nodes.Call) if file.suffix == ".html" else ():
        if isinstance(call.node, nodes.Name) and call.node.name == "t":
            sentence = call.args[0].value if isinstance(call.args[0], nodes.Const) else None
            yield sentence, f"{file.name}:{call.lineno}", {one.key for one in call.kwargs}
    for it in ast.walk(ast.parse(text if file.suffix == ".py" else "")):
        if not isinstance(it, ast.Call):
            continue
        name, where = getattr(it.func, "id", getattr(it.func, "attr", "")), f"{file.name}:{it.lineno}"
        if name in SAYS:
            first = it.args[0]
            yield first.value if isinstance(first, ast.Constant) else None, where, {one.arg for one in it.keywords}
        elif name == "Control":  # whose name and headings are terms
            terms = [one.value for one in ast.walk(it) if isinstance(one, ast.Constant)]
            yield from ((one, where, {None}) for one in terms if isinstance(one, str))


@functools.cache
def all_sentences() -> list[tuple[str | None, str, set[Any]]]:
    """The sentences of all modules and templates."""
    files = [it for it in (*HERE.glob("*.py"), *HERE.glob("templates/*.html")) if it.name != "languages.py"]
    return [found for file in sorted(files) for found in sentences_in(file)]


def of_queries() -> Iterator[str]:
    """The names, titles and headings of the auditor's queries, by queries over a bank that has nothing. (What must not
    meet in one hand the office lists by its settings, with a title and headings of its own.)"""
    bank = sqlite3.connect(":memory:")
    bank.executescript(TABLES)
    for it in controls.queries():
        yield it.name
        if it.name != controls.IN_ONE_HAND:
            yield it.title
            yield from (column[0].replace("_", " ") for column in bank.execute(it.text, {"runs": None}).description)


@functools.cache
def wanted() -> dict[str, str]:
    """All that has to be translated, and where it stands."""
    said = {sentence: where for sentence, where, _ in all_sentences() if sentence}
    return {**dict.fromkeys([*KEPT, *of_queries()], "a table"), **said}


def untranslated(source: str) -> list[str]:
    """The texts of a template that no `t` has, each with its line."""

    def blank(found: re.Match[str]) -> str:
        return "".join("\n" if it == "\n" else " " for it in found[0])

    without = JINJA.sub(blank, source)
    shown = [(without.count("\n", 0, it.start()) + 1, it[2]) for it in SHOWN_ATTRIBUTES.finditer(without)]
    shown += list(enumerate(TAG.sub(blank, without).split("\n"), 1))
    return [f"line {line}: {text.strip()}" for line, text in shown if set(LETTERS.findall(text)) - ALIKE]


def test_each_sentence_is_a_constant_with_a_value_for_each_place(tmp_path: Path) -> None:
    for sentence, where, given in all_sentences():
        assert sentence and (None in given or given == {*PLACE.findall(sentence)}), where
    for name, text in (("it.py", "Refused(f'{it}')\nsay('Day', day=1)"), ("it.html", "{{ t(it) }}\n{{ t('Day', day=1) }}")):
        (tmp_path / name).write_text(text)
        assert [*sentences_in(tmp_path / name)] == [(None, f"{name}:1", set()), ("Day", f"{name}:2", {"day"})]


@pytest.mark.parametrize("code", OTHERS)
def test_each_sentence_is_translated(code: str) -> None:
    words = language_of(code).words
    missing = [f"{where}: {it}" for it, where in wanted().items() if it not in words]
    assert missing == [], f"words/{code}.json lacks these"
    assert [it for it in words if it not in wanted()] == [], f"words/{code}.json has what nothing says"


@pytest.mark.parametrize("code", OTHERS)
def test_a_translation_has_the_places_of_its_sentence(code: str) -> None:
    wrong = [it for it, said in language_of(code).words.items() if set(PLACE.findall(it)) != set(PLACE.findall(said))]
    assert wrong == []


@pytest.mark.parametrize("file", sorted(HERE.glob("templates/*.html")), ids=lambda it: it.name)
def test_a_template_has_no_text_but_by_t(file: Path) -> None:
    assert untranslated(file.read_text(encoding="utf-8")) == []


def test_what_no_t_has_is_found() -> None:
    source = '<p title="{{ t("Run") }}">{{ it }}</p>\n<p>Done</p>\n<p aria-label="Close"></p>'
    assert untranslated(source) == ["line 3: Close", "line 2: Done"]


@pytest.mark.parametrize("code", OTHERS)
def test_the_counters_terms_are_used(code: str) -> None:
    terms, retired = terms_and_retired()
    words = language_of(code).words
    lacks = [f"{term.name}: {english}: {said}" for term in terms for english, said in words.items()
             if english not in NOT_THE_TERM.get(term.name, ())
             and pattern_of(term.forms["en"]).search(PLACE.sub("", english))
             and not pattern_of(term.forms[code]).search(PLACE.sub("", said))]
    assert lacks == []
    old = [f"{word}: {it}" for word in retired[code] for it in words.values() if pattern_of((word,)).search(PLACE.sub("", it))]
    assert old == []


def test_numbers_and_dates_are_as_a_language_writes_them() -> None:
    date = datetime.date(2026, 11, 30)
    shown = {it: (language_of(it).amount(-123_456_705), language_of(it).date(date)) for it in LANGUAGES}
    assert shown == {"en": ("-1,234,567.05", "2026-11-30"), "de": ("-1.234.567,05", "30.11.2026"),
                     "fr": ("-1\u202f234\u202f567,05", "30/11/2026"), "es": ("-1.234.567,05", "30/11/2026")}


def test_a_value_is_written_by_its_type() -> None:
    german, date = language_of("de"), datetime.date(2026, 1, 31)
    interest = Sentence("interest of {amount} at {rate} %", amount=Decimal("1200.50"), rate=Decimal("1.25"))
    assert german.written(interest) == "Zinsen 1200,50 zu 1,25\u00a0%"
    assert str(interest) == "interest of 1200.50 at 1.25 %"
    assert german.say("{first} is after {last}", first=date, last="2026-01-31") == "31.01.2026 liegt nach 2026-01-31"
    values = {"column": Term("holder"), "field": "'holder'"}
    why = sheets.SheetRefused("holders", 3, Sentence("{column} is a whole number, and not {field}", **values))
    assert german.written(why) == "holders.csv, Zeile 3: Inhaber ist eine ganze Zahl, und nicht 'holder'"
    assert german.written([interest, interest]).count("; ") == 1
    assert german.written([Term("post"), "post", True, Count(1_000)]) == "Ein- oder Auszahlung, post, ja, 1.000"


@pytest.mark.parametrize("code", LANGUAGES)
def test_what_is_kept_is_said_in_each_language_and_an_earlier_versions_text_as_it_stands(code: str) -> None:
    language, row = language_of(code), Sentence("user {user}", user=7)
    values = {"row": row, "copied": ["Present", False, Decimal("1.50")], "logged": Sentence("none")}
    said = [Sentence("{row}: {copied} in the copy, {logged} by the log", **values)]
    assert language.kept(as_kept(said)) == language.written(said) and str(from_kept(as_kept(row))) == "user 7"
    for text in ("interest of 1.50 at 1.25 %", "Present", "", '{"name": "Overdrawn", "rule": 31}'):
        assert language.kept(text) == text


@pytest.mark.parametrize("code", LANGUAGES)
def test_what_somebody_typed_comes_back_as_typed(code: str, office: Office) -> None:
    bank, language, typed = PolicyBank(office), language_of(code), ("Present", "Open", "1250.00", "account")

    def page(badge: str, path: str) -> str:
        return str(office.ask(badge, f"/office/{path}", headers={"Accept-Language": code}).text)

    bank.night()
    for user, name in enumerate(typed, 40):
        bank.command("olga", "enrol", user=user, name=name, officer=False)
    night, listed = bank.night([]), page("olga", "controls")
    with opened_policy(office.settings) as found:
        explain(found, "Present", night.night, "1250.00")
    changes = page("olga", "rights/changes")
    assert re.search(r"Present,? .*: 1250\.00</p>", changes)
    for user, name in enumerate(typed, 40):
        values = {"row": Sentence("user {user}", user=user), "copied": [name, False], "logged": Sentence("none")}
        row = language.say("{row}: {copied} in the copy, {logged} by the log", **values)
        assert row in changes and row in listed, row
        assert f"x; {name}; y" in page("sue", f"statements?account=101&first=x; {name}; y")
        assert language.say("{sheet}: {count} rows changed", sheet=name, count=3) in page("kim", f"sheets?name={name}&changed=3")


def test_a_sheet_is_as_a_language_writes_it_and_comes_in_again(office: Office) -> None:
    office.keep(Holder(1, "Müller; Anna"), Holding(101, 1, "acts"))
    for code in LANGUAGES:
        headers = {"Accept-Language": f"{code}-XX,{code};q=0.9,en;q=0.1"}
        for name in ("holders", "holdings"):
            reply = office.ask("kim", f"/office/sheets/{name}.csv", headers=headers)
            with office.opened() as found:
                assert sheets.imported(found, "kim", name, reply.data) == 0, reply.text
    assert "Konto;Inhaber;darf\r\n101;1;handelt" in office.ask("kim", "/office/sheets/holdings.csv", headers={"Accept-Language": "de"}).text
    text = sheets.sheet_text(("amount", "moment"), [(Decimal("-1250.05"), datetime.date(2026, 1, 31))], language_of("de"))
    assert text == "\ufeffBetrag;Zeitpunkt\r\n-1250,05;31.01.2026\r\n"


class Marked(Language):
    """A language that writes each of its sentences in letters of its own: what stays in those of English is no sentence of it."""

    def __init__(self) -> None:
        super().__init__("de", {it: marked(it) for it in wanted()})

    def say(self, sentence: str, **values: object) -> str:
        assert sentence in self.words, f"no catalogue has {sentence!r}"
        return super().say(sentence, **values)


def marked(sentence: str) -> str:
    """A sentence whose letters are turned, and whose places stay."""
    return "".join(part if at % 2 else re.sub("[A-Za-z]", "ж", part) for at, part in enumerate(re.split(r"(\{\w+\})", sentence)))


def filled(office: Office) -> None:
    """An office with something of everything, and with data of no English letters."""
    office.keep(Holder(1, "Ю", "Ю", "Ю", "Ю", "2026-01-01"), Holder(2, "Ю"), User("tess", 7, "Ю"))
    office.keep(Holding(101, 1, "owns"), Holding(102, 2, "acts"))
    bank = office.bank("2025")
    bank.at(2025, 6, 2)
    bank.post(1, 101, 700)
    bank.close_day(1)
    bank = office.bank(before=bank)
    bank.move(1, 0, 11, 5_000, 2)
    wrong = bank.post(1, 101, 700)
    bank.post(1, 101, -700, undoes=wrong, user=8)
    bank.post(1, 102, -300)
    bank.transfer(1, 101, 102, 100)
    bank.drawer_off(1, 11, 4_690)
    bank.bank.execute("INSERT INTO releases (user_no, number, giver, branch, day, form, used) VALUES (7, 1, 9, 1, 1, 1, 1), (7, 2, 9, 1, 1, 2, 0)")
    bank.close_day(1)
    office.api("tess", "asks", {"wish": "release", "operations": [POST, {**POST, "delta": 5}]})
    correction = {**POST, "procedure": "correct", "entry": 1, "other": 0}
    office.api("tess", "asks", {"wish": "correct", "operation": correction})
    office.api("sue", "asks/1/claim", {})
    period = {"branch": "1", "first": "2025-07-01", "last": "2025-07-31"}
    for kind in runs.KINDS:
        office.form("carl", "/office/runs", kind=kind, **period)
    office.settings.morning.mkdir()
    ended = {"made": 1, "seal": f"seal 3, branch 1, day 2: {'-'.join(['1234'] * 6)}", "seal_fault": "", "failed": ["ю"], "failed_fault": ""}
    (office.settings.morning / "morning").write_text(json.dumps(ended))


# Each page that a browser asks for, and who asks. Those without a page have no sentence of the office.
PAGES: dict[str, list[str]] = {
    "/office/": ["kim /office/"], "/office/holders/<number:number>": ["kim /office/holders/1", "kim /office/holders/9", "tess /office/holders/9"],
    "/office/accounts/<number:account>": ["sue /office/accounts/101", "sue /office/accounts/103", "tess /office/accounts/201"],
    "/office/users": ["kim /office/users"], "/office/sheets": ["kim /office/sheets?name=holders&changed=3", "tess /office/sheets"],
    "/office/sheets/<name>.csv": [f"kim /office/sheets/{it}.csv" for it in sheets.SHEETS], "/office/changes": ["kim /office/changes"],
    "/office/changes.csv": [], "/office/days": ["sue /office/days", "tess /office/days"],
    "/office/days/<number:branch>/<number:day>": ["sue /office/days/1/1", "sue /office/days/1/2", "sue /office/days/1/3", "sue /office/days/1/9"],
    "/office/days/<number:branch>/<number:day>.csv": ["sue /office/days/1/2.csv"],
    "/office/ledger/<number:branch>/<number:day>.csv": ["sue /office/ledger/1/2.csv"], "/office/ledger/<number:branch>/<number:day>.xml": [],
    "/office/statements": ["sue /office/statements", "sue /office/statements?account=101&first=2025-01-01&last=2027-12-31",
                           "sue /office/statements?account=101&first=2027-01-01&last=2026-01-01", "sue /office/statements?account=x"],
    "/office/logo": [], "/office/statements.csv": ["sue /office/statements.csv?account=101&first=2025-01-01&last=2027-12-31"],
    "/office/queue": ["tess /office/queue", "sam /office/queue", "tom /office/queue"],
    "/office/runs": ["carl /office/runs", "tess /office/runs"], "/office/runs/<number:run>": ["carl /office/runs/1", "carl /office/runs/2", "carl /office/runs/3"],
    "/office/nothing": ["kim /office/nothing"], "/office/morning": ["sue /office/morning", "tess /office/morning"],
}  # fmt: skip
# Those of auditors.
AUDIT_PAGES: dict[str, list[str]] = {
    "/office/rights": ["kim /office/rights", "olga /office/rights", "olga /office/rights?at=x", "olga /office/rights?at=2001-01-01"],
    "/office/rights/changes": ["olga /office/rights/changes"], "/office/controls": ["olga /office/controls", "olga /office/controls?year=1999"],
    "/office/reviews": ["olga /office/reviews", "olga /office/reviews?user=7", "olga /office/reviews?user=x"],
}  # fmt: skip
# What stands in pages in English letters, and is no sentence: badges, programs, marks of files.
DATA = {"tess", "tom", "sue", "sam", "kim", "carl", "camt", "csv", "CSV", "PDF", "xml", "office", "holders", "olga", "cora", "Olga", "Carl", "Cora"}
TAGS = re.compile(r"<(style|script).*?</\1>|<[^>]*>", re.DOTALL)


def english_in(text: str) -> set[str]:
    """The text of a page in English letters, but for data and the languages' own names."""
    shown = re.findall(r'(?:aria-label|title)="([^"]*)"', text) + [TAGS.sub(" ", text)]
    return {word for it in shown for word in re.findall("[A-Za-z]{2,}", it.replace("&#39;", "'").replace("&lt;", "").replace("&gt;", ""))} - DATA - {part for it in NAMES.values() for part in re.findall("[A-Za-z]{2,}", it)}


def audited(office: Office) -> None:
    """An office with something of everything that an auditor sees, and each red night explained but one."""
    bank = honest_month(office)
    for plant, _ in PLANTED:
        plant(bank)
    bank.command("carl", "revoke", "504", user=TESS, procedure="post", set=1)
    bank.command("carl", "grant", user=TESS, procedure="post", set=1, limit=5, first=bank.clock, last=bank.clock + 600)
    bank.command("olga", "enrol", user=40, name="Ю", officer=True)
    bank.command("olga", "appoint", user=40, procedure="proof")
    bank.command("carl", "define-set", set=60, members=[[1, 5, 9], [6, 1, 1]])
    bank.command("carl", "certify", procedure="accounts", set=60)
    bank.night()
    with opened_policy(office.settings) as found:
        explain(found, "(command)", next(it.night for it in nights_of(found) if it.is_red), "Ю")


@pytest.mark.parametrize("fill, pages", [(filled, PAGES), (audited, AUDIT_PAGES)], ids=["counter", "audit"])
def test_no_page_is_english_in_another_language(
    fill: Callable[[Office], None], pages: dict[str, list[str]], office: Office, monkeypatch: pytest.MonkeyPatch
) -> None:
    fill(office)
    rules = [*office.app.url_map.iter_rules(), *office.runs_app.url_map.iter_rules()]
    got = {it.rule for it in rules if "GET" in (it.methods or ())}
    of_people = {it for it in got if "/api/" not in it and "/static/" not in it}
    assert of_people - {*PAGES, *AUDIT_PAGES} == set(), "each page is looked at: PAGES or AUDIT_PAGES lacks these"
    one = Marked()
    monkeypatch.setattr("tespiorvu.office.web.language_of", lambda code: one)
    for page in (it for of_rule in pages.values() for it in of_rule):
        who, path = page.split(" ")
        reply = office.ask(who, path)
        assert reply.status_code in (200, 403, 404, 422), page
        assert english_in(reply.text) == set(), page


def test_pages_are_in_the_browsers_language(office: Office) -> None:
    filled(office)
    for wanted_by, code in (("de-AT,de;q=0.9,en;q=0.8", "de"), ("fr", "fr"), ("es-MX", "es"), ("pl,en;q=0.5", "en"), ("", "en")):
        page = office.ask("sue", "/office/days/1/2", headers={"Accept-Language": wanted_by}).text
        assert f'<html lang="{code}">' in page and f"<h2>{language_of(code).say('Vault')}</h2>" in page
    refused = office.api("tess", "search", {"q": ""})
    assert refused.json["office"] == "A search begins with two letters"
    in_german = {"Desk-Badge": "tess", "Accept-Language": "de"}
    assert office.ask("tess", "/office/api/search", "POST", json={"q": ""}, headers=in_german).json["office"] == "Eine Suche beginnt mit zwei Buchstaben"
