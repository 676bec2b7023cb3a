"""Review sheets: of each person what they may, what they hold beside it, and their cards, for two others to look at and sign."""
import math
from collections.abc import Iterable, Mapping
from pathlib import Path
from typing import Any, NamedTuple

from jinja2 import Environment, FileSystemLoader
from ..branch.replay_policy import Command
from ..policy import Key, Policy

from . import apart, register
from .cards import Card, cards_in
from .controls import with_pairs
from .copies import Copies, Copy
from .languages import Language, Term, language_of
from .policy_file import opened_policy
from .rights import Rights, is_limitless, items_of, rights_at
from .settings import Settings
from .store import Refused, opened

HERE = Path(__file__).resolve().parent


class Right(NamedTuple):
    """A triple, with who certified the procedure on its set, and the command that granted it, if the log has that."""

    procedure: str
    number: int
    members: list[tuple[str, int, int]]
    limit: int
    first: int
    last: int
    is_limitless: bool
    certifier: int | None
    granted: Command | None


class Sheet(NamedTuple):
    """What a person has."""

    user: int
    name: str
    badges: list[str]
    is_officer: bool
    is_suspended: bool
    certifies: list[str]
    offices: list[str]
    pairs: list[tuple[str, str]]
    rights: list[Right]
    cards: list[Card]

    @property
    def valid_cards(self) -> int:
        """How many of their cards are valid."""
        return sum(it.is_valid for it in self.cards)


def right_of(known: Policy, key: Key, since: Mapping[Key, Command]) -> Right:
    """A triple, as a sheet shows it."""
    _, _, procedure, number = key
    limit, first, last = known[key]
    by = known.get(("relation", procedure, number), [None])[0]
    return Right(procedure, number, items_of(known, number), limit, first, last, is_limitless(known[key]), by, since.get(key))


def rights_of(found: Rights, user: int) -> list[Right]:
    """All triples of a user."""
    return [right_of(found.policy, key, found.since) for key in found.of("triple", user)]


def sheet_of(found: Rights, user: int, copy: Copy, settings: Settings, badges: Mapping[str, int], cards: list[Card]) -> Sheet:
    """The sheet of a user."""
    own = apart.own_badges(badges, user)
    has = apart.has_of(copy, settings, user, own)
    name, is_officer = found.policy["user", user]
    return Sheet(
        user,
        name,
        own,
        is_officer,
        ("suspended", user) in found.policy,
        [key[2] for key in found.of("certifier", user)],
        [it for it in ("keeper", "approver") if it in has] + (["auditor"] if not set(own).isdisjoint(settings.auditors) else []),
        apart.pairs_of(with_pairs(settings), has),
        rights_of(found, user),
        [it for it in cards if it.badge in own],
    )


def sheets_of(settings: Settings, copy: Copy, users: Iterable[int] = ()) -> tuple[Rights, list[Sheet]]:
    """The sheets of these users, or of all, and what they are by."""
    with opened_policy(settings) as found:
        known = rights_at(found, math.inf)
    badges, cards = Copies(settings.copies).badges(), cards_in(settings.trail)
    wanted = [it for it in list(users) or known.users() if ("user", it) in known.policy]
    return known, [sheet_of(known, it, copy, settings, badges, cards) for it in wanted]


def page_of(known: Rights, sheets: list[Sheet], names: Mapping[int, str], language: Language) -> str:
    """All sheets as a page in a language, for print."""
    pages = Environment(loader=FileSystemLoader(HERE / "templates"), autoescape=True, trim_blocks=True, lstrip_blocks=True)
    pages.filters.update(
        amount=language.amount,
        clock=language.moment,
        kept=language.kept,
        term=lambda name: language.written(Term(name)),
        user=lambda it: f"{names[it]} ({it})" if it in names else str(it),
    )
    pages.globals.update(t=language.markup)
    return pages.get_template("reviews_print.html").render(known=known, sheets=sheets, code=language.code)


def document_of(settings: Settings) -> Any:
    """All sheets as a document of WeasyPrint, each person's on a page of their own, in the language of the letterhead."""
    try:
        import weasyprint
    except ImportError as error:
        raise Refused("There is no weasyprint (package weasyprint): print the page of reviews") from error
    with opened(settings.file) as found, Copies(settings.copies).present() as copy:
        known, sheets = sheets_of(settings, copy)
        names = register.names_of_users(found)
    text = page_of(known, sheets, names, language_of(settings.letterhead.language))
    return weasyprint.HTML(string=text, url_fetcher=nothing_else).render(stylesheets=[weasyprint.CSS(HERE / "static/office.css")])


def nothing_else(address: str, *_: object, **more: object) -> dict[str, object]:
    """What a sheet asks for, which is nothing."""
    raise ValueError(f"A sheet asks for nothing, and not for {address}")
