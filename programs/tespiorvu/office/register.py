"""The register: holders, which accounts are theirs or which they may act for, and the names of users."""
import re
import sqlite3
import unicodedata
from collections.abc import Iterable, Iterator
from typing import NamedTuple

from .languages import Count, Term
from .store import Refused, note_change

MOST = 999_999_999
# How long each text of a holder may be.
LENGTHS = {"name": 200, "address": 500, "document": 200, "note": 1000, "warning": 200}
LANGUAGES = ("de", "en", "es", "fr")
DATE = re.compile(r"\d{4}-(0[1-9]|1[0-2])-(0[1-9]|[12]\d|3[01])")
BADGE = re.compile(r"[A-Za-z0-9_-][A-Za-z0-9._-]{0,63}")
WORD = re.compile(r"\w+")
APOSTROPHE = re.compile("['\u2019]")
BLANKS = re.compile(r"[^\S\n]+")
# What is a letter or a sign by its category, and looks like a blank, or like nothing.
BLANK = frozenset("\u034f\u115f\u1160\u17b4\u17b5\u2800\u3164\uffa0")
# The joiners that writing from Arabic to Sinhala needs between two of its letters.
JOINER = re.compile("(?<=[\u0600-\u0dff])[\u200c\u200d](?=[\u0600-\u0dff])")
# What may be an umlaut, spelled out. After another vowel, or a q, it is none: Bauer, Queen.
UMLAUT = re.compile("(?<![aeioq])([aou])e")
# Control characters, formats, as those that turn the direction of a text, and what is no character.
UNSHOWN = ("Cc", "Cf", "Cn", "Co", "Cs", "Zl", "Zp")
MAY = ("owns", "acts")
# What stands after a name that a second person has not accepted yet.
UNACCEPTED = " (?)"
MOST_WORDS = 20


class Holder(NamedTuple):
    """Someone who owns accounts, or acts for those who do."""

    holder: int
    name: str
    address: str = ""
    document: str = ""
    note: str = ""
    since: str = ""
    # The date of birth, and the language of the papers: empty, or one of LANGUAGES.
    born: str = ""
    language: str = ""
    # What a teller sees beside the account.
    warning: str = ""
    # The badge of who proposed this holder, as long as a second person has not accepted them.
    proposer: str = ""


    @property
    def shown_name(self) -> str:
        """The name as it is shown: with a mark, as long as a second person has not accepted it."""
        return self.name + (UNACCEPTED if self.proposer else "")


class Holding(NamedTuple):
    """Whose an account is: `may` is owns or acts."""

    account: int
    holder: int
    may: str


class User(NamedTuple):
    """Who a badge and a number of the bank's users are."""

    badge: str
    user: int
    name: str


def require_number(what: str, number: int, most: int = MOST) -> None:
    """Refuses a number out of its range."""
    if not 1 <= number <= most:
        values = {"what": Term(what), "most": Count(most), "number": number}
        raise Refused("{what} is a number from 1 to {most}, and not {number}", **values)


def spaced(name: str) -> str:
    """A name with one blank between its parts, and none at its ends, so that none of it is out of sight."""
    return BLANKS.sub(" ", name).strip()


def require_text(what: str, text: str, most: int, least: int = 0) -> None:
    """Refuses a text that is too long, or that has characters which can't be shown."""
    if not least <= len(text.strip()) or len(text) > most:
        values = {"what": Term(what), "least": least, "most": most, "count": len(text)}
        raise Refused("{what} has {least} to {most} characters, and not {count}", **values)
    for letter in JOINER.sub("", text):
        if unicodedata.category(letter) in UNSHOWN and not (letter == "\n" and what != "name") or letter in BLANK:
            code = f"{ord(letter):04X}"
            raise Refused("{what} has a character that can't be shown: U+{code}", what=Term(what), code=code)


def require_holder(it: Holder) -> None:
    """Refuses a holder that can't be kept."""
    require_number("holder", it.holder)
    for name, most in LENGTHS.items():
        require_text(name, getattr(it, name), most, least=int(name == "name"))
    for name in ("since", "born"):
        if (date := getattr(it, name)) and not DATE.fullmatch(date):
            raise Refused("{name} is a date as 2026-01-31, and not {text}", name=Term(name), text=repr(date))
    if it.language and it.language not in LANGUAGES:
        known = list(LANGUAGES)
        raise Refused("language is {languages} or empty, and not {text}", languages=known, text=repr(it.language))
    if it.proposer and not BADGE.fullmatch(it.proposer):
        raise Refused("{badge} is no badge", badge=repr(it.proposer))


def folded(text: str) -> str:
    """A text as the search compares it: without accents, in small letters."""
    apart = unicodedata.normalize("NFKD", text.casefold())
    return "".join(it for it in apart if not unicodedata.combining(it)).casefold()


def asked_words(text: str) -> set[str]:
    """What a search looks for, word by word. An apostrophe belongs to its word."""
    return set(WORD.findall(APOSTROPHE.sub("", folded(text))))


def words_of(name: str) -> set[str]:
    """All by which a name is found; O'Neil as oneil and as neil."""
    return asked_words(name) | set(WORD.findall(folded(name)))


def spellings_of(word: str) -> set[str]:
    """A word that is looked for, and as it is found if ae, oe or ue in it represents an umlaut: mueller finds muller, of Müller."""
    without = UMLAUT.sub(r"\1", word)
    return {word, without} if len(without) > 2 else {word}


def holder_of(found: sqlite3.Connection, number: int) -> Holder | None:
    """The holder of a number, if there is one."""
    row = found.execute("SELECT * FROM holders WHERE holder = ?", (number,)).fetchone()
    return Holder(*row) if row else None


def put_holder(found: sqlite3.Connection, badge: str, it: Holder) -> bool:
    """Keeps a holder, with the name by `spaced`, in the place of what was there, which is not judged; whether anything
    changed."""
    old, it = holder_of(found, it.holder), it._replace(name=spaced(it.name))
    if old == it:
        return False
    require_holder(it)
    found.execute(
        f"INSERT INTO holders ({', '.join(Holder._fields)}) VALUES ({', '.join('?' * len(Holder._fields))}) "
        f"ON CONFLICT (holder) DO UPDATE SET {', '.join(f'{name} = excluded.{name}' for name in Holder._fields[1:])}",
        it,
    )
    found.execute("DELETE FROM name_words WHERE holder = ?", (it.holder,))
    found.executemany("INSERT INTO name_words VALUES (?, ?)", [(word, it.holder) for word in words_of(it.name)])
    note_change(found, badge, "holder", str(it.holder), old and old._asdict(), it._asdict())
    return True


def put_holding(found: sqlite3.Connection, badge: str, it: Holding) -> bool:
    """Says whose an account is; `may` of none takes that away."""
    require_number("account", it.account)
    if it.may not in (*MAY, "none"):
        raise Refused("may is owns, acts or none, and not {may}", may=repr(it.may))
    if holder_of(found, it.holder) is None:
        raise Refused("there is no holder {holder}", holder=it.holder)
    key, row = (it.account, it.holder), f"{it.account} {it.holder}"
    had = found.execute("SELECT may FROM holdings WHERE account = ? AND holder = ?", key).fetchone()
    old = Holding(*key, had["may"])._asdict() if had else None
    if (had["may"] if had else "none") == it.may:
        return False
    if it.may == "none":
        found.execute("DELETE FROM holdings WHERE account = ? AND holder = ?", key)
    else:
        found.execute("INSERT INTO holdings VALUES (?, ?, ?) ON CONFLICT (account, holder) DO UPDATE SET may = excluded.may", it)
    note_change(found, badge, "holding", row, old, None if it.may == "none" else it._asdict())
    return True


def put_user(found: sqlite3.Connection, badge: str, it: User) -> bool:
    """Keeps the name of a user, by `spaced`; an empty name takes the row away."""
    it = it._replace(name=spaced(it.name))
    if not BADGE.fullmatch(it.badge):
        raise Refused("{badge} is no badge", badge=repr(it.badge))
    require_number("user", it.user, 9_999)
    require_text("name", it.name, LENGTHS["name"])
    row = found.execute("SELECT badge, user, name FROM users WHERE badge = ?", (it.badge,)).fetchone()
    old = User(*row) if row else None
    if old == it or (old is None and not it.name):
        return False
    if it.name:
        found.execute(
            "INSERT INTO users VALUES (?, ?, ?) ON CONFLICT (badge) DO UPDATE SET user = excluded.user, name = excluded.name", it
        )
    else:
        found.execute("DELETE FROM users WHERE badge = ?", (it.badge,))
    note_change(found, badge, "user", it.badge, old and old._asdict(), it._asdict() if it.name else None)
    return True


def holders(found: sqlite3.Connection) -> list[Holder]:
    """All holders."""
    return [Holder(*row) for row in found.execute("SELECT * FROM holders ORDER BY holder")]


def holdings(found: sqlite3.Connection) -> list[Holding]:
    """Whose all accounts are."""
    return [Holding(*row) for row in found.execute("SELECT * FROM holdings ORDER BY account, holder")]


def users(found: sqlite3.Connection) -> list[User]:
    """The names of all users."""
    return [User(*row) for row in found.execute("SELECT * FROM users ORDER BY badge")]


def names_of_users(found: sqlite3.Connection) -> dict[int, str]:
    """The name of each user's number."""
    return {it.user: it.name for it in users(found)}


def holders_of(found: sqlite3.Connection, account: int) -> list[tuple[Holder, str]]:
    """Who holds an account: those who own it, then those who act."""
    rows = found.execute(
        "SELECT holders.*, may FROM holdings JOIN holders USING (holder) WHERE account = ? ORDER BY may DESC, holder", (account,)
    ).fetchall()
    return [(Holder(*tuple(row)[:-1]), row["may"]) for row in rows]


def accounts_of(found: sqlite3.Connection, holder: int) -> list[Holding]:
    """The accounts of a holder."""
    return [Holding(*row) for row in found.execute("SELECT * FROM holdings WHERE holder = ? ORDER BY account", (holder,))]


def names_of_accounts(found: sqlite3.Connection, accounts: Iterable[int]) -> dict[int, list[str]]:
    """The names of those who own each account."""
    return {account: [it.shown_name for it, may in holders_of(found, account) if may == "owns"] for account in accounts}


def is_enough(words: set[str]) -> bool:
    """Whether a search may be made: from two letters, or one that is a word by itself, as in Chinese."""
    return any(len(it) > 1 or unicodedata.east_asian_width(it) == "W" for it in words)


def search(found: sqlite3.Connection, text: str) -> Iterator[Holder]:
    """The holders of whose names each word that is looked for begins one."""
    words = asked_words(text)
    if not is_enough(words):
        raise Refused("A search begins with two letters")
    if len(words) > MOST_WORDS:
        raise Refused("A search has at most {most} words", most=MOST_WORDS)
    # The ends of the ranges are the last character of Unicode, so that a range has each word with that beginning.
    spellings = [sorted(spellings_of(word)) for word in sorted(words)]
    ranges = (" OR ".join(["word >= ? AND word < ?"] * len(it)) for it in spellings)
    parts = " INTERSECT ".join(f"SELECT holder FROM name_words WHERE {it}" for it in ranges)
    ends = [end for it in spellings for word in it for end in (word, word + "\U0010ffff")]
    return (Holder(*row) for row in found.execute(f"SELECT * FROM holders WHERE holder IN ({parts}) ORDER BY name, holder", ends))
