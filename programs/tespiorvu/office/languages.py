"""What the office says, in the language of who reads it.

The code and the templates have English sentences, with {places} for values. words/LANGUAGE.json has the translation
of each under the English sentence. A sentence keeps its values beside it until it is said, and each is written by its
type: a text is somebody's, and stays as it is.
"""
import datetime
import functools
import json
from collections.abc import Mapping
from decimal import Decimal
from pathlib import Path
from typing import Any, NamedTuple

from markupsafe import Markup, escape

FOLDER = Path(__file__).resolve().parent / "words"
# How a sentence and a number with places begin where they are kept.
SENTENCE, DECIMAL = "$sentence", "$decimal"


class Marks(NamedTuple):
    """How a language writes numbers and dates: what stands between thousands and before cents, what separates the fields of a sheet,
    and the form of a date."""

    group: str
    decimal: str
    separator: str
    date: str


# (Of English-speaking countries some write the month first and some the day, so a date is written as ISO 8601 has it.)
MARKS = {
    "en": Marks(",", ".", ",", "%Y-%m-%d"),
    "de": Marks(".", ",", ";", "%d.%m.%Y"),
    "fr": Marks("\u202f", ",", ";", "%d/%m/%Y"),
    "es": Marks(".", ",", ";", "%d/%m/%Y"),
}
LANGUAGES = tuple(MARKS)
# Each as its own speakers call it.
NAMES = {"en": "English", "de": "Deutsch", "fr": "Français", "es": "Español"}


class Sentence:
    """An English sentence with {places}, and what stands in these. As a text it is English."""

    def __init__(self, text: str, /, **values: Any) -> None:
        self.text, self.values = text, values

    def __str__(self) -> str:
        return language_of("en").written(self)


class Term(Sentence):
    """A term of the office that a table or a list of the code has: a procedure, a kind, a state, a column."""


class Refused(Sentence, Exception):
    """What was asked for is not done, and why."""

    status = 422


class Count(int):
    """A whole number that is written with a mark between thousands."""


class Language:
    """One language: its sentences, its numbers and its dates."""

    def __init__(self, code: str, words: Mapping[str, str]) -> None:
        self.code, self.words, self.marks = code, words, MARKS[code]

    def say(self, sentence: str, **values: object) -> str:
        """A sentence with these values in its places. One that has no translation is said in English."""
        found = self.words.get(sentence, sentence)
        return found.format(**{name: self.written(it) for name, it in values.items()}) if values else found

    def markup(self, sentence: str, **values: object) -> Markup:
        """The same for a page, where all that is no markup is escaped."""
        found = Markup(escape(self.say(sentence)))
        return found.format(**{name: self.written(it) for name, it in values.items()}) if values else found

    def written(self, value: object) -> str:
        """A value by its type. A text stays as it is; a list of sentences with values is joined by semicolons."""
        match value:
            case str():
                return value
            case Sentence():
                return self.say(value.text, **value.values)
            case bool():
                return self.say(str(value))
            case Count():
                return self.number(value)
            case Decimal():
                return str(value).replace(".", self.marks.decimal)
            case datetime.datetime():
                return value.strftime(f"{self.marks.date} %H:%M:%S")
            case datetime.date():
                return self.date(value)
            case list() if any(isinstance(it, Sentence) and it.values for it in value):
                return "; ".join(map(self.written, value))
            case list() | tuple():
                return ", ".join(map(self.written, value))
        return str(value)

    def kept(self, text: str) -> str:
        """What a table keeps of sentences."""
        return self.written(from_kept(text))

    def number(self, number: int) -> str:
        """A whole number."""
        return f"{number:,}".replace(",", self.marks.group)

    def amount(self, cents: int) -> str:
        """Cents as units for people: 125000 is 1,250.00, or 1.250,00."""
        return f"{'-' if cents < 0 else ''}{self.number(abs(cents) // 100)}{self.marks.decimal}{abs(cents) % 100:02}"

    def date(self, date: datetime.date | str) -> str:
        """A date, or the text of one as a table has it."""
        it = datetime.date.fromisoformat(date) if isinstance(date, str) else date
        return it.strftime(self.marks.date)

    def date_of(self, moment: int) -> str:
        """The date of a moment, by the machine's own clock."""
        return self.date(datetime.date.fromtimestamp(moment)) if moment else ""

    def moment(self, moment: int) -> str:
        """A moment, by the machine's own clock."""
        return self.written(datetime.datetime.fromtimestamp(moment)) if moment else ""


@functools.cache
def language_of(code: str) -> Language:
    """A language by its code. The sentences of the code are English."""
    file = FOLDER / f"{code}.json"
    words: dict[str, str] = json.loads(file.read_text(encoding="utf-8")) if code != "en" else {}
    return Language(code, words)


def packed(it: object) -> dict[str, object]:
    """What JSON has no form for."""
    assert isinstance(it, (Sentence, Decimal)), it
    return {SENTENCE: it.text, "values": it.values} if isinstance(it, Sentence) else {DECIMAL: str(it)}


def unpacked(found: dict[str, Any]) -> object:
    """What was packed."""
    if SENTENCE in found:
        return Sentence(found[SENTENCE], **found["values"])
    return Decimal(found[DECIMAL]) if DECIMAL in found else found


def as_kept(said: Sentence | list[Sentence]) -> str:
    """Sentences as a table keeps them, to be said in a language later."""
    return json.dumps(said, default=packed, ensure_ascii=False)


def from_kept(text: str) -> Any:
    """The sentences of a table. An earlier version kept English texts, and these stand as they are."""
    return json.loads(text, object_hook=unpacked) if text.startswith((f'{{"{SENTENCE}"', f'[{{"{SENTENCE}"')) else text
