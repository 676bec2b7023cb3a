"""The texts of the teller's page, by language and key, and the terms of desk/terms.json."""
import functools
import json
import os
import re
from typing import NamedTuple

from repository import TOP

LANGUAGES = ("en", "de", "fr", "es")
FOLDER = os.path.join("desk", "page", "js", "words")
# A key with its text: one sentence, or one for each plural, in one line or in pieces that are put together.
ENTRY = re.compile(r"^  '([^']+)': (.*?),\n(?=  '|\n|\};)", re.MULTILINE | re.DOTALL)
PIECE = re.compile(r"'((?:[^'\\]|\\.)*)'(\s*\+)?")
PLACE = re.compile(r"\{[a-zA-Z]+\}")

# The forms of a text: one, or one for each plural.
Texts = dict[str, list[str]]


class Term(NamedTuple):
    """A term: its forms by language, the first of which is the word itself, and the keys that it is no term of."""

    name: str
    forms: dict[str, tuple[str, ...]]
    but: list[str]


def texts_in(source: str) -> Texts:
    """The texts of a module, by key, with their places."""
    found: Texts = {}
    for key, value in ENTRY.findall(source):
        found[key] = [""]
        for piece, goes_on in PIECE.findall(value):
            found[key][-1] += piece.replace("\\'", "'")
            if not goes_on:
                found[key].append("")
        found[key].pop()
    return found


def all_texts() -> dict[str, Texts]:
    """The texts of each language."""
    found = {}
    for language in LANGUAGES:
        with open(os.path.join(TOP, FOLDER, f"{language}.js"), encoding="utf-8") as file:
            found[language] = texts_in(file.read())
    return found


def terms_and_retired() -> tuple[list[Term], dict[str, dict[str, str]]]:
    """The terms, and what each language has retired, with what is said instead."""
    with open(os.path.join(TOP, "desk", "terms.json"), encoding="utf-8") as file:
        read = json.load(file)
    terms = [
        Term(name, {language: tuple(one[language].split(", ")) for language in LANGUAGES}, one.get("but", []))
        for name, one in read["terms"].items()
    ]
    return terms, read["retired"]


@functools.cache
def pattern_of(forms: tuple[str, ...]) -> re.Pattern[str]:
    """What finds one of these forms as a word. A star is any letters."""
    found = "|".join(re.escape(it).replace(r"\*", r"\w*") for it in forms)
    return re.compile(rf"(?<!\w)(?:{found})(?!\w)", re.IGNORECASE)


def bare(form: str) -> str:
    """A text without its places."""
    return PLACE.sub("", form)
