"""The sheets for a teller, docs/TELLER.md and its translations: what they quote of the page, in bold."""
import functools
import os
import re
from collections.abc import Iterator
from functools import partial

from checks import Check, Wrong, require, require_nothing
from pages.counter_texts import LANGUAGES, PLACE, Texts
from repository import TOP

MOST_WORDS = 900
QUOTE = re.compile(r"\*\*(.+?)\*\*", re.DOTALL)
PICTURE = re.compile(r"!\[[^\]]+\]\(([^)]+)\)")
# Messages of the bank that a teller can get. Of rules 17 to 21 only the commands of the policy get one.
MESSAGE = re.compile(r"(rule\.\d+(\.[a-z-]+)?|fault\.[MF]\d)\.title")
# What stands in a place of a text that is quoted.
IN_PLACE = r"(?:…|\d[\d., ]*)"
OF_COMMANDS = {f"rule.{number}.title" for number in range(17, 22)}


def path_of(language: str) -> str:
    """The path of a sheet."""
    return os.path.join("docs", "TELLER.md" if language == "en" else f"TELLER.{language}.md")


def read_sheet(language: str) -> str:
    """A sheet."""
    with open(os.path.join(TOP, path_of(language)), encoding="utf-8") as file:
        return file.read()


@functools.cache
def quote_of(form: str) -> re.Pattern[str]:
    """What a text is quoted as. In a place stands …, or a number."""
    return re.compile(IN_PLACE.join(re.escape(it) for it in PLACE.split(form)))


def keys_of(quote: str, texts: Texts) -> set[str]:
    """The keys of the texts that a quote is one of."""
    return {key for key, forms in texts.items() if any(quote_of(it).fullmatch(quote) for it in forms)}


def quotes_of(sheet: str) -> list[str]:
    """What a sheet quotes of the page."""
    return [" ".join(it.split()) for it in QUOTE.findall(sheet)]


def messages(texts: Texts) -> set[str]:
    """The keys of the messages that a sheet has to have."""
    return {it for it in texts if MESSAGE.fullmatch(it)} - OF_COMMANDS


def faults_of_quotes(sheet: str, texts: Texts) -> list[str]:
    """What a sheet quotes that is no text of the page, and the messages that it lacks."""
    keys = {it: keys_of(it, texts) for it in quotes_of(sheet)}
    lacks = messages(texts) - set().union(*keys.values())
    return [f"the page does not say: {it}" for it, of in keys.items() if not of] + [
        f"it lacks the message {key}: {texts[key][0]}" for key in sorted(lacks)
    ]


def faults_of_translation(sheet: str, texts: Texts, english: str, texts_in_english: Texts) -> list[str]:
    """What one of two sheets quotes and the other doesn't, by the keys."""
    own, other = ([keys_of(it, known) for it in quotes_of(text)] for text, known in ((sheet, texts), (english, texts_in_english)))
    missing = [it for it in other if not any(it & one for one in own)]
    more = [it for it in own if not any(it & one for one in other)]
    return [f"it lacks {sorted(it)}" for it in missing] + [f"English lacks {sorted(it)}" for it in more]


def faults_of_size(sheet: str) -> list[str]:
    """Whether a sheet is too long, and the pictures that are nowhere."""
    words = len(re.sub(r"[|*#!\[\]-]", " ", PICTURE.sub("", sheet)).split())
    found = [f"it has {words} words, and at most {MOST_WORDS}"] if words > MOST_WORDS else []
    places = PICTURE.findall(sheet)
    return found + [f"there is no {it}" for it in places if not os.path.isfile(os.path.join(TOP, "docs", it))]


def require_found(faults: list[str], wanted: str) -> None:
    """Passes if a planted fault is found."""
    if not any(wanted in it for it in faults):
        raise Wrong(f"not found: {wanted}, but {faults}")


def planted_quote(texts: Texts, sheet: str) -> None:
    """A message that the page says otherwise, and one that is left out."""
    title = PLACE.sub("…", texts["rule.4.title"][0])
    require(f"**{title}**" in sheet, True, f"the sheet has {title}")
    changed = sheet.replace(f"**{title}**", f"**{title} Xyzzy**")
    require_found(faults_of_quotes(changed, texts), f"the page does not say: {title} Xyzzy")
    require_found(faults_of_quotes(sheet.replace(f"**{title}**", title), texts), "it lacks the message rule.4.title")


def planted_translation(texts: Texts, sheet: str, english: str, texts_in_english: Texts) -> None:
    """A quote that English has not."""
    more = f"{sheet}\n**{texts['office.lead'][0]}**\n"
    require_found(faults_of_translation(more, texts, english, texts_in_english), "English lacks ['office.lead']")


def checks_of(all_of: dict[str, Texts]) -> Iterator[Check]:
    """The checks of the sheets, and of faults that are planted."""
    english = read_sheet("en")
    for language in LANGUAGES:
        sheet, texts = read_sheet(language), all_of[language]
        path = path_of(language)
        yield Check(f"{path} quotes the page", partial(lambda *it: require_nothing(faults_of_quotes(*it)), sheet, texts))
        yield Check(f"the size of {path}", partial(lambda it: require_nothing(faults_of_size(it)), sheet))
        yield Check(f"a wrong quote of {path} is found", partial(planted_quote, texts, sheet))
        if language != "en":
            given = (texts, english, all_of["en"])
            yield Check(f"{path} quotes what English does", partial(lambda *it: require_nothing(faults_of_translation(*it)), sheet, *given))
            yield Check(f"a quote in {path} alone is found", partial(planted_translation, texts, sheet, *given[1:]))
    yield Check("a sheet that is too long is found", lambda: require_found(faults_of_size("word " * (MOST_WORDS + 1)), "901 words"))
    yield Check("a picture that is nowhere is found", lambda: require_found(faults_of_size("![x](../desk/pictures/none.png)"), "there is no"))
