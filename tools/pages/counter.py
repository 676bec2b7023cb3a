"""Refuses a second word for one thing at the teller's page, and sheets for a teller that quote what the page does not say.

    tools/pages/counter [--list] [--only TEXT]

desk/terms.json has each term of the counter with its one word in the four languages, and its forms. Wherever the English text of
the page uses a term, the others use theirs, and nowhere else, but for the keys that the term lists. What is retired, each term
with what is said instead, is in no text, in no sheet, and not on the page of a refused certificate.

docs/TELLER.md and its translations quote the page in bold. Each quote is a text of the page, with … for what stands in a place;
all four quote the same; each has the messages that a teller can get, and at most 900 words.

Faults that are planted are found: another word for each term, a term for another thing, each retired word, and wrong sheets.
"""
import os
import re
from collections.abc import Iterator
from fnmatch import fnmatchcase
from functools import partial

from checks import Check, Wrong, reader, require_nothing, run_checks
from pages import counter_sheets
from pages.counter_texts import LANGUAGES, Term, Texts, all_texts, bare, pattern_of, terms_and_retired
from repository import TOP

REFUSED_CERTIFICATE = os.path.join("desk", "page", "not-accepted.html")
# What no language says.
OTHER_WORD = "Xyzzy"


def uses(forms: tuple[str, ...], texts: list[str]) -> bool:
    """Whether one of the forms of a text uses a term."""
    found = pattern_of(forms)
    return any(found.search(bare(it)) for it in texts)


def faults_of_term(term: Term, language: str, all_of: dict[str, Texts]) -> list[str]:
    """Where a language uses its word for a term and English does not, or the other way round."""
    found = []
    for key, english in all_of["en"].items():
        if any(fnmatchcase(key, it) for it in term.but):
            continue
        wanted, is_used = uses(term.forms["en"], english), uses(term.forms[language], all_of[language].get(key, []))
        if wanted != is_used:
            how = "lacks" if wanted else "has, and English has not,"
            found.append(f"{language} {key} {how} {term.forms[language][0]}: {' / '.join(all_of[language].get(key, []))}")
    return found


def faults_of_retired(word: str, say: str, lines: dict[str, str]) -> list[str]:
    """Where a retired word stands."""
    found = pattern_of((word,))
    return [f"{where}: {word}: say {say}: {line}" for where, line in lines.items() if found.search(line)]


def lines_of(language: str, texts: Texts) -> dict[str, str]:
    """All that is said in a language, each line with where it stands."""
    lines = {f"{key} {number}": bare(form) for key, forms in texts.items() for number, form in enumerate(forms)}
    with open(os.path.join(TOP, REFUSED_CERTIFICATE), encoding="utf-8") as file:
        found = re.findall(rf'lang="{language}">(.*?)</', file.read(), re.DOTALL)
    lines.update({f"not-accepted {number}": line for number, line in enumerate(found)})
    sheet = counter_sheets.read_sheet(language)
    lines.update({f"sheet, line {number}": line for number, line in enumerate(sheet.split("\n"), 1)})
    return lines


def require_found(faults: list[str], where: str) -> None:
    """Passes if a planted fault is found where it was planted."""
    if not any(where in it for it in faults):
        raise Wrong(f"not found: {where}, but {faults}")


def planted_word(term: Term, language: str, all_of: dict[str, Texts]) -> None:
    """Another word is in place of a term, in the first text that uses it; and the term is in the first that doesn't."""
    own, word = all_of[language], pattern_of(term.forms[language])
    listed = [it for it in own if not any(fnmatchcase(it, one) for one in term.but)]
    using = [it for it in listed if uses(term.forms[language], own[it])]
    if not using:
        raise Wrong(f"no text has {term.forms[language][0]}")
    other = next(it for it in listed if it not in using)
    changed = {using[0]: [word.sub(OTHER_WORD, it) for it in own[using[0]]], other: [f"{term.forms[language][0]}: {own[other][0]}"]}
    faults = faults_of_term(term, language, {**all_of, language: {**own, **changed}})
    require_found(faults, f"{language} {using[0]} lacks")
    require_found(faults, f"{language} {other} has")


def planted_retired(word: str, say: str) -> None:
    """A retired word stands in a line."""
    require_found(faults_of_retired(word, say, {"planted": f"Xxx {word.replace('*', 'e')} xxx."}), "planted")


def checks_of(_: str) -> Iterator[Check]:
    """A check for each term and retired word in each language, one for each planted fault, and those of the sheets."""
    all_of = all_texts()
    terms, retired = terms_and_retired()
    for term in terms:
        for language in LANGUAGES[1:]:
            yield Check(f"{term.name} in {language}", partial(lambda *it: require_nothing(faults_of_term(*it)), term, language, all_of))
            yield Check(f"another word for {term.name} in {language} is found", partial(planted_word, term, language, all_of))
    for language, words in retired.items():
        lines = lines_of(language, all_of[language])
        for word, say in words.items():
            yield Check(f"{language} without {word}", partial(lambda *it: require_nothing(faults_of_retired(*it)), word, say, lines))
            yield Check(f"{language}: {word} is found", partial(planted_retired, word, say))
    yield from counter_sheets.checks_of(all_of)


def main() -> int:
    return run_checks(reader(__doc__, program=None).parse_args(), checks_of, programs=[])
