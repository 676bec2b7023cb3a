"""Finds the impls that leave ghost members of their trait at its defaults, or give them nothing, as `⊤`, `None` or `true`. What
a clause of the trait says by such a member, it may not say of that impl."""
import re
from collections.abc import Iterator, Mapping

from toolchain.rattle_source import after_bracket, blanked, module_of, name_of_impl, trait_of

TRAIT = re.compile(r"\btrait\s+(\w+)[^{;]*\{")
IMPL = re.compile(r"\bimpl\b[^{;]* for [^{;]*\{")
MEMBER = re.compile(r"\bghost\s+(\w+)\s*:")
EMPTY = r"\s*(?:λ[^.]*\.)?\s*(?:⊤|None|true)\s*"
# Traits of the toolchain whose clauses speak by such members: what a stream has still to give, and what it took.
OF_STREAMS = {"Read": ["remaining"], "Write": ["contents"]}


def blocks(code: str, head: re.Pattern[str]) -> Iterator[tuple[re.Match[str], str]]:
    """Each block of a file that begins so, and its text."""
    for found in head.finditer(code):
        yield found, code[found.end() - 1 : after_bracket(code, found.end() - 1)]


def ghosts_of(texts: Mapping[str, str]) -> dict[str, list[str]]:
    """The ghost members of each trait of these files, by its name."""
    return {found[1]: MEMBER.findall(block) for text in texts.values() for found, block in blocks(blanked(text), TRAIT)}


def left_at_defaults(texts: Mapping[str, str], members: Mapping[str, list[str]]) -> Iterator[str]:
    """The members that impls of these files leave at their defaults or empty, as `readiness::SystemReadiness::shows`."""
    for path, text in texts.items():
        for found, block in blocks(blanked(text), IMPL):
            header = found[0].rstrip("{").strip()
            for member in members.get(trait_of(header), []):
                given = re.search(rf"\bghost\s+{member}\s*=\s*\{{([^}}]*)\}}", block)
                if not given or re.fullmatch(EMPTY, given[1]):
                    yield "::".join([*module_of(path), name_of_impl(header), member])
