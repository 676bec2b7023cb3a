"""One program that can be any of many mutants: the variable MUTANT of the environment says which of them it is, or that it is none.

A mutant that changes the body of one function alone stands beside the body as it is, and a call takes the one or the other.
"""
import os
from collections.abc import Iterable, Mapping
from typing import NamedTuple

from repository import TOP
from toolchain.rattle_source import functions, homes_of

# The crate that reads the variable, as each crate with a mutant uses it, and its source.
SWITCH = "mutant_switch"
SOURCE = """//! Which mutant a program is.
#![tactic(auto)]

/// Whether the variable MUTANT of the environment has these three digits.
pub fn is_on(hundreds: u8, tens: u8, ones: u8) -> bool {
    let mut text = [0u8; 3];
    os::env(b"MUTANT", &mut text) == 3 && text[0] == hundreds && text[1] == tens && text[2] == ones
}
"""
# What gives the program its number. It is linked with nothing, so that what a test preloads is preloaded into the program alone.
LAUNCHER = """#include <stdlib.h>
#include <unistd.h>
int main(int count, char **words) { (void)count; setenv("MUTANT", NUMBER, 1); execv(PROGRAM, words); return 127; }
"""


class Mutant(NamedTuple):
    """A mutant that changes the body of one function: its crate and name, the file below that crate, and the texts, old and new."""

    crate: str
    name: str
    path: str
    pairs: tuple[tuple[str, str], ...]

    def title(self) -> str:
        """Its name among those of all crates."""
        return f"{self.crate}/{self.name}"


def digits(number: int) -> str:
    """A number as the variable has it."""
    return f"{number:03}"


def texts_of(crate: str, top: str = TOP) -> dict[str, str]:
    """The files of a crate's source, by their paths below the crate."""
    found: dict[str, str] = {}
    folder = os.path.join(top, "crates", crate)
    for at, _, names in os.walk(os.path.join(folder, "src")):
        for name in names:
            path = os.path.join(at, name)
            with open(path, encoding="utf-8") as file:
                found[os.path.relpath(path, folder)] = file.read()
    return found


def changed_body(body: str, pairs: Iterable[tuple[str, str]]) -> str | None:
    """A body after these changes; none if a text that is to be changed does not stand in it once."""
    for old, new in pairs:
        if body.count(old) != 1:
            return None
        body = body.replace(old, new)
    return body


def place_of(texts: Mapping[str, str], mutant: Mutant) -> tuple[int, int] | None:
    """Where the body stands that a mutant changes, if it changes one alone."""
    text = texts.get(mutant.path, "")
    if any(text.count(old) != 1 for old, _ in mutant.pairs):
        return None
    try:
        found = functions(text, mutant.path, homes_of(texts))
    except (ValueError, IndexError):
        return None
    places = [(it.start, it.end) for it in found if changed_body(text[it.start : it.end], mutant.pairs) is not None]
    return places[0] if len(places) == 1 else None


def switched(text: str, changes: Iterable[tuple[tuple[int, int], int, Mutant]]) -> str:
    """The text of a file with a switch in each of these bodies, which have these places, for mutants of these numbers."""
    by_place: dict[tuple[int, int], list[tuple[int, Mutant]]] = {}
    for place, number, mutant in changes:
        by_place.setdefault(place, []).append((number, mutant))
    for (start, end), mutants in sorted(by_place.items(), reverse=True):
        body, branches = text[start:end], ""
        for number, mutant in mutants:
            bytes_of = ", ".join(f"b'{it}'" for it in digits(number))
            branches += f"if {SWITCH}::is_on({bytes_of}) {changed_body(body, mutant.pairs)} else "
        text = f"{text[:start]}{{ {branches}{body} }}{text[end:]}"
    return text


def put_switches(copy: str, numbered: Mapping[int, Mutant]) -> None:
    """Puts those of these mutants whose crates a copy has into it."""
    crates = {it.crate for it in numbered.values() if os.path.isdir(os.path.join(copy, "crates", it.crate))}
    for crate in crates:
        texts = texts_of(crate, copy)
        changes: dict[str, list[tuple[tuple[int, int], int, Mutant]]] = {}
        for number, mutant in numbered.items():
            if mutant.crate == crate and (place := place_of(texts, mutant)):
                changes.setdefault(mutant.path, []).append((place, number, mutant))
        for path, found in changes.items():
            with open(os.path.join(copy, "crates", crate, path), "w", encoding="utf-8") as file:
                file.write(switched(texts[path], found))
    folder = os.path.join(copy, "crates", SWITCH, "src")
    os.makedirs(folder)
    with open(os.path.join(folder, "lib.rt"), "w", encoding="utf-8") as file:
        file.write(SOURCE)
    add_use(os.path.join(copy, "crates.txt"), crates)


def add_use(path: str, crates: Iterable[str]) -> None:
    """Has these crates use that of the switch, in a list of crates."""
    with open(path, encoding="utf-8") as file:
        lines = file.read().splitlines()
    with open(path, "w", encoding="utf-8") as file:
        file.write(f"{SWITCH}: os\n")
        file.writelines(f"{it} {SWITCH}\n" if it.partition(":")[0] in crates else f"{it}\n" for it in lines)
