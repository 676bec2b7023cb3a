"""Compares the code on docs/CONTRACTS.md with the sources, and tries what the page says of a proof.

    tools/pages/contracts

Each line of a block after a name of a file stands in that file, in that order. The other blocks are what the prover says of
`place_of` of keyed_rows: the first if it has no proof file, the next if it has the first of those that the page shows. Each of these
files alone leaves a goal open, and all together close all; with them a mutant is refused. The prover checks a copy of the function
for each of these, all of them at once. Each block, and each copy, is a check.
"""
import os
import re
import shutil
import subprocess
import tempfile
from collections.abc import Iterator
from typing import NamedTuple

from checks import Report, reader
from repository import TOP, check_arguments, dependencies, kit

PAGE = os.path.join("docs", "CONTRACTS.md")
BLOCK = re.compile(r"(?:(crates/\S+):\n\n)?```\n(.*?)```", re.S)
CRATE, FILE, FUNCTION = "keyed_rows", "ordered", "place_of"
SOURCE = f"crates/{CRATE}/src/{FILE}.rt"
PROOF = f"crates/{CRATE}/proofs/{FILE}/{FUNCTION}/"
MUTANT = "place += 1;", "place += 2;"
# What the prover says of a function at last.
VERDICT = re.compile(rf"^fn {CRATE}::{FILE}::(\w+): (proved|not proved|no proof).*$", re.M)


class Copy(NamedTuple):
    """A copy of the function: its name, its text, its proof files by their paths in the repository, what the prover says of it,
    and whether it is proved."""

    name: str
    text: str
    files: tuple[str, ...]
    said: str
    is_proved: bool = False


def text_of(short: str) -> str:
    """A text file of the repository."""
    with open(os.path.join(TOP, short), encoding="utf-8") as file:
        return file.read()


def against_source(path: str, block: str) -> str | None:
    """What is wrong with a block, by the file that it is of."""
    lines = iter(text_of(path).splitlines())
    missing = [line for line in block.splitlines() if line not in lines]
    return f"{path} does not have, at its place: {missing[0]!r}" if missing else None


def copies_of(blocks: list[tuple[str, str]]) -> Iterator[Copy]:
    """A copy of the function for each set of proof files that the page speaks of, and a mutant."""
    text = next(block for path, block in blocks if path == SOURCE and f"fn {FUNCTION}<" in block)
    files = tuple(path for path, _ in blocks if path.startswith(PROOF))
    said = [block.strip() for path, block in blocks if not path]
    # (what the page says comes last, and takes the place of an empty text)
    left_open: dict[tuple[str, ...], str] = {(): "", **{(it,): "" for it in files}}
    left_open |= {files[:number]: it for number, it in enumerate(said)}
    for some, words in left_open.items():
        names = [os.path.basename(it).removesuffix(".antt").lower() for it in some]
        yield Copy(f"with_{'_and_'.join(names) or 'no_file'}", text, some, words)
    yield Copy("with_all_files", text, files, "", is_proved=True)
    yield Copy("mutant", text.replace(*MUTANT), files, "")


def write_copies(folder: str, copies: list[Copy]) -> None:
    """Writes copies of the function, with their proof files, into a copy of the crate."""
    with open(os.path.join(folder, "src", f"{FILE}.rt"), "a", encoding="utf-8") as file:
        file.writelines(f"\n{it.text.replace(FUNCTION, it.name, 1)}" for it in copies)
    for it in copies:
        os.makedirs(os.path.join(folder, "proofs", FILE, it.name))
        for path in it.files:
            with open(os.path.join(folder, "proofs", FILE, it.name, os.path.basename(path)), "w", encoding="utf-8") as file:
                file.write(text_of(path).replace(f"{FILE}.{FUNCTION}.", f"{FILE}.{it.name}."))


def checked(copies: list[Copy]) -> str:
    """What the prover says of copies of the function, in a copy of the crate."""
    with tempfile.TemporaryDirectory(prefix="contracts-") as room:
        folder = os.path.join(room, CRATE)
        shutil.copytree(os.path.join(TOP, "crates", CRATE), folder, ignore=shutil.ignore_patterns("out"))
        write_copies(folder, copies)
        words = [word for it in copies for word in ("--only", f"{FILE}::{it.name}")]
        words = ["rattle", "check", *check_arguments(dependencies(), CRATE, "src/lib.rt", TOP, kit()), *words]
        ran = subprocess.run(words, cwd=folder, stdout=subprocess.PIPE, stderr=subprocess.STDOUT, text=True, check=False)
    return ran.stdout


def against_prover(copies: list[Copy], output: str) -> Iterator[tuple[str, str | None]]:
    """What is wrong with what the prover said of each copy."""
    found: dict[str, tuple[str, str]] = {}
    at = 0
    for line in VERDICT.finditer(output):
        found[line[1]], at = (line[2], output[at : line.end()]), line.end()
    for it in copies:
        verdict, said = found.get(it.name, ("no verdict", output))
        is_right = verdict in (("proved",) if it.is_proved else ("not proved", "no proof")) and it.said in said
        wanted = "proved" if it.is_proved else f"an open goal {it.said}"
        yield it.name, None if is_right else f"{verdict}; wanted is {wanted}\n{said[-600:]}"


def main() -> int:
    reader(__doc__, program=None, has_checks=False).parse_args()
    blocks = BLOCK.findall(text_of(PAGE))
    of_files = [(f"{path}: {block.splitlines()[0].strip()}", against_source(path, block)) for path, block in blocks if path]
    copies = list(copies_of(blocks))
    return Report().add_all([*of_files, *against_prover(copies, checked(copies))])
