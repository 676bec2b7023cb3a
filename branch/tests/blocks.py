"""The blocks of lines on a page: who carries each out, by its mark, and what it has to print."""
import difflib
import re
from collections.abc import Sequence
from pathlib import Path
from typing import NamedTuple

from checks import Wrong
from repository import TOP

BLOCK = re.compile(r"^```([a-z -]*)\n(.*?)^```$", re.MULTILINE | re.DOTALL)
END = re.compile(r"^-- the end of block after ([0-9]+) seconds$\n", re.MULTILINE)
DOCS = Path(TOP, "docs")


class Block(NamedTuple):
    """A block: its mark, its lines, and what they have to print, or none if any output will do."""

    mark: str
    lines: str
    wanted: str | None


def blocks(page: Path, heading: str = "") -> list[Block]:
    """The blocks with a mark on a page, or in one of its sections. What one has to print follows without a mark."""
    text = page.read_text()
    if heading:
        text = text.partition(f"\n## {heading}\n")[2].partition("\n## ")[0]
    found = BLOCK.findall(text)
    due = [None if mark else lines for mark, lines in found[1:]] + [None]
    return [Block(mark, lines, wanted) for (mark, lines), wanted in zip(found, due) if mark]


def lines_of(page: Path, mark: str, word: str = "") -> str:
    """The lines of the only block of a page with a mark, and with a word."""
    found = [it.lines for it in blocks(page) if it.mark == mark and word in it.lines]
    if len(found) != 1:
        raise ValueError(f"{page} has {len(found)} blocks {mark} {word}")
    return found[0]


def script_of(found: Sequence[Block]) -> str:
    """What carries blocks out in one shell, and says when each has ended."""
    return "".join(f'{it.lines}\necho "-- the end of block after $SECONDS seconds"\n' for it in found)


def require_carried_out(found: Sequence[Block], said: str) -> list[int]:
    """Passes if a script has carried out all blocks, and printed what it has to; after how many seconds each ended."""
    wrote, seconds = END.split(said)[::2], [int(it) for it in END.findall(said)]
    for number, (_, lines, wanted) in enumerate(found):
        if number >= len(seconds):
            raise Wrong(f"the lines ended within {lines.splitlines()[0]!r} ..: {''.join(wrote[number:])[-1500:]}")
        if wanted not in (None, wrote[number]):
            differing = difflib.unified_diff(str(wanted).splitlines(), wrote[number].splitlines(), n=2, lineterm="")
            raise Wrong("\n".join([f"{lines.splitlines()[0]} ..", *differing]))
    return seconds
