"""The sums of the functions at the program's edge, in docs/EDGES.txt: those of which no contract says what they do, and those
at the machine, whose clauses say nothing there. A function is at the machine if its own head or its impl's names it, if its type
holds it, or if its body calls it.

The sum is of a function's text from its name to its end, without comments and layout. So whoever changes one writes its sum anew,
and a reviewer sees its line among the changes of docs/.
"""
import hashlib
import os
import re
from collections.abc import Iterable, Iterator, Sequence

from pages.defaults import blocks
from repository import TOP
from toolchain.rattle_source import Function, blanked, functions, homes_of

EDGES = os.path.join(TOP, "docs", "EDGES.txt")
HEAD = (
    "The functions at the program's edge, by crate: the sum of the text of each, and its name. tools/pages/crates --update writes this.",
    "Contracts say little of what these read, write and report. Of one whose sum changes ask: what is that now, and which test would see it wrong (docs/TESTING.md)?",
)
# The machine: its files, sockets, clocks or processes; and a call of it.
MACHINE = re.compile(
    r"\b(?:File|HostRuntime|Net|OwnedFd|Poll|Registry|Std(?:err|in|out)|time::Clock|(?:Tcp|Unix)(?:Listener|Stream))\b"
)
CALL = re.compile(r"\b(?:env|fs|process)::\w|\bInstant::now\b|\.(?:accept|poll|since_1970)\(")
IMPL, TYPE = re.compile(r"\bimpl\b[^{;]*\{"), re.compile(r"\b(?:enum|struct)\s+(\w+)[^{;]*\{")


def holders_of(codes: Iterable[str]) -> re.Pattern[str]:
    """What finds a type of these files that holds the machine."""
    names = [found[1] for code in codes for found, block in blocks(code, TYPE) if MACHINE.search(block)]
    return re.compile(rf"\b(?:{'|'.join(names)})\b" if names else r"(?!)")


def is_at_machine(it: Function, code: str, holders: re.Pattern[str]) -> bool:
    """Whether a function of a file is at the machine, by what finds a type that holds that."""
    of_impls = (found[0] for found, block in blocks(code, IMPL) if found.end() <= it.head < found.end() + len(block))
    own, of_impl = code[it.head : it.start], next(of_impls, "")
    return bool(MACHINE.search(own + of_impl) or holders.search(of_impl) or CALL.search(code[it.start : it.end]))


def sum_of(text: str) -> str:
    """The sum of a function's text."""
    lines = (line.strip() for line in text.splitlines())
    folded = " ".join(" ".join(line for line in lines if not line.startswith("//")).split())
    return hashlib.sha256(folded.encode()).hexdigest()[:10]


def edges_of(texts: dict[str, str], unsaid: Sequence[str]) -> Iterator[str]:
    """The line of each function of a crate that stands at the edge, in the order of its files."""
    homes, codes = homes_of(texts), {path: blanked(text) for path, text in texts.items()}
    holders = holders_of(codes.values())
    for path, text in texts.items():
        for it in functions(text, path, homes):
            if it.name in unsaid or is_at_machine(it, codes[path], holders):
                yield f"  {sum_of(text[it.head : it.end])} {it.name}"


def lines_of(edges: dict[str, list[str]]) -> list[str]:
    """The lines of the file, by the lines of each crate."""
    return [*HEAD, *(line for crate, lines in edges.items() if lines for line in ("", crate, *lines))]


def kept_lines() -> list[str]:
    """The lines of the file as it is."""
    try:
        with open(EDGES, encoding="utf-8") as file:
            return file.read().splitlines()
    except FileNotFoundError:
        return []


def crates_in(lines: Sequence[str]) -> dict[str, list[str]]:
    """The lines of each crate in the file."""
    found: dict[str, list[str]] = {}
    crate = ""
    for line in lines[len(HEAD) :]:
        if line.startswith("  "):
            found[crate].append(line)
        elif line:
            crate = line
            found[crate] = []
    return found


def against_edges(edges: Sequence[str], kept: Sequence[str]) -> list[str]:
    """What is wrong with the lines that the file has of a crate, by those that it ought to have."""
    now, was = ({name: total for total, name in (line.split() for line in lines)} for lines in (edges, kept))
    wrong = [f"docs/EDGES.txt does not have {name}" for name in now if name not in was]
    wrong += [f"docs/EDGES.txt has {name}, which is not there or is no edge any more" for name in was if name not in now]
    changed = [name for name, total in now.items() if was.get(name, total) != total]
    return wrong + [f"{name} has changed, at the program's edge: look at it, and write docs/EDGES.txt anew (--update)" for name in changed]


def write_edges(lines: Sequence[str]) -> None:
    """Writes the file."""
    with open(EDGES, "w", encoding="utf-8") as file:
        file.writelines(f"{line}\n" for line in lines)
