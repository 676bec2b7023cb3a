"""Carries the first change of docs/ADDING.md out in a copy of the repository, and runs what the page names.

    tools/pages/adding

The blocks marked `sh` are carried out line by line, at the top of the copy. A `sed` has to change each file that it names. What is
printed has to have each line of the block that follows; if none follows, each line has to succeed. Then the parts that the page
names after `Run:` have to pass, and those in BESIDE: the page has to name one of these, too, if its change can fail it. A block or a
part that needs a compiled program is left out, as is said of each.

The lines of the page's case stand in rows/. Each block, each part and the case is a check.
"""
import os
import re
import shutil
import subprocess
import tempfile
from collections.abc import Iterator

from checks import Report, reader, refuse
from pages.contracts import against_source, text_of
from pages.guide import blocks_in
from repository import TOP

PAGE = os.path.join("docs", "ADDING.md")
CASE = re.compile(r"(rows/\S+):\n\n```\n(.*?)```", re.S)
# What begins the last line of a check that proved its crate.
PROVED_LINE = "logic=proved"
# To compile the program takes minutes, and to prove it an hour.
NEED_PROGRAM = ("tools/try", "cases/run", "model/streams", "pages/openapi", "pages/guide", "desk/test")
# What reads sources and pages alone.
BESIDE = ("cases/coverage --check", "pages/sample-lists", "pages/reading", "pages/crates", "pages/operation --check", "pages/terms", "pages/counter")


def section_of(page: str) -> str:
    """The page's first change."""
    return page.partition("\n## A first change\n")[2].partition("\n## ")[0]


def is_left_out(command: str) -> bool:
    """Whether a command needs a compiled program, as is printed then."""
    needs = any(it in command for it in NEED_PROGRAM)
    if needs:
        print(f"left out, as it needs a compiled program: {command.splitlines()[0]}", flush=True)
    return needs


def run(copy: str, command: str) -> tuple[int, str]:
    """Runs a command at the top of the copy; its status, and what it writes."""
    words = ["bash", "-c", command]
    ran = subprocess.run(words, cwd=copy, stdin=subprocess.DEVNULL, stdout=subprocess.PIPE, stderr=subprocess.STDOUT, check=False)
    return ran.returncode, ran.stdout.decode(errors="replace")


def texts_named(copy: str, line: str) -> dict[str, bytes]:
    """The files of the copy that a line names, with their bytes."""
    found = {}
    for path in line.split():
        if os.path.isfile(os.path.join(copy, path)):
            with open(os.path.join(copy, path), "rb") as file:
                found[path] = file.read()
    return found


def faults_of(copy: str, lines: list[str], wanted: list[str]) -> Iterator[str]:
    """Carries the lines of a block out; what is not as it has to be."""
    written = ""
    for line in lines:
        before = texts_named(copy, line)
        status, output = run(copy, line)
        written += output
        if status and not wanted:
            yield f"{line}: status {status}: {output[-400:]}"
        if line.startswith("sed "):
            after = texts_named(copy, line)
            yield from (f"{line}: {path} stays as it was" for path, text in before.items() if text == after[path])
    yield from (f"it does not print {it!r}: {written[-400:]}" for it in wanted if it not in written)
    last = written.rstrip().rpartition("\n")[2]
    if PROVED_LINE in wanted and not last.startswith(PROVED_LINE):
        yield f"{PROVED_LINE!r} does not begin the last line: {last}"


def carried_out(copy: str, section: str) -> Iterator[tuple[str, str | None]]:
    """Each block, and each part after it, with what is wrong."""
    for text, wanted in blocks_in(section):
        if not is_left_out(text.strip()):
            faults = "\n    ".join(faults_of(copy, text.splitlines(), wanted.splitlines()))
            yield text.splitlines()[0], faults or None
    named = re.findall(r"`([^`]+)`", section.rpartition("\nRun: ")[2])
    for part in dict.fromkeys([*named, *BESIDE]):
        if not is_left_out(part):
            status, output = run(copy, f"tools/run {part}")
            yield part, output[-1000:] if status else None


def main() -> int:
    reader(__doc__, program=None, has_checks=False).parse_args()
    page = text_of(PAGE)
    section = section_of(page)
    if not blocks_in(section):
        return refuse(f"{PAGE} has no first change")
    cases = [(f"a case of {path}", against_source(path, block)) for path, block in CASE.findall(page)]
    with tempfile.TemporaryDirectory(prefix="bank-adding-") as room:
        copy = os.path.join(room, "copy")
        shutil.copytree(TOP, copy, symlinks=True, ignore=shutil.ignore_patterns(".git", "out", "__pycache__"))
        return Report().add_all([*cases, *carried_out(copy, section)])
