"""Tries that each path of the repository which a tool names is there, in its code, in what it says of itself, or in a comment."""
import glob
import os
import re
from collections.abc import Iterator
from functools import partial

from checks import Check, require, require_nothing
from repository import TOP

# Whose text is read: these files, and all below these folders; but not those that make a tree of their own, to try a tool on.
READ = (".ci", "branch/tests/package.py", "branch/tests/test.py", "desk/tests/test.py", "office/tests/test.py", "tools")
LEFT_OUT = ("tools/linters/planted.py", "tools/toolchain/kept_trials.py", "tools/toolchain/named_paths.py")
# A path as it is written, and one whose parts are joined.
WRITTEN = re.compile(r"(?<![\w/.~-])(?:\{TOP\}/)?((?:branch|crates|desk|docs|migrations|office|programs|rows|sample|tools)/[\w./*{}-]*[\w*}])")
JOINED = re.compile(r'join\(TOP((?:, "[^"]+")+)')
# A part of a path that can be any name, and what a path has that is made first, or whose name the reader has to choose.
ANY, MADE = re.compile(r"\{\w*\}"), re.compile(r"/out(?:/|$)|/[A-Z]+/")
# Texts, and the paths that they name.
TEXTS = [
    ('subprocess.run([os.path.join(TOP, "tools", "prove"), it])', ["tools/prove"]),
    ('open(f"{TOP}/docs/{page}.md") # as docs/GUIDE.md', ["docs/*.md", "docs/GUIDE.md"]),
    ("crates/NAME/must-fail, or crates/bank_cli/out/bank_cli, or ../tools/build", []),
]


def named_in(text: str) -> list[str]:
    """The paths that a text names, from the top of the repository, with a star for each part that can be any name."""
    joined = ["/".join(re.findall(r'"([^"]+)"', it)) for it in JOINED.findall(text)]
    return [ANY.sub("*", it) for it in [*WRITTEN.findall(text), *joined] if not MADE.search(it)]


def files_read() -> Iterator[str]:
    """The files whose text is read."""
    for it in READ:
        path = os.path.join(TOP, it)
        found = [path] if os.path.isfile(path) else glob.glob(f"{path}/**/*", recursive=True)
        yield from (it for it in found if os.path.isfile(it) and "__pycache__" not in it and os.path.relpath(it, TOP) not in LEFT_OUT)


def missing() -> Iterator[str]:
    """A line of each path that a file names and that is not there."""
    for path in sorted(files_read()):
        with open(path, encoding="utf-8", errors="replace") as file:
            named = dict.fromkeys(named_in(file.read()))
        gone = [it for it in named if not glob.glob(os.path.join(TOP, it), recursive=True)]
        yield from (f"{os.path.relpath(path, TOP)} names {it}, which is not there" for it in gone)


def checks_of() -> Iterator[Check]:
    """What is tried: the paths of a few texts, and that those of all tools are there."""
    for number, (text, wanted) in enumerate(TEXTS, 1):
        yield Check(f"path_{number}", partial(require, named_in(text), wanted, text))
    yield Check("paths_that_tools_name", lambda: require_nothing(missing()))
