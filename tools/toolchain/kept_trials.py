"""Trials of what tools/toolchain/mutants keeps: after each change that its verdict hangs on a mutant has to be tried again. They
run a copy of the tool over one crate, by a prover of a few lines, which refuses the crate's one function unless that returns
the number which the library below has."""
import functools
import itertools
import os
import shutil
import sys
from pathlib import Path
from typing import NamedTuple

from checks import Check, Wrong
from repository import TOP
from toolchain.program import output_of

SOURCE, EDIT = "crates/high/src/lib.rt", "crates/high/must-fail/other_answer.edit"
LIBRARY, KIT, TOOL = "crates/low/out/rlib/low.rlib/format", "kit/KIT-ID", "tools/toolchain/rattle_source.py"
TOOLS = ("tools/repository.py", "tools/toolchain/__init__.py", "tools/toolchain/kept.py", "tools/toolchain/mutants.py", TOOL)
TEXTS = {
    "crates.txt": "low:\nhigh: low\n",
    SOURCE: "pub fn answer() -> u8 { 1 }\n",
    EDIT: "file: src/lib.rt\nold: { 1 }\nnew: { 2 }\n",
    LIBRARY: "1\n",
    KIT: "of trials\n",
    "kit/rlibs/std.rlib/format": "std\n",
    "kit/bin/rt": '#!/bin/sh\necho "$(dirname "$(dirname "$0")")/START-HERE.md"\n',
    "kit/bin/rattle": f"""#!{sys.executable}
import os, re, sys
given = dict(it.split("=") for it in sys.argv if "=" in it)
(crate,) = given.keys() - {{"std", "low", "dependency"}}
with open(given[crate]) as source, open(given["low"] + "/format") as library:
    is_proved = eval(re.search("{{(.*)}}", source.read())[1]) == int(library.read()) or "LAX" in os.environ
print(f"fn {{crate}}::answer: " + ("proved" if is_proved else "not proved: `search` did not prove `returns`"))
print("logic=proved" if is_proved else "logic=not-proved")
sys.exit(not is_proved)
""",
}
KEPT, TRIED, ANEW = (f"kept: {it} anew" for it in ("1; tried: 0, of these 0", "0; tried: 1, of these 0", "0; tried: 1, of these 1"))
REFUSED, LET_THROUGH = "1 passed, 0 failed", "0 passed, 1 failed"


class Row(NamedTuple):
    """What a run has to say after one that refused the mutant, if a text of a file is changed to another; and whether the mutant
    is drawn to be tried anew, what else is given to the run, and what its environment has."""

    says: tuple
    change: tuple = (SOURCE, "", "")
    is_drawn: bool = False
    words: tuple = ()
    variables: dict = {}


ROWS = {
    "kept_over_no_change": Row((KEPT, REFUSED)),
    "kept_mutant_made_harmless": Row((TRIED, LET_THROUGH), (EDIT, "2", "2 - 1")),
    "kept_definition_below_changed": Row((TRIED, LET_THROUGH), (LIBRARY, "1", "2")),
    "kept_crate_changed": Row((TRIED, REFUSED), (SOURCE, "u8", "u16")),
    "kept_tool_changed": Row((TRIED, REFUSED), (TOOL, "import re\n", "import re  # (changed)\n")),
    "kept_kit_changed": Row((TRIED, REFUSED), (KIT, "of", "of other")),
    "kept_and_all_anew": Row((TRIED, REFUSED), words=("--anew",)),
    "kept_and_drawn": Row((ANEW, REFUSED), is_drawn=True),
    "kept_and_wrong": Row(("(an earlier run refused it", ANEW, LET_THROUGH), is_drawn=True, variables={"LAX": ""}),
    "kept_nowhere": Row((TRIED, REFUSED), variables={"XDG_CACHE_HOME": "/dev/null"}),
}


def make_repository(room):
    """Makes the repository of the trials in a folder, with the crate below built, and the kit."""
    for path in (*TEXTS, *TOOLS):
        os.makedirs(os.path.dirname(f"{room}/{path}"), exist_ok=True)
        if path in TOOLS:
            shutil.copy2(f"{TOP}/{path}", f"{room}/{path}")
        else:
            with open(f"{room}/{path}", "w", encoding="utf-8") as file:
                file.write(TEXTS[path])
            os.chmod(f"{room}/{path}", 0o755)


def run_tool(room, seed, words=(), variables=None):
    """What the tool says in such a folder, in which it keeps what it keeps."""
    path = f"{room}/kit/bin:{os.environ['PATH']}"
    tool = [sys.executable, "-c", "from toolchain.mutants import main\nraise SystemExit(main())"]
    words = [*tool, "--libraries", room, "--seed", str(seed), *words]
    more = {"PATH": path, "XDG_CACHE_HOME": f"{room}/cache", **(variables or {})}
    return output_of(words, f"{room}/tools", env={**os.environ, **more})[1]


def require_parts(said, parts):
    """Passes if a text has all of these."""
    if not all(it in said for it in parts):
        raise Wrong(f"it said: {said}")


def try_row(row, begun, room, seeds):
    """Tries a row, which begins with a copy of a folder in which the mutant was refused."""
    shutil.copytree(begun, room)
    path, old, new = row.change
    file = Path(room, path)
    file.write_text(file.read_text(encoding="utf-8").replace(old, new, 1), encoding="utf-8")
    require_parts(run_tool(room, seeds[row.is_drawn], row.words, row.variables), row.says)


def checks_of(is_drawn, room):
    """The trials; `is_drawn` says whether a seed has a mutant of a crate tried anew."""
    first = lambda drawn: next(it for it in itertools.count() if is_drawn(it, "high", "other_answer") is drawn)
    seeds, begun = {it: first(it) for it in (False, True)}, f"{room}/begun"

    @functools.cache
    def say_at_first():
        make_repository(begun)
        return run_tool(begun, seeds[False])

    yield Check("kept_nothing_yet", lambda: require_parts(say_at_first(), (TRIED, REFUSED)))
    for name, row in ROWS.items():
        yield Check(name, lambda row=row, name=name: say_at_first() and try_row(row, begun, f"{room}/{name}", seeds))
