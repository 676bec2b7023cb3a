"""Prints the files that name an operation, and compares the tables of docs/ADDING.md with the sources.

    tools/pages/operation NAME      prints the files that name this operation, as move-cash
    tools/pages/operation --check   compares the tables

A file names an operation whose name says nothing else if it has that as it is in a path, in a function or in a type: `move-cash`,
`move_cash`, `MoveCash`. If the name is a common word, as that of a post, it has to stand where it is the operation's: in the path
of one of its own files, in a word that the page has with FORM in it (`prepare_post`), after what begins an operation (`Op::Post`,
`/do/post`), or within three lines of another operation. Of the crates only those of the product are read; the lists of their
modules are left out, and so are links. The operations, rules and commands are read from their definitions, the pages of the office from its menu.

`--check` compares tables of the page. A file in a table names all of its kind: all rules, all commands, all pages of the office, or all
examples of operations. In a table of files that name some, each names at least one. The other way round, a file that names all of a
kind, or an example, is in a table. FORM and PAGE mean what is added, CRATE the crate of its plan; columns after the files are
not read. Of the files that name an operation, at most a quarter is in no table. branch/front/nginx.conf must have the questions,
which are the operations that take no slip. Each file is a check.
"""
import fnmatch
import glob
import os
import re
from collections.abc import Callable, Iterator
from typing import NamedTuple

from checks import Report, reader
from repository import TOP

PAGE = "docs/ADDING.md"
OWN = "| Where | Its own files | What they say |"
SOME = "| Where | Files that name some |"
EACH = "| Where | Files that name each {} | Its line there |"
TERMS, NGINX, MENU = "crates/bank_terms/specs/", "branch/front/nginx.conf", "programs/tespiorvu/office/templates/base.html"
COMMANDS = "crates/cli_words/specs/Commands.antt"
# Operations with the crate of their plan, and those of all whose names say nothing else.
CRATES = {
    "post": "postings", "transfer": "postings", "correct": "postings", "drawer-on": "drawers", "drawer-off": "drawers",
    "move-cash": "drawers", "close-day": "drawers", "new-account": "bank_meaning",
}  # fmt: skip
PLAIN = ("drawer-on", "drawer-off", "move-cash", "close-day", "new-account")
# Those that have the usual names for all that their rules are.
JUDGED = ("post", "transfer", "correct", "drawer-on", "drawer-off", "close-day")
# A page of the office whose name says nothing else.
EXAMPLE = "reviews"
READ = ("crates", "tools", "branch", "programs", "sample", "desk", "office")
FOLDERS = ("src", "specs", "proofs", "must-fail")
PATH = re.compile(r"[\w-]+(?:/[\w*-]+)*(?:\.[\w.]+|/\*)")
LEFT_OUT = ("lib.rt", "Lib.antt", "operation.py", "ADDING.md")
NAME = r'^name_of (\w+) = codes "([a-z -]+)"$'
# How many lines away another operation may be; what share of the files that name an operation may be in no table.
NEAR, SHARE_IN_NO_TABLE = 3, 1 / 4
# Whether a file, by its path and its text, names something.
Names = Callable[[str, str], bool]


class Kind(NamedTuple):
    """What can be added: the headings of its tables, of files that name each of these and of files that name some; the folders in
    which they are; which file names which; and whether one that names any of them has to be in a table, or one that names all."""

    each: tuple[str, ...]
    some: tuple[str, ...]
    folders: tuple[str, ...]
    names: dict[str, Names]
    takes: Callable[[list[bool]], bool] = any

    def files(self, texts: dict[str, str]) -> dict[str, list[str]]:
        """The files that name each, by its name."""
        read, found = [it for it in texts.items() if it[0].startswith(self.folders)], {}
        for name, is_in in self.names.items():
            found[name] = sorted(path for path, text in read if is_in(path, text))
            # (if a file has to name all, the next is sought in those that name this one)
            read = [it for it in read if it[0] in found[name]] if self.takes is all else read
        return found


def text_of(short: str) -> str:
    """The text of a file of the repository."""
    with open(os.path.join(TOP, short), encoding="utf-8", errors="replace") as file:
        return file.read()


def operations(is_question: bool | None = None) -> list[str]:
    """The names of all operations, or of those that take no slip."""
    text = text_of(f"{TERMS}Procedure.antt")
    questions = re.findall(r"^takes_slip (\w+) = false$", text, re.M)
    return [name for kind, name in re.findall(NAME, text, re.M) if is_question is None or (kind in questions) == is_question]


def forms_of(name: str) -> tuple[str, str, str]:
    """How it is written: in a path, in the name of a function, in that of a type."""
    return name, name.replace("-", "_"), "".join(it.capitalize() for it in name.split("-"))


def is_read(path: str) -> bool:
    """Whether a file may have to be named: no unit test or benchmark, no list of modules, and no picture."""
    parts = path.split(os.sep)
    is_source = not parts[1].startswith(("test_", "bench_")) and not path.endswith((".png", ".pyc"))
    return is_source and parts[-1] not in LEFT_OUT and "out" not in parts


def read_texts() -> dict[str, str]:
    """The text of each file that is read, by its path."""
    found = {}
    for folder in (*READ, "docs"):
        for path in glob.glob(os.path.join(TOP, folder, "**", "*"), recursive=True):
            short = os.path.relpath(path, TOP)
            if os.path.isfile(path) and not os.path.islink(path) and is_read(short):
                found[short] = text_of(short)
    return found


def word_of(name: str) -> str:
    """A pattern of a name as it is in a path, in a function or in a type."""
    path, function, kind = forms_of(name)
    return rf"(?<![A-Za-z-]){path}(?![a-z-])|(?<![A-Za-z0-9]){function}(?![a-z0-9])|{kind}(?![a-z])"


def has(pattern: str, forms: tuple[str, ...]) -> Names:
    """Which files have a pattern in their texts. What has it has one of these forms, which are found sooner."""
    sought = re.compile(pattern, re.M)
    return lambda path, text: any(it in text for it in forms) and sought.search(text) is not None


def names_operation(name: str) -> Names:
    """Which files name an operation."""
    if name in PLAIN:
        return has(word_of(name), forms_of(name))
    path, function, kind = forms_of(name)
    of_page = "|".join(sorted({it.replace("FORM", function) for it in re.findall(r"`(\w*FORM\w*)`", text_of(PAGE))}))
    begun = rf"\b(?:Op|Procedure|op|procedure)(?:::|\.){kind}\b|\b(?:do/|(?:procedure|asked|end)\.){path}(?![\w-])"
    own = [it for it in rows_of(OWN) if "FORM" in it]
    is_said, is_word = (has(it, forms_of(name)) for it in (rf"\b(?:{of_page})\b|{begun}", word_of(name)))
    is_plain = has("|".join(map(word_of, PLAIN)), tuple(form for it in PLAIN for form in forms_of(it)))

    def is_named(short: str, text: str) -> bool:
        if any(covers(it, short, name) for it in own) or is_said(short, text):
            return True
        lines = text.split("\n") if is_plain("", text) else []
        near = lambda at: "\n".join(lines[max(0, at - NEAR) : at + NEAR + 1])
        return any(is_word("", line) and is_plain("", near(at)) for at, line in enumerate(lines))

    return is_named


def names_rules_of(name: str) -> Names:
    """Which files name the rules of an operation: the table of its tests, as definition or as code, or what is so if all pass."""
    function = forms_of(name)[1]
    said = rf"\b{function}_(?:tests|judged|passes)\b|\brule_against_{function}\b|^pub is_allowed :.* first_against_{function} "
    return lambda path, text: "/must-fail/" not in path and has(said, (function,))(path, text)


def names_of_rules() -> dict[str, Names]:
    """Which files name each rule: by its variant, by its name, or by its number where texts are by that."""
    text = text_of(f"{TERMS}Rule.antt")
    numbers = dict(re.findall(r"^number_of (\w+) = (\d+)$", text, re.M))
    forms = {name: (kind, name, f"rule.{numbers[kind]}.") for kind, name in re.findall(NAME, text, re.M)}
    return {name: has(rf"(?<![\w-])(?:{its[0]}|{name})(?![\w-])|{re.escape(its[2])}", its) for name, its in forms.items()}


def names_page(path: str, text: str) -> bool:
    """Whether a file names the page of the office that is the example, in its path or its text."""
    return re.search(rf"\b{EXAMPLE}(?![a-z])", f"{path}\n{text}") is not None


def kinds() -> list[Kind]:
    """All that is compared."""
    commands = [it for it in re.findall(r'new_app \(codes "(\w+)"', text_of(COMMANDS)) if it != "bank_cli"]
    pages = re.findall(r'href="/office/(\w+)"', text_of(MENU))
    return [
        Kind((OWN, EACH.format("operation")), (SOME,), READ, {it: names_operation(it) for it in PLAIN}),
        Kind((EACH.format("rule of a form"),), (), ("crates",), {it: names_rules_of(it) for it in JUDGED}),
        Kind((EACH.format("rule"),), (), ("crates", "desk/page", "docs", "tools"), names_of_rules(), all),
        Kind((EACH.format("command"),), (), ("crates", "branch", "programs", "tools"), {it: has(word_of(it), forms_of(it)) for it in commands}, all),
        Kind((EACH.format("page"),), (), ("office", "programs"), {it: has(rf"office/{it}\b", (it,)) for it in pages}, all),
        Kind(("| Where | Files of a page | What they say |",), (EACH.format("page"),), ("office", "branch", "programs", "docs"), {EXAMPLE: names_page}),
    ]


def rows_of(heading: str) -> Iterator[str]:
    """The patterns of paths in the table that begins with a heading. A path in a crate that doesn't begin with a folder of
    FOLDERS is in the one before."""
    for line in text_of(PAGE).partition(f"{heading}\n")[2].split("\n\n")[0].split("\n")[1:]:
        where, files = line.strip("| ").split(" | ")[:2]
        is_top = os.path.isdir(os.path.join(TOP, where))
        folder = ""
        for it in files.split(", ") if is_top else PATH.findall(files):
            if it.split("/")[0] in FOLDERS:
                folder, _, it = it.partition("/")
            yield from (f"{where}/{it}" if is_top else f"crates/{crate}/{folder}/{it}" for crate in where.split(", "))


def covers(pattern: str, path: str, name: str) -> bool:
    """Whether a pattern has a path in it, of what has this name."""
    of_crate = pattern.replace("CRATE", CRATES.get(name, "CRATE"))
    return any(fnmatch.fnmatchcase(path, of_crate.replace("FORM", it).replace("PAGE", it)) for it in forms_of(name))


def faults_of(kind: Kind, files: dict[str, list[str]]) -> Iterator[str]:
    """What is wrong with the tables of a kind, of which these files name each."""
    listed = [it for heading in kind.each for it in rows_of(heading)]
    # (CRATE is another for each, and need not have all)
    each = [it for it in listed if "CRATE" not in it]
    some = [it for it in listed if "CRATE" in it] + [it for heading in kind.some for it in rows_of(heading)]
    for pattern in each:
        lacking = [name for name, paths in files.items() if not any(covers(pattern, it, name) for it in paths)]
        yield from (f"{pattern} does not name {name}" for name in (lacking[:1] if kind.takes is all else lacking))
    yield from (f"{it} names none" for it in some if not any(covers(it, path, name) for name, paths in files.items() for path in paths))
    for path in sorted(set().union(*files.values())):
        names = [name for name, paths in files.items() if path in paths]
        if kind.takes([it in names for it in files]) and not any(covers(it, path, name) for it in each + some for name in names):
            yield f"{PAGE} lacks {path}, which names {names[0]}"


def strayed(texts: dict[str, str]) -> Iterator[str]:
    """The operations that too many files name which are in no table, a line each."""
    places = [it for heading in (OWN, EACH.format("operation"), SOME) for it in rows_of(heading)]
    for name in operations():
        files = Kind((), (), READ, {name: names_operation(name)}).files(texts)[name]
        others = [path for path in files if not any(covers(it, path, name) for it in places)]
        if len(others) > SHARE_IN_NO_TABLE * len(files):
            yield f"of {len(files)} files that name {name}, {len(others)} are in no table, as {others[0]}"


def check(texts: dict[str, str]) -> int:
    """Compares the page with the files. The exit status."""
    found = [(kind, kind.files(texts)) for kind in kinds()]
    read = sorted({path for _, files in found for paths in files.values() for path in paths} | {NGINX})
    faults = [*(it for kind, files in found for it in faults_of(kind, files)), *strayed(texts)]
    in_front, questions = re.search(r"do/\(([a-z|-]+)\)", text_of(NGINX)), operations(is_question=True)
    if in_front is None or sorted(in_front[1].split("|")) != sorted(questions):
        faults.append(f"{NGINX} does not name exactly the questions {', '.join(questions)}")
    return Report().add_all([*((it, None) for it in [*read, *operations()]), *((PAGE, it) for it in faults)])


def show(paths: list[str]) -> int:
    """Prints these files and how many there are. The exit status."""
    crates = sorted({it.split(os.sep)[1] for it in paths if it.startswith("crates")})
    proofs = [it for it in paths if it.split(os.sep)[2:3] == ["proofs"]]
    print("\n".join(paths))
    print(f"{len(paths)} files, {len(proofs)} of them proofs, in {len(crates)} crates of the product: {', '.join(crates)}")
    return 0 if paths else 1


def main() -> int:
    parser = reader(__doc__, program=None, has_checks=False)
    what = parser.add_mutually_exclusive_group(required=True)
    what.add_argument("name", nargs="?", metavar="NAME", choices=operations(), help="print the files that name this operation")
    what.add_argument("--check", action="store_true", help="compare the tables of docs/ADDING.md with the files")
    given = parser.parse_args()
    if given.check:
        return check(read_texts())
    return show(Kind((), (), READ, {given.name: names_operation(given.name)}).files(read_texts())[given.name])
