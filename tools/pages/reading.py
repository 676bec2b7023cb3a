"""Compares docs/READING.md and docs/DEFINITIONS.txt with the definitions that the headline rests on, and with the laws.

    tools/pages/reading                     checks that the page names each of them, how many lines they are, and that none has changed
    tools/pages/reading --list              prints them, crate by crate and file by file, with their lines
    tools/pages/reading --others [CRATE ..] prints all other definitions, of these crates or of all, with the comment above each
    tools/pages/reading --update            puts the numbers of lines right, prints what has changed, and writes the sums

A definition is what a file of a crate's specs/ declares. The headline rests on those that the clauses of `serve` name and those
that the laws name which docs/PROVED.md names (functions of a crate's src/laws.rt, as `laws::sums`); on those that these name,
and so on. What the toolchain's libraries define is not counted, nor what a file of src/ declares. The page names a definition
where a row of a table has it in backticks, beside its crate and file, as `bank_meaning/Laws`, or beside several files of one
crate, as `bank_meaning/Laws, Sums`. A name with a `*` is a pattern: it means what the headline rests on in these files, has
such a name, and is in no other row by its own name. Lines are those of the definitions alone, without imports and comments; so a
definition more, or a longer one, is seen.

docs/DEFINITIONS.txt has a line for each file of these definitions, and for each file of laws that docs/PROVED.md names: the
sum of their texts and of where the names in these come from, and not of layout, comments or order. The text of a law ends at
its body. So whoever changes one writes the sum of its file anew. The line also has the first characters of each one's own sum,
in the order of their names; by these the check names what has changed, and asks its question of docs/AUDIT.md.

The last line is '1 passed, 0 failed' where all is right; otherwise it counts what is wrong, and the exit status is 1: one has
changed, or has no question; a definition is not on the page, or the page has another number of lines, or names what is not
there; docs/PROVED.md names a law that no crate has, or one without `laws::`.
"""
import fnmatch
import glob
import hashlib
import os
import re
from difflib import SequenceMatcher

from checks import Report, reader
from repository import TOP, dependencies
from toolchain.rattle_source import functions

PAGE = os.path.join(TOP, "docs", "READING.md")
CLAIMS = os.path.join(TOP, "docs", "PROVED.md")
AUDIT = os.path.join(TOP, "docs", "AUDIT.md")
SUMS = os.path.join(TOP, "docs", "DEFINITIONS.txt")
# The calls that the program makes, from the arguments that were read to `serve`.
CALLS = [os.path.join(TOP, "crates", *it) for it in (
    ("bank_cli", "src", "act.rt"),
    ("cli_file", "src", "checking.rt"),
    ("cli_make", "src", "init.rt"),
    ("cli_make", "src", "upgrading.rt"),
    ("cli_serve", "src", "actions.rt"),
    ("cli_counter", "src", "actions.rt"),
    ("counter_api", "src", "service.rt"),
)]
DECLARED = re.compile(r"^(?:  )?(?:abbrev pub|abbrev|unfoldable pub|pub record|record|pub data|data|pub) ([^\s:]+)")
IMPORT = re.compile(r"^(?:ghost )?use Rattle\.(\w+)\.specs\.([\w.]+)(?:\.\{(.*)\}| as (\w+));?$")
# The file of a crate's laws, as it stands in the file of sums beside those of definitions.
LAWS = "laws"
SUMS_HEAD = [
    "Each file whose definitions docs/PROVED.md rests on, or whose laws it names: their sum, and how each one begins.",
    "tools/pages/reading names those that change, with what docs/AUDIT.md asks of each; --update writes this.",
]
# How many characters of a file's sum are kept, and of each definition's; and a line of both.
OF_FILE, OF_ONE = 10, 2
SUM = re.compile(r"(\w+/[\w.]+) [0-9a-f]+ ([0-9a-f]+)")


def text_of(path):
    """The text of a file."""
    with open(path, encoding="utf-8") as file:
        return file.read()


def specs():
    """Each file of definitions: its crate, its name and its lines."""
    for crate in sorted(os.listdir(os.path.join(TOP, "crates"))):
        folder = os.path.join(TOP, "crates", crate, "specs")
        for root, _, names in sorted(os.walk(folder)):
            for name in sorted(names):
                if name.endswith(".antt") and name != "Lib.antt":
                    path = os.path.join(root, name)
                    module = os.path.relpath(path, folder)[: -len(".antt")].replace(os.sep, ".")
                    yield crate, module, text_of(path).split("\n")


def imports_of(lines):
    """What each imported name means."""
    words = {}
    for line in lines:
        found = IMPORT.match(line)
        if found and found[4]:
            words[found[4]] = (found[1], found[2], "")
        elif found:
            for item in found[3].split(","):
                name, _, word = item.strip().partition(" as ")
                words[word or name] = (found[1], found[2], name)
    return words


def declarations():
    """The text of each definition and the comment above it, by its crate, its file and its name, and what the names of each
    file mean."""
    texts, comments, words = {}, {}, {}
    for crate, module, lines in specs():
        words[crate, module] = imports_of(lines)
        name, in_record, said = None, False, []
        for line in lines:
            bare = line.strip()
            if bare.startswith("-- ") and not bare.startswith("-- ----"):
                said.append(bare[len("-- ") :])
            if not bare:
                said = []
            if not bare or bare.startswith(("--", "use ", "module ", "infix")):
                continue
            is_field = in_record and re.match(r"  +pub (?!record |data )\S+ :", line)
            found = None if is_field else DECLARED.match(line)
            if found:
                name, in_record = found[1], "record" in bare.split()[:2]
                texts[crate, module, name], comments[crate, module, name] = [], " ".join(said)
            if name:
                texts[crate, module, name].append(line)
            said = []
        for key in texts:
            if key[:2] == (crate, module):
                words[crate, module].setdefault(key[2], key)
    return texts, comments, words


def names(text, word):
    """Whether a text has a name; that of an operator by its parts."""
    parts = [part for part in word.split("◌") if part]
    if "◌" in word:
        return all(part in text for part in parts)
    return re.search(r"(?<![\w'])" + re.escape(word) + r"(?![\w'])", text) is not None


def laws_named():
    """The laws that the page of claims names."""
    return set(re.findall(r"`laws::(\w+)`", text_of(CLAIMS)))


def laws_of(source):
    """The lines of each law of a file's text, from its name to its body, without comments."""
    bare = re.sub(r"//[^\n]*", "", source)
    found = functions(bare, f"src/{LAWS}.rt", {})
    return {it.name.rpartition("::")[2]: bare[it.head : it.start].split("\n") for it in found}


def with_laws(texts, words):
    """The texts of definitions and laws, by their crates, files and names, and what the names of each file mean."""
    for path in glob.glob(os.path.join(TOP, "crates", "*", "src", f"{LAWS}.rt")):
        source, home = text_of(path), (os.path.relpath(path, TOP).split(os.sep)[1], LAWS)
        words = {**words, home: imports_of(source.split("\n"))}
        texts = {**texts, **{(*home, name): lines for name, lines in laws_of(source).items()}}
    return texts, words


def rested_on(texts, words):
    """The laws that the page of claims names, and the definitions that these, and the calls' clauses, rest on."""
    named, found = laws_named(), set()
    waiting = [key for key in texts if key[1] == LAWS and key[2] in named]
    waiting += [key for path in CALLS for key in imports_of(text_of(path).split("\n")).values() if key in texts]
    while waiting:
        key = waiting.pop()
        if key not in found:
            found.add(key)
            text = "\n".join(texts[key])
            waiting += [other for word, other in words[key[:2]].items() if other in texts and names(text, word)]
    return found


def sum_of(lines, words):
    """The sum of a definition, or of a law: of its text, and of where the names in it come from."""
    text = " ".join(" ".join(lines).split())
    meant = sorted(".".join(key) for word, key in words.items() if names(text, word))
    return hashlib.sha256("\n".join([text, *meant]).encode()).hexdigest()


def homes(cell):
    """The crate and the module of each file that a cell names, as `money/specs/Cents.antt, Tallied.antt` or `*/src/laws.rt`, or
    of each crate, as `money, keyed_rows`."""
    crate = None
    for name in cell.split(", "):
        file = re.fullmatch(r"(?:([\w*]+)/(?:specs|src)/)?([\w*]+)\.(?:antt|rt)", name)
        if file:
            crate = file[1] or crate
            yield crate, file[2]
        elif name in dependencies():
            yield name, "*"


def asked_lines():
    """Each question that docs/AUDIT.md has, with the crate, file and name of whom it is asked, each of which may have a `*`."""
    for line in text_of(AUDIT).split("\n"):
        cells = line.strip("|").split("|") if line.startswith("|") else []
        match [it.strip() for it in cells]:
            case [names, files, question]:
                yield from (((*home, name), question) for home in homes(files) for name in re.findall(r"`([^`]+)`", names))
            case [crates, question]:
                yield from (((*home, "*"), question) for home in homes(crates))


def questions(texts):
    """The question for each definition: that of its own name, or else of the longest pattern."""
    asked = sorted(asked_lines(), key=lambda line: ("*" not in line[0][2], len(line[0][2]), "*" not in line[0][1]))
    return {key: question for pattern, question in asked for key in texts if all(map(fnmatch.fnmatchcase, key, pattern))}


def sums_of(keys, texts, words):
    """The sum of each of these, by its file and, in their order, its name."""
    sums = {}
    for key in sorted(keys):
        sums.setdefault(key[:2], {})[key[2]] = sum_of(texts[key], words[key[:2]])
    return sums


def sum_lines(sums):
    """The lines of the file of sums."""
    yield from SUMS_HEAD
    for home, of_names in sums.items():
        total = hashlib.sha256("\n".join(of_names.values()).encode()).hexdigest()[:OF_FILE]
        yield f"{'/'.join(home)} {total} {''.join(it[:OF_ONE] for it in of_names.values())}"


def changed_in(kept, of_names):
    """What has changed in a file by the beginnings of sums that are kept of it: each name, or how many are fewer."""
    was, now = re.findall("." * OF_ONE, kept), [it[:OF_ONE] for it in of_names.values()]
    alike = SequenceMatcher(None, was, now, autojunk=False).get_matching_blocks()
    places = {*range(len(now))} - {at for it in alike for at in range(it.b, it.b + it.size)}
    fewer = [f"{len(was) - len(now)} fewer"] * (len(was) > len(now))
    return [name for at, name in enumerate(of_names) if at in places] + fewer


def changed(lines, sums, asked):
    """What the file of sums, of these lines, has otherwise than it ought to, a line each, with what is asked of it."""
    due = list(sum_lines(sums))
    kept = {found[1]: found for found in map(SUM.fullmatch, lines) if found}
    faults = [f"has {file}, on which nothing rests" for file in kept if tuple(file.split("/")) not in sums]
    for (home, of_names), line in zip(sums.items(), due[len(SUMS_HEAD) :]):
        if line not in lines:
            file = line.split(" ")[0]
            names = changed_in(kept[file][2] if file in kept else "", of_names)
            faults += [f"has another sum of {file}: {it}: {asked.get((*home, it), '')}" for it in names or ["one"]]
    faults = faults or ["has other lines than --update writes"] * (list(lines) != due)
    return [f"docs/DEFINITIONS.txt {it}" for it in faults]


def kept_lines():
    """The lines of the file of sums, if it is there."""
    return text_of(SUMS).splitlines() if os.path.exists(SUMS) else []


def page_lines():
    """Each line of the page, with what it says where it is a row: the crate, the definitions' files and names, and the number of
    lines."""
    for line in text_of(PAGE).split("\n"):
        cells = [cell.strip() for cell in line.strip().strip("|").split(" | ")]
        found = re.fullmatch(r"(\w+)/([\w.]+(?:, [\w.]+)*)", cells[1]) if line.startswith("| `") and len(cells) == 4 else None
        yield line, (found[1], found[2].split(", "), re.findall(r"`([^`]+)`", cells[0]), cells[2]) if found else None


class Page:
    """The rows of the page, with the definitions that each names."""

    def __init__(self, texts, found):
        self.texts = texts
        self.found = found
        self.lines = list(page_lines())
        named = [self.named(row, {it}) for _, row in self.lines if row for it in row[2]]
        self.by_name = set().union(*named)

    def named(self, row, names):
        """The definitions that have one of these names in the files of a row."""
        return {(row[0], file, it) for file in row[1] for it in names if (row[0], file, it) in self.texts}

    def matched(self, row, pattern):
        """The definitions that a pattern of a row means."""
        of_files = {key for key in self.found if key[0] == row[0] and key[1] in row[1]}
        return {key for key in of_files - self.by_name if fnmatch.fnmatchcase(key[2], pattern)}

    def keys_of(self, row, name):
        """The definitions that a name of a row means."""
        return self.matched(row, name) if "*" in name else self.named(row, {name})

    def all_of(self, row):
        """Those that all its names mean."""
        return set().union(*(self.keys_of(row, it) for it in row[2]))

    def count_of(self, row):
        """How many lines they have."""
        return sum(len(self.texts[key]) for key in self.all_of(row))

    def update(self):
        """Puts the numbers of lines right."""
        lines = []
        for line, row in self.lines:
            if row:
                before, after = line.split(f" | {row[3]} | ", 1)
                line = f"{before} | {self.count_of(row)} | {after}"
            lines.append(line)
        with open(PAGE, "w", encoding="utf-8") as file:
            file.write("\n".join(lines))

    def faults(self):
        """What the page lacks or has too much, and which laws are none, a line each."""
        faults, covered = [], set()
        for row in (row for _, row in self.lines if row):
            faults += [f"{row[0]} has no {it} in {', '.join(row[1])}" for it in row[2] if not self.keys_of(row, it)]
            if row[3] != str(self.count_of(row)):
                faults.append(f"{row[0]}, {', '.join(row[2])}: {self.count_of(row)} lines and not {row[3]}")
            covered |= self.all_of(row)
        faults += ["not on the page: {2} in crates/{0}/specs/{1}".format(*key) for key in sorted(self.found - covered)]
        return faults


def against_claims(known):
    """What is wrong with the laws that the page of claims names, of those known, a line each."""
    named, bare = laws_named(), set(re.findall(r"`(\w+)`", text_of(CLAIMS))) & known
    wrong = [f"laws::{it}, which is no law" for it in sorted(named - known)]
    return [f"docs/PROVED.md names {it}" for it in wrong + [f"{it}, a law, without laws::" for it in sorted(bare - named)]]


def print_list(texts, found):
    """Prints what the headline rests on."""
    for crate, module in sorted({key[:2] for key in found}):
        keys = [key for key in texts if key in found and key[:2] == (crate, module)]
        print(crate, module, sum(len(texts[key]) for key in keys), " ".join(key[2] for key in keys))


def print_others(texts, comments, found, crates):
    """Prints all other definitions of these crates, or of all."""
    for key in comments:
        if key not in found and (not crates or key[0] in crates):
            print(f"{key[0]}/specs/{key[1]}: {key[2]}, {len(texts[key])}: {comments[key]}".rstrip(": "))


def update(page, sums, asked):
    """Puts the page right, prints what has changed, and writes the sums."""
    page.update()
    print("\n".join(changed(kept_lines(), sums, asked)) or "docs/DEFINITIONS.txt is as it was")
    with open(SUMS, "w", encoding="utf-8") as file:
        file.writelines(f"{line}\n" for line in sum_lines(sums))


def main():
    parser = reader(__doc__, program=None, has_checks=False)
    what = parser.add_mutually_exclusive_group()
    what.add_argument("--list", action="store_true", help="print what the headline rests on")
    what.add_argument("--others", metavar="CRATE", nargs="*", help="print all other definitions")
    what.add_argument("--update", action="store_true", help="put the page right, and write the sums")
    given = parser.parse_args()
    texts, comments, words = declarations()
    texts, words = with_laws(texts, words)
    found = rested_on(texts, words)
    if given.list:
        print_list(texts, found)
        return 0
    if given.others is not None:
        print_others(texts, comments, found, given.others)
        return 0
    sums, asked, defined = sums_of(found, texts, words), questions(found), found & comments.keys()
    if given.update:
        update(Page(texts, defined), sums, asked)
    print(f"reading: the headline rests on {len(defined)} definitions, {sum(len(texts[key]) for key in defined)} lines")
    faults = Page(texts, defined).faults() + against_claims({key[2] for key in texts if key[1] == LAWS})
    faults += changed(kept_lines(), sums, asked)
    faults += ["docs/AUDIT.md has no question for {2} of {0}/{1}".format(*key) for key in sorted(found - asked.keys())]
    return Report().add_all([("reading", it) for it in faults or [None]])
