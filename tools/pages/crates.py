"""Compares the drawing in docs/ARCHITECTURE.md with crates.txt, looks at the head of each crate, compares the list of functions
without a clause in docs/PROVED.md with the sources, and prints the longest chain of crates.

    tools/pages/crates
    tools/pages/crates --update     writes docs/EDGES.txt, and then looks

Each crate of crates.txt but unit tests and benchmarks stands once in the drawing, and what it uses is in a line below, or before
a `>` on its own. The first file of each crate begins with a head, which is its lines `//!`, of 40 to 80 words.

A function has a clause where it has a `requires` or an `ensures`, or implements a method of a trait that has one. All others
but those of tests and benchmarks are printed, and are those that the page lists by crate; so a new function
without a clause is seen. A type's invariant is no clause. docs/EDGES.txt has the sum of the text of each such function, and
of each at the machine (edges.py): a change of one is seen there.

An impl that leaves a ghost member of its trait at its default, or empty, is in a second list of the page (defaults.py), as a
clause by that member says nothing of it. Each mutant that the page names in square brackets is there.

tools/toolchain/crate_minutes.txt has the minutes of each crate but those, of the program, and of no other; tools/build says what
each crate took. The longest chain of crates, each of which uses the one before it, is printed with its minutes: a build takes
that long at least, however many processors there are.

Each crate is a check, and so are the mutants of the page.
"""
import glob
import os
import re

from checks import Report, reader
from pages.defaults import OF_STREAMS, ghosts_of, left_at_defaults
from pages.edges import against_edges, crates_in, edges_of, kept_lines, lines_of, write_edges
from repository import TOP, source_of, dependencies
from toolchain.chain import kept_minutes, longest_chain, proved_crates
from toolchain.rattle_source import blanked, functions, homes_of, promised

PAGE = os.path.join(TOP, "docs", "ARCHITECTURE.md")
# Where a line of the drawing has its crates, between the name of its layer and what they hold.
CRATES = slice(10, 56)
LEAST_IN_HEAD, MOST_IN_HEAD = 40, 80
CLAIMS = os.path.join(TOP, "docs", "PROVED.md")
CLAIMS_HEADING = "| Crate | Functions without a clause |"
DEFAULTS_HEADING = "| Crate | Ghost members at their defaults, or empty |"
MUTANTS = re.compile(r"\[([\w/-]+(?:[,;] [\w/-]+)*)\]$", re.MULTILINE)
# Methods of the toolchain's traits that have clauses. That of `From` says what the impl does by its `from_gives`.
PROMISED = {"Read::read", "Write::write", "Write::flush"}
FROM = "From::from"


def rows_of(path, heading):
    """The rows of the table of a page that begins with this heading."""
    with open(path, encoding="utf-8") as file:
        lines = file.read().split("\n")
    start = next((at for at, line in enumerate(lines) if line.startswith(heading)), len(lines))
    end = next((at for at in range(start, len(lines)) if not lines[at].startswith("|")), len(lines))
    return lines[start + 2 : end]


def drawn():
    """The place of each crate in the drawing: its line, and after how many `>` it stands there; and the crates that stand there
    twice."""
    with open(PAGE, encoding="utf-8") as file:
        lines = file.read().split("```")[1].strip("\n").split("\n")
    places, twice = {}, set()
    for number, line in enumerate(lines):
        for rank, part in enumerate(line[CRATES].split(">")):
            for crate in part.split():
                twice.update({crate} & set(places))
                places[crate] = (number, rank)
    return places, twice


def listed(heading):
    """What the page lists of each crate in the table that begins with this heading."""
    cells = [line.strip("| ").split(" | ") for line in rows_of(CLAIMS, heading)]
    return {row[0]: re.findall(r"`([\w:]+)`", row[-1]) for row in cells}


def texts_of(crate):
    """The text of each file of a crate's source, by its path."""
    folder, texts = os.path.join(TOP, "crates", crate), {}
    for path in sorted(glob.glob(os.path.join(folder, "src", "**", "*.rt"), recursive=True)):
        with open(path, encoding="utf-8") as file:
            texts[os.path.relpath(path, folder)] = file.read()
    return texts


def without_clause(texts, of_traits):
    """The functions of a crate that have no clause, whose files' texts are given by their paths, beside the methods of traits
    that have one."""
    homes, found = homes_of(texts), []
    for path, text in texts.items():
        code = blanked(text)
        for it in functions(text, path, homes):
            gives = it.of_trait == FROM and "from_gives" in code[code.rfind("impl", 0, it.head) : it.head]
            if not it.has_clause and it.of_trait not in of_traits and not gives:
                found.append(it.name)
    return found


def all_without_clause(texts):
    """The functions without a clause of each of these crates, by the texts of their files."""
    of_traits = PROMISED.union(*(promised(text) for of_crate in texts.values() for text in of_crate.values()))
    return {it: without_clause(of_crate, of_traits) for it, of_crate in texts.items()}


def words_of_head(crate):
    """How many words the head of a crate has."""
    count = 0
    with open(source_of(crate), encoding="utf-8") as file:
        for line in file:
            if not line.startswith("//!"):
                break
            count += len(line[len("//!") :].split())
    return count


def against_drawing(crate, places, twice, used):
    """What is wrong with the place of a crate in the drawing, by those of the crates that it uses."""
    if crate.startswith(("test_", "bench_")):
        return ["it stands in the drawing"] if crate in places else []
    if crate not in places or crate in twice:
        return [f"it stands {'twice' if crate in twice else 'not'} in the drawing"]
    line, rank = places[crate]
    above = [it for it in used if it in places and not (places[it][0] > line or places[it][0] == line and places[it][1] < rank)]
    return [f"it uses {it}, which does not stand below it" for it in above]


def against_head(crate):
    """What is wrong with the head of a crate."""
    count = words_of_head(crate)
    return [] if LEAST_IN_HEAD <= count <= MOST_IN_HEAD else [f"its head has {count} words"]


def against_functions(found, listed):
    """What is wrong with the functions without a clause that the page lists of a crate."""
    wrong = [f"{it} has no clause, and docs/PROVED.md does not list it" for it in found if it not in listed]
    return wrong + [f"docs/PROVED.md lists {it}, which has a clause or is not there" for it in listed if it not in found]


def against_defaults(found, kept):
    """What is wrong with the ghost members at their defaults, or empty, that the page lists of a crate."""
    wrong = [f"docs/PROVED.md does not list {it}, which is at its default or empty" for it in found if it not in kept]
    return wrong + [f"docs/PROVED.md lists {it}, which says something" for it in kept if it not in found]


def mutants_named(text):
    """The mutants that a page names, each as CRATE/NAME, in square brackets at the end of a line."""
    return [it for names in MUTANTS.findall(text) for it in re.split("[,;] ", names)]


def is_mutant(name):
    """Whether a name on the page is that of a mutant, or of a tool that tries mutants of its own."""
    crate, _, mutant = name.partition("/")
    paths = os.path.join("crates", crate, "must-fail", f"{mutant}.edit"), name
    return any(os.path.isfile(os.path.join(TOP, it)) for it in paths)


def against_mutants(named):
    """What is wrong with the mutants that the page names."""
    return [f"docs/PROVED.md names {it}, which is no mutant" for it in named if not is_mutant(it)]


def against_minutes(crate, minutes, proved):
    """What is wrong with the minutes that are kept of a crate."""
    if (crate in minutes) == (crate in proved):
        return []
    return [f"tools/toolchain/crate_minutes.txt has {'no' if crate in proved else 'a'} line of it"]


def say_functions(found):
    """Prints the functions without a clause, by crate."""
    print(f"{sum(map(len, found.values()))} functions without a clause:", flush=True)
    for crate, names in found.items():
        if names:
            print(f"    {crate}: {', '.join(names)}", flush=True)


def say_chain(uses, minutes, crates):
    """Prints the longest chain of crates, with its minutes."""
    chain = longest_chain(uses, {it: minutes.get(it, 0) for it in crates}, crates)
    print(f"longest chain: {sum(minutes.get(it, 0) for it in chain):.1f} minutes:", flush=True)
    for it in chain:
        print(f"    {minutes.get(it, 0):4.1f} {it}", flush=True)


def main():
    arguments = reader(__doc__, program=None, has_checks=False)
    arguments.add_argument("--update", action="store_true", help="write docs/EDGES.txt")
    given = arguments.parse_args()
    uses, (places, twice), minutes = dependencies(), drawn(), kept_minutes()
    proved, functions_of, members_of = proved_crates(uses), listed(CLAIMS_HEADING), listed(DEFAULTS_HEADING)
    texts = {it: texts_of(it) for it in proved}
    ghosts = {name: found for it in proved for name, found in ghosts_of(texts[it]).items()} | OF_STREAMS
    found = all_without_clause(texts)
    edges = {it: list(edges_of(texts[it], found[it])) for it in proved}
    if given.update:
        write_edges(lines_of(edges))
    kept = crates_in(kept_lines())
    wrong = {it: against_drawing(it, places, twice, uses[it]) + against_head(it) for it in uses}
    for it in uses:
        wrong[it] += against_functions(found.get(it, []), functions_of.get(it, [])) + against_minutes(it, minutes, proved)
        wrong[it] += against_edges(edges.get(it, []), kept.get(it, []))
        wrong[it] += against_defaults(list(left_at_defaults(texts.get(it, {}), ghosts)), members_of.get(it, []))
    others = {*places, *functions_of, *members_of, *minutes, *kept} - {*uses}
    wrong.update((name, ["crates.txt has no such crate"]) for name in sorted(others))
    with open(CLAIMS, encoding="utf-8") as page:
        wrong["mutants of docs/PROVED.md"] = against_mutants(mutants_named(page.read()))
    say_functions(found)
    say_chain(uses, minutes, proved)
    return Report().add_all((crate, "\n    ".join(lines) or None) for crate, lines in wrong.items())
