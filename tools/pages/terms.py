"""Refuses retired terms in the pages, and in comments of the crates, the tools, the front, the teller's page and of cases; and retired
words in the names of the crates: of functions, types, clauses, files and mutants.

    tools/pages/terms

A line for each says what to say instead, as docs/GLOSSARY.md does. RETIRED has each phrase with that term, and what it may be
part of all the same. What stands in backticks, in a block of lines, or in quotes as a printed line is the program's own, and is
left out. Each file is a check.
"""
import ast
import glob
import io
import os
import re
import tokenize

from checks import Report, reader
from repository import TOP

THEY = "the user, they"
# Sample users; a sentence on one of them may use the pronoun of a man.
NAMED = re.compile(r"\b(Tom|Carl)\b")
# A phrase, what is said instead, and what it may be a part of.
RETIRED = (
    (r"behind", "after, following, past, with .. in front", r"behind nginx"),
    (r"words", "arguments; tokens; terms", r"([\d,]+|how many|plain) words|last word|^words"),
    (r"edits?", "mutant", r"must-fail edits?|edit ``"),
    (r"mistakes?", "mutant", r"by mistake"),
    (r"wrong (body|bodies|definitions?)", "mutant", None),
    (r"(tells?|told|telling)", "says, returned, reported, printed", None),
    (r"(is|are|be|was|were|been) had", "bound, acquired, accepted", None),
    (r"(that|which) counts?|counts? (no more|then|at)", "is valid, is in effect", r"that counts? (failed|its|the|how|calls)"),
    (r"(take|takes|taking) times?", "benchmark", r"takes? time\b"),
    (r"of (then|before)", "stored; before the request", None),
    (r"fuses?", "fault injection", None),
    (r"(lends?|lent|lending)", "shares", None),
    (r"editions?", "schema version", None),
    (r"second bank", "reference model", None),
    (r"(one|one write|times|seconds|minutes|bytes|lines|statements?|posts|\d) an? (reply|post|entry|message|line|row|crate|request|second|minute|day|tool|user)(?! runs)", "per", r"\w+ a second time"),
    (r"the gate", "CI", None),
    (r"made up", "synthetic", None),
    (r"(he|his|him|himself)", THEY, None),
    (r"stands? for", "represents", None),
    (r"(the|a|his|their|by|without|another) leave", "authorization", None),
)
# Parts of no name, and what is said instead.
RETIRED_IN_NAMES = {
    "told": "stated, reported, read",
    "behind": "after, following",
    "hear": "read, drain",
    "heard": "read",
    "had": "taken",
}
# Names of the toolchain's own: a lemma, and what the pattern before an arm says of its value (`told-members`).
KITS_NAMES = {"contains_had"}
KITS_FACT = re.compile(r"\btold-\w+")
PATTERNS = [
    (re.compile(rf"(?<![\w`'/.-])(?:{it})(?![\w`-]|\.\w)", re.IGNORECASE), say, others and re.compile(others, re.IGNORECASE))
    for it, say, others in RETIRED
]
OF_CRATES = (".rt", ".antt", ".edit")
FENCED = re.compile(r"^```.*?^```", re.MULTILINE | re.DOTALL)
QUOTED = re.compile(r"`[^`\n]*`|\b[a-z_]+/[\w/.]+(?:, [A-Z]\w+)*")
COMMENT = re.compile(r"^\s*(?://[/!]?|--) ?(.*)$")
# What is no code in a line of a crate, and the marks of a mutant's lines of code.
NO_CODE = re.compile(r'"(?:[^"\\]|\\.)*"|//.*|(?:^|(?<=\s))--.*')
OF_MUTANT = re.compile(r"^(old|new|# refused (at|by)): ")
NAME = re.compile(r"[A-Za-z_][A-Za-z0-9_]*")
WORD = re.compile(r"[A-Z]?[a-z]+|[A-Z]+(?![a-z])")


def faults_of(text):
    """The retired terms in a text, each with its line and what to say instead."""
    for number, line in text:
        bare = QUOTED.sub("``", line)
        for pattern, say, others in PATTERNS:
            spans = [it.span() for it in others.finditer(bare)] if others else []
            if say == THEY and NAMED.search(bare):
                continue
            for found in pattern.finditer(bare):
                if not any(first <= found.start() and found.end() <= last for first, last in spans):
                    yield number, found[0], say


def lines_of_page(text):
    """The lines of a page, without its blocks."""
    return enumerate(FENCED.sub(lambda it: "\n" * it[0].count("\n"), text).split("\n"), 1)


def lines_of_python(text):
    """The lines of comments and of docstrings."""
    for it in tokenize.generate_tokens(io.StringIO(text).readline):
        if it.type == tokenize.COMMENT:
            yield it.start[0], it.string
    for node in ast.walk(ast.parse(text)):
        if isinstance(node, (ast.Module, ast.ClassDef, ast.FunctionDef)) and ast.get_docstring(node):
            first = node.body[0].lineno
            yield from enumerate(ast.get_docstring(node, clean=False).split("\n"), first)


def lines_marked(text, mark):
    """The lines that begin with a mark."""
    return [(number, line) for number, line in enumerate(text.split("\n"), 1) if line.startswith(mark)]


def lines_of(path, text):
    """The lines of a file that are read."""
    if path.endswith(".md"):
        return lines_of_page(text)
    if path.endswith((".rt", ".antt")):
        return [(number, found[1]) for number, found in ((n, COMMENT.match(it)) for n, it in enumerate(text.split("\n"), 1)) if found]
    if path.endswith((".c", ".css", ".js")):
        comments = re.finditer(r"/\*.*?\*/|^\s*//.*?$", text, re.DOTALL | re.MULTILINE)
        return [pair for it in comments for pair in enumerate(it[0].split("\n"), text.count("\n", 0, it.start()) + 1)]
    is_python = path.endswith(".py") or text.startswith("#!/usr/bin/env python3")
    return lines_of_python(text) if is_python else lines_marked(text, "#")


def code_of(path, text):
    """The lines of code of a crate's file."""
    for number, line in enumerate(text.split("\n"), 1):
        if not path.endswith(".edit") or OF_MUTANT.match(line):
            yield number, KITS_FACT.sub("", NO_CODE.sub("", line))


def faults_of_names(path, text):
    """The names in a crate's file, and its own, that have a retired word, each with its line and what to say instead."""
    for number, line in [(0, path), *code_of(path, text)]:
        for name in NAME.findall(line):
            for word in WORD.findall(name):
                if word.lower() in RETIRED_IN_NAMES and name not in KITS_NAMES:
                    yield number, name, RETIRED_IN_NAMES[word.lower()]


def below(pattern):
    """The paths in the repository that a pattern matches."""
    return sorted(os.path.relpath(it, TOP) for it in glob.glob(os.path.join(TOP, pattern), recursive=True))


def files():
    """The files that are held to it."""
    found = ["README.md", "CHANGELOG.md", "CONTRIBUTING.md", *below("docs/*.md")]
    for it in ("tools", "branch", "programs", "desk", "office", "rows", "migrations", ".ci"):
        found += below(f"{it}/**/*")
    found += [path for it in OF_CRATES for path in below(f"crates/*/**/*{it}")]
    return [it for it in found if os.path.isfile(os.path.join(TOP, it)) and not it.endswith((".txt", ".csv", ".png", ".gz"))]


def faults_of_file(path):
    """The retired terms in a file, as text, or none."""
    with open(os.path.join(TOP, path), encoding="utf-8") as file:
        text = file.read()
        found = [] if path.endswith(".edit") else [*faults_of(lines_of(path, text))]
        if path.endswith(OF_CRATES):
            found += faults_of_names(path, text)
        return "\n    ".join(f"{path}:{number}: {term}: say {say}" for number, term, say in found) or None


def main():
    reader(__doc__, program=None, has_checks=False).parse_args()
    return Report().add_all((it, faults_of_file(it)) for it in files())
