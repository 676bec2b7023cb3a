"""Prints for each operation and each command, and for each rule that can deny it, the case of rows/ or the unit test that shows
this.

    tools/cases/coverage            prints the tables
    tools/cases/coverage --check    says only what is wrong, and counts

All is read from rows/. The head of a file names the rules in their order, and what a unit test shows in place of a case, or that
nothing does. A case says by `shows RULE` that this rule alone denies what it denies, and by `shows RULE before RULE` that both
would deny it, and that the first is reported. In a file whose head names no rules, a case says in plain words what it shows.

What "not certified" denies, "no triple" denies too, as a triple needs a relation; and what that denies, "limit" denies. So of
these, alone means that no rule after "limit" denies. "Release" is asked in place of "limit" where a release is named. "Slip" is
asked of every operation that writes, after "identity" and before all others. Where one rule alone denies, the case has the
request carried out, too; where two would deny, it has the denial by the first, and then that by the other. A unit test whose name
ends in `stand_in_order` begins with rows that several rules deny, and mends them one after another.

Each rule has to be shown alone, and before another one unless it is the last; a case has to hold a denial by the rule that it
shows; and each unit test has to be there. Each case is a check.
"""
import glob
import os
import re

from cases.suite import BadRow, Suite
from checks import Report, reader
from repository import TOP

CASE = re.compile(r"([a-z ]+?)(?: before ([a-z ]+))?(?:, (.+))?")
TEST = re.compile(r"#\[test\]\s+fn (\w+)\(")


class Case:
    """A case, and what shows it: a row, a test, or why there is none. Where rules are named, it is one of them that denies
    alone, or before another one."""

    def __init__(self, kind, text, name, has_rules):
        found = CASE.fullmatch(text)
        if has_rules and not found:
            raise BadRow(f"this is no case: {text}")
        self.rule, self.before, self.note = found.groups() if has_rules else (text, None, None)
        self.kind = kind
        self.name = name

    def cell(self):
        """What the table says of it."""
        said = {"row": f"`{self.name}`", "test": f"test `{self.name}`", "none": f"none: {self.name}"}[self.kind]
        return f"{said} ({self.note})" if self.note else said


def cases_of(subject):
    """The cases of a file, those of its rows first."""
    rows = [("row", text, row.name) for row in subject.rows for text in row.shows]
    tests_of = [(kind, text, name) for kind, text, names in subject.cases for name in named(kind, names)]
    return [Case(*it, bool(subject.rules)) for it in rows + tests_of]


def named(kind, text):
    """The tests that a line names, or why there is no such case."""
    return text.split(", ") if kind == "test" else [text]


def tests():
    """The names of all tests."""
    names = set()
    for path in glob.glob(os.path.join(TOP, "crates", "*", "src", "**", "*.rt"), recursive=True):
        with open(path, encoding="utf-8") as file:
            names.update(TEST.findall(file.read()))
    return names


def is_denied_by(row, rule):
    """Whether some reply of a row is a denial by a rule."""
    return any(b'{"name":"%s",' % rule.encode() in step.output for step in row.steps)


def fault_of(case, subject, suite, known):
    """What is wrong with a case, if anything."""
    rules = subject.rules
    if case.kind == "test" and case.name not in known:
        return f"there is no test {case.name}"
    if not rules:
        return None
    if case.rule not in rules or case.before and case.before not in rules[rules.index(case.rule) + 1:]:
        return f"no such case: {case.rule}" + (f" before {case.before}" if case.before else "")
    if case.kind == "row" and not is_denied_by(suite.row(case.name), case.rule):
        return f"{case.name} has no denial by the rule {case.rule}"
    return None


def faults(subject, cases, suite, known):
    """What is wrong with the cases of a file."""
    said = [it for it in (fault_of(case, subject, suite, known) for case in cases) if it]
    alone, before = ({it.rule for it in cases if bool(it.before) == is_before} for is_before in (False, True))
    said += [f"nothing shows that {it} alone denies" for it in subject.rules if it not in alone]
    said += [f"nothing shows {it} before another rule" for it in subject.rules[:-1] if it not in before]
    return [f"{subject.place}: {it}" for it in said]


def table(rules, cases):
    """The lines of a table of rules."""
    lines = ["| Rule | It alone denies | Before a later one |", "|---|---|---|"]
    for rule in rules:
        alone, before = (
            ", ".join(it.cell() for it in cases if it.rule == rule and bool(it.before) == is_before)
            for is_before in (False, True)
        )
        lines.append(f"| {rule} | {alone} | {before} |")
    return lines


def plain_table(cases):
    """The lines of a table of cases in plain words."""
    shown = {}
    for case in cases:
        shown.setdefault(case.rule, []).append(case.cell())
    return ["| Case | Shown by |", "|---|---|", *(f"| {text} | {', '.join(cells)} |" for text, cells in shown.items())]


def main():
    arguments = reader(__doc__, program=None, has_checks=False)
    arguments.add_argument("--check", action="store_true", help="print only what is wrong, and how many cases there are")
    given = arguments.parse_args()
    said, count = [], 0
    try:
        suite, known = Suite(), tests()
        for subject in suite.subjects:
            cases = cases_of(subject)
            count += len(cases)
            said += faults(subject, cases, suite, known)
            lines = table(subject.rules, cases) if subject.rules else plain_table(cases)
            if cases and not given.check:
                print("\n".join(["", f"## {subject.name}", "", *lines]))
    except (BadRow, ValueError) as why:
        said.append(str(why))
    if given.check:
        return Report().add_all([*((it, None) for it in range(count - len(said))), *(("a case", it) for it in said)])
    print("".join(f"FAILED {it}\n" for it in said), end="")
    return 1 if said else 0
