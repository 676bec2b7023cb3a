"""Tries the mutants that the contracts have to refuse, many in one check.

    tools/toolchain/mutants [--libraries FOLDER] [--anew] [--seed SEED] [--as-proved | [--unchanged] CRATE ..]

crates/NAME/must-fail/MUTANT.edit is a mutant. `rt ci` and `rt must-fail` try them one by one, with a check of
the crate for each. Here the mutants of a crate that change the bodies of different functions, and nothing else, are
made together: a function is proved from the contracts of those that it calls and never from their bodies, so what the
prover says of one is what it would say of it alone. Of several mutants in one function each further one is made in a copy
of it, which has its contract and its proof files, and a name of its own. That can't be done with functions of a trait, nor
with what changes more than bodies, as a definition: such a mutant is made in a copy of the crate, under another name; where
it is no mutant in bodies, it says in a line '# refused by: FUNCTION' which function is to be looked at. The copies of several
crates are passed as source to one that is empty, over the libraries that the crates use, and checked at once; of a crate that
is passed so, the prover does not print what it would offer for each open goal.

What the changed functions call, and has no mutant, is given an empty body and an open proof, as rt ci has proved it. A
mutant counts as refused where a goal of its function is not proved, which the prover tries over the contracts of what the
function calls, or where the function is not proved although all that it calls is; that a proof file names a goal which the
mutant took away is no refusal. Where a line '# refused at: GOAL' names a goal of the function, that one alone is tried, by the
tactics with which the prover tries each, or by the answer that a proof file has for it; so it has to be refused there. A
mutant that is not refused with others is tried with fewer, and alone before it is reported; where it names no function, the whole
crate is checked.

FOLDER has the crates with their libraries built, as rt ci leaves them; without it they are proved first, where that is
due. With --as-proved this runs beside rt ci: a line of standard input names each crate that rt ci has proved, whose mutants
are tried from then on, and the mutants of a crate that no line names count as let through. The last line is
'N passed, M failed'; the exit status is 1 where M is not 0.

That a mutant was refused, and where, is kept for later runs (kept.py), under a checksum of all that this hangs on: the crate,
the libraries below it, the mutant, the tool and the kit. A later run takes it from there, but tries a random tenth
of the mutants so kept anew, by a seed that it prints: one that is let through then shows that something is missing in
the checksum, and fails. Nothing is kept of a mutant that was let through. --anew tries all.

With --unchanged the same checks are made, of copies of the same functions and crates, with none of the mutants in them: what
is refused then is refused by the way in which it is tried, and fails. Nothing is kept of these.
"""
import argparse
import glob
import os
import queue
import random
import re
import signal
import subprocess
import sys
import tempfile
import time
from collections import Counter
from concurrent.futures import ThreadPoolExecutor
from typing import NamedTuple


from repository import TOP, kit, dependencies, check_arguments
from toolchain.kept import Kept, sum_below, sum_of, sum_of_kit, sum_of_tools
from toolchain.rattle_source import calls_in, changed_functions, copied, emptied, functions as functions_in, homes_of, reached

PARTS = ("src", "specs", "proofs")
# The empty crate to which the crates with mutants are passed as source.
READER = "reads_mistakes"
# So many mutants at most are made in one check, where they are those of several crates.
MOST_MUTANTS = 48
# The files of tools/ by which a mutant is tried; the share of those kept as refused that is tried anew; and the most bytes kept.
TOOLS, SHARE, MOST_KEPT = ("toolchain/mutants.py", "toolchain/rattle_source.py", "repository.py"), 0.1, 200_000_000
# The exit status of a check that refuses something, and of one in which the prover met a limit and refused nothing.
REFUSED, AT_A_LIMIT = 1, 3
# The bytes of memory that a check takes at most. One that is killed is made once more after each of these pauses, in seconds.
ROOM, PAUSES = 4_000_000_000, (0, 60, 300)
# What the prover tries where a goal has no answer in a proof file, as an answer for one goal alone.
TRIED = """use Rattle.std.proofs.Common.{{arith, rules}}
use Rattle.std.proofs.lemmas.Grind.{{common_steps, elements}}
use Rattle.{crate}.proofs.{path}.Goals as goal

pub {goal} : goal.{goal}
{goal} c = first_of (
    search rules, grind (arith, common_steps) steps 2000000, grind (arith, elements) steps 2000000,
    grind (arith, common_steps) steps 4000000)
"""
# A proof that is left open.
OPEN_PROOF = """use Rattle.{crate}.proofs.{path}.Statement.{{statement}}

pub {name}_spec : {{M : Type 1}} → statement M
{name}_spec 𝓤 𝓛 𝓜 𝓡 w = ?
"""
FUNCTION = re.compile(r"^fn (\w+)::(\S+): (proved|no holes|depends on a hole|not proved|no proof|could not tell)(.*)", re.M)
CALLS = re.compile(r"it (?:calls|passes) .*?(?: which is not proved| which are not proved)")
# A goal of a function's own, over the contracts of what it calls as they are written, proved or not: one that has no
# proof file, or one at which a proof file is reported as wrong.
SEARCHED = re.compile(r"`search` did not prove `")
WRITTEN = re.compile(r"^\S*?proofs/(\S+)/\w+\.antt:\S+ error: `([^`]+)`: (.*)", re.M)
# What is reported of a proof file that names a goal which the mutant took away: that alone is no refusal.
# (A long line ends after the module.)
NAMED_AWAY = re.compile(r"`[^`]+`: module `[^`]+`(?: has no `|$)")
# A goal that is left open, where the code stands from which it comes.
OPEN_AT = re.compile(r"^note: (src/\S+?):(\d+):\d+: it is not proved ", re.M)


class Mutant(NamedTuple):
    """A mutant: the texts that it changes, by the files' paths, and the functions that are to be looked at: those whose
    bodies it changes, where it changes nothing else, or else those that it names; and the goal of the function that it names, if
    any. Where it is made in a copy of a function, `copy_of` is the name of that function, and the copy is looked at."""

    name: str
    pairs: tuple
    functions: frozenset
    changes_bodies_alone: bool
    goal: str = ""
    copy_of: str = ""


class Outcome(NamedTuple):
    """What a check said of a crate: of each function, and in the lines on its files, and where each function stands: its
    file and its first and last line. `whole` is all that the check said, and `status` its exit status."""

    status: int
    said: dict
    text: str
    places: dict
    whole: str


def read_mutant(file):
    """The changes of a mutant, each the path of a file, the text that stands in it once, and what stands there then; the functions
    that it names; and the goal that it names, if any. A ValueError says if it has another line, or names two goals."""
    pairs, named, goals, path, old = [], [], [], "", ""
    with open(file, encoding="utf-8") as it:
        for line in it.read().split("\n"):
            mark, _, text = line.partition(":")
            text = text.removeprefix(" ")
            if mark == "file":
                path = text.strip()
            elif mark == "# refused by":
                named.append(text.strip())
            elif mark == "# refused at":
                goals.append(text.strip())
            elif mark == "old":
                old = text
            elif mark == "new" and path and old:
                pairs.append((path, old, text))
                old = ""
            elif line.strip():
                raise ValueError(f"{file}: this line is not one of a mutant, or not in its place: {line}")
    if len(goals) > 1:
        raise ValueError(f"{file}: it names several goals: {', '.join(goals)}")
    return tuple(pairs), frozenset(named), "".join(goals)


def answers_to(text, goal):
    """What is left of an Answers.antt without the answers that the one to this goal does not name: nothing, where it has none."""
    answers, needed = set(re.findall(r"^pub (\S+) :", text, re.M)), {goal}
    items = [(it.removeprefix("pub ").partition(" ")[0], it) for it in re.split(r"\n(?=[^\s)}\]])(?!unfolding )", text.rstrip("\n"))]
    while goal in answers:
        kept = [it for name, it in items if name not in answers or name in needed]
        named = answers.intersection(re.findall(r"[^\s(){},;.]+", "\n".join(kept)))
        if named <= needed:
            return "\n".join([*kept, ""])
        needed |= named
    return ""


def made(texts, mutants, homes):
    """The texts after these mutants, or none where a text to be changed does not stand there once, or can't be copied."""
    after = dict(texts)
    for path, old, new in (pair for it in mutants if not it.copy_of for pair in it.pairs):
        if after.get(path, "").count(old) != 1:
            return None
        after[path] = after[path].replace(old, new)
    for it in mutants:
        if it.copy_of:
            after = with_copy(texts, after, it, homes)
            if after is None:
                return None
    return after


def with_copy(texts, after, mutant, homes):
    """The texts `after`, with the copy of a function in which this mutant is made, and with the proof files of the function
    for the copy."""
    (name,), paths = mutant.functions, {path for path, _, _ in mutant.pairs}
    if len(paths) != 1:
        return None
    (path,), changes = paths, [(old, new) for _, old, new in mutant.pairs]
    try:
        text = copied(texts[path], after[path], path, homes, mutant.copy_of, name.split("::")[-1], changes)
    except (ValueError, IndexError, KeyError):
        return None
    old, new = folder_of(mutant.copy_of), folder_of(name)
    proofs = {new + it[len(old) :]: text for it, text in texts.items() if it.startswith(f"{old}/")}
    module = lambda folder: folder.replace("/", ".") + "."
    proofs = {it: text.replace(module(old), module(new)) for it, text in proofs.items()}
    return None if text is None else {**after, path: text, **proofs}


class Crate:
    """A crate with its mutants."""

    def __init__(self, name):
        self.name, self.folder = name, os.path.join(TOP, "crates", name)
        self.texts = {}
        for part in PARTS:
            for at, _, names in os.walk(os.path.join(self.folder, part)):
                for it in names:
                    path = os.path.join(at, it)
                    with open(path, encoding="utf-8") as file:
                        self.texts[os.path.relpath(path, self.folder)] = file.read()
        if "src/main.rt" in self.texts:
            # a program is checked as a library: its `main` is one function more
            self.texts["src/lib.rt"] = self.texts.pop("src/main.rt")
        sources = {path: it for path, it in self.texts.items() if path.startswith("src/")}
        self.homes = homes_of(sources)
        self.calls = calls_in(sources, self.homes)
        files = sorted(glob.glob(os.path.join(self.folder, "must-fail", "*.edit")))
        self.mutants = [self.mutant_of(it) for it in files]

    def mutant_of(self, file):
        """Reads a mutant, and finds the functions whose bodies it changes."""
        name = os.path.basename(file).removesuffix(".edit")
        pairs, named, goal = read_mutant(file)
        mutant, found = Mutant(name, pairs, named, False, goal), set()
        after = made(self.texts, [mutant], self.homes)
        for path in {path for path, _, _ in pairs} if after else ():
            inside = path.startswith("src/")
            changed = changed_functions(self.texts[path], after[path], path, self.homes) if inside else None
            if not changed:
                return mutant
            found |= changed
        return Mutant(name, pairs, frozenset(found), bool(found), goal)

    def made(self, mutants):
        """The texts of the crate with these mutants."""
        return made(self.texts, mutants, self.homes)

    def in_a_copy(self, mutant, number):
        """The mutant in a copy of its function, or none where it can't be made there."""
        if len(mutant.functions) != 1:
            return None
        (name,) = mutant.functions
        copy = mutant._replace(functions=frozenset({f"{name}_{number}"}), copy_of=name)
        return None if self.made([copy]) is None else copy

    def together(self, mutants):
        """As many of the mutants as can be made at once: the first in each function, and each further one in a copy of it."""
        chosen, taken = [], set()
        for it in mutants:
            if it.functions & taken:
                it = self.in_a_copy(it, len(chosen))
            if it:
                chosen.append(it)
                taken |= it.functions
        return chosen

    def places(self, texts):
        """Where each function stands in these texts: its file, its first line and its last."""
        found = {}
        for path in (it for it in texts if it.startswith("src/")):
            line = lambda at, text=texts[path]: text.count("\n", 0, at) + 1
            for it in functions_in(texts[path], path, self.homes):
                found[it.name] = path, line(it.head), line(it.end)
        return found

    def bare(self, texts, edited):
        """The texts with no body and an open proof for each function that these may call and that is none of them."""
        others = reached(self.calls, edited) - edited
        after = dict(texts)
        for path in (it for it in texts if it.startswith("src/")):
            after[path] = emptied(texts[path], path, self.homes, others)
        for name in others:
            folder, own = folder_of(name), name.split("::")[-1]
            after = {path: text for path, text in after.items() if os.path.dirname(path) != folder}
            after[f"{folder}/Proof.antt"] = OPEN_PROOF.format(crate=self.name, path=name.replace("::", "."), name=own)
        return after

    def narrowed(self, texts, name, goal):
        """The texts with no tactic for the goals of this function but the one: a goal that has no answer in its proof files is
        left open, and this one, where it has none, has what the prover tries."""
        path, line, _ = self.places(texts)[name]
        lines, answers = texts[path].split("\n"), f"{folder_of(name)}/Answers.antt"
        lines.insert(line - 1, "#[tactic(none)]")
        after = {**texts, path: "\n".join(lines)}
        tried = TRIED.format(crate=self.name, path=name.replace("::", "."), goal=goal)
        after[answers] = answers_to(texts.get(answers, ""), goal) or tried
        return after


class Trial(NamedTuple):
    """Mutants of a crate that are made at once, in a copy of it with this name, and the functions to be looked at: none means
    all."""

    crate: Crate
    name: str
    mutants: tuple
    functions: frozenset

    def texts(self, is_bare):
        """The copy of the crate with these mutants; where it `is_bare`, what the functions call has no body."""
        texts = self.crate.made(self.mutants)
        texts = self.crate.bare(texts, self.functions) if is_bare else texts
        for it in self.mutants:
            for name in it.functions if it.goal else ():
                texts = self.crate.narrowed(texts, name, it.goal)
        texts = {path: re.sub(rf"\bRattle\.{self.crate.name}\b", f"Rattle.{self.name}", it) for path, it in texts.items()}
        if f"src/{self.crate.name}.rt" in texts:
            # (a module that has the name of a crate, which others of the check may use)
            own = rf"\buse {self.crate.name}::"
            texts["src/lib.rt"] = re.sub(own, f"use crate::{self.crate.name}::", texts["src/lib.rt"])
        return texts

    def outcome(self, texts, status, whole):
        """What a check of the copy with these texts, which ended so and said this, said of it."""
        said = {name: (word, why) for crate, name, word, why in FUNCTION.findall(whole) if crate == self.name}
        lines = re.findall(rf"^(note: )?{self.name}/(.*)$", whole, re.M)
        return Outcome(status, said, "\n".join(note + line for note, line in lines), self.crate.places(texts), whole)


def trial_of(crate, mutants, number=0):
    """These mutants of a crate, made at once; a copy of the crate that is not alone in its check has a number."""
    name = f"{crate.name}_{number}" if number else crate.name
    return Trial(crate, name, tuple(mutants), frozenset().union(*(it.functions for it in mutants)))


def trials_of(crate):
    """All mutants of a crate, in as few copies of it as can be: a copy for each that changes more than bodies."""
    groups, left = [], [it for it in crate.mutants if it.changes_bodies_alone]
    while left:
        groups.append(crate.together(left))
        chosen = {it.name for it in groups[-1]}
        left = [it for it in left if it.name not in chosen]
    groups += [[it] for it in crate.mutants if not it.changes_bodies_alone and it.functions]
    return [trial_of(crate, it, number) for number, it in enumerate(groups, 1) if crate.made(it)]


class Batch:
    """Crates whose mutants are tried together as far as they can be. `keys` has the name under which it is kept that a mutant was
    refused, `known` what is taken of earlier runs, and `again` the mutants that are kept as refused and tried anew."""

    def __init__(self, crates, uses, libraries, home):
        self.crates = crates
        self.uses, self.libraries, self.home = uses, libraries, home
        self.checks, self.seconds = 0, 0.0
        self.keys, self.known, self.again = {}, {}, set()

    def size(self):
        """How many mutants its crates have."""
        return sum(len(it.mutants) for it in self.crates)

    def names(self):
        """The names of its crates."""
        return ", ".join(it.name for it in self.crates)

    def reads(self, trials):
        """The arguments of the prover's check of the empty crate to which the copies of these trials are passed as source."""
        used = [*dict.fromkeys(it for trial in trials for it in self.uses[trial.crate.name])]
        words = check_arguments({**self.uses, READER: used}, READER, "src/lib.rt", self.libraries, self.home)
        return words + [word for it in trials for word in ("--lib", f"{it.name}={it.name}/src/lib.rt")]

    def run(self, texts, words):
        """Runs the prover's check with these arguments over crates of these texts, and returns its exit status and what it said."""
        files = {f"{name}/{path}": text for name, it in texts.items() for path, text in it.items()}
        with tempfile.TemporaryDirectory(prefix="mistakes-") as room:
            for path, text in {"src/lib.rt": "#![tactic(auto)]\n", **files}.items():
                os.makedirs(os.path.dirname(f"{room}/{path}"), exist_ok=True)
                with open(f"{room}/{path}", "w", encoding="utf-8") as file:
                    file.write(text)
            how = {"cwd": room, "stdin": subprocess.DEVNULL, "stdout": subprocess.PIPE, "stderr": subprocess.STDOUT}
            with subprocess.Popen(["rattle", "check", *words, "--jobs", "1"], **how) as ran:
                said = ran.stdout.read().decode(errors="replace")
                _, status, used = os.wait4(ran.pid, 0)
                ran.returncode = os.waitstatus_to_exitcode(status)
        self.checks, self.seconds = self.checks + 1, self.seconds + used.ru_utime + used.ru_stime
        return ran.returncode, said

    def check(self, trials, kept=None, is_bare=False):
        """Checks the functions of these trials and what they call, and returns what was said of each crate. Where `kept` is a
        folder, the check keeps its work there for the next, and begins with what is there."""
        texts = {it.name: it.texts(is_bare) for it in trials}
        only = [word for it in trials for name in sorted(it.functions) for word in ("--only", f"{it.name}::{name}")]
        words = self.reads(trials) + only + ["--allow-holes"] * is_bare + (["--incremental", kept] if kept else [])
        status, said = self.run(texts, words)
        for pause in PAUSES:
            if status == -signal.SIGKILL:
                # (most likely for memory, which others may give back meanwhile)
                time.sleep(pause)
                status, said = self.run(texts, words)
        if status == 2 and not is_bare and any(it.functions for it in trials):
            # (a name that the prover writes otherwise)
            return self.check([it._replace(functions=frozenset()) for it in trials], kept)
        return [it.outcome(texts[it.name], status, said) for it in trials]


def is_drawn(seed, crate, mutant):
    """Whether a mutant that is kept as refused is one of those that this seed has tried anew."""
    return random.Random(f"{seed} {crate}/{mutant}").random() < SHARE


class Earlier:
    """What earlier runs found: which mutants were refused, and where. Of these a random share is tried anew."""

    def __init__(self, kept, home, seed):
        self.kept, self.seed, self.counts = kept, seed, Counter()
        # (now, as this run goes by the files as they are: they may change before it ends)
        self.means = sum_of(sum_of_kit(home), sum_of_tools(TOOLS))

    def keys_of(self, batch):
        """The checksums of all that the verdicts on a batch's mutants hang on, by crate and mutant: none if a library below is not
        built."""
        keys = {}
        for crate in batch.crates:
            under = sum_below(batch.uses, crate.name, batch.libraries, batch.home)
            whole = under and sum_of(self.means, under, crate.name, sorted(crate.texts.items()))
            for it in crate.mutants:
                keys[crate.name, it.name] = whole and sum_of(whole, it.name, it.pairs, sorted(it.functions), it.goal)
        return keys

    def left_of(self, batch):
        """The batch with the mutants that are to be tried, once those that an earlier run refused are taken out."""
        batch.keys = self.keys_of(batch)
        found = {it: self.kept.get(key) for it, key in batch.keys.items()}
        refused = {it: why.decode() for it, why in found.items() if why is not None}
        batch.again = {it for it in refused if is_drawn(self.seed, *it)}
        for crate in batch.crates:
            of_crate = {name: why for (it, name), why in refused.items() if it == crate.name and (it, name) not in batch.again}
            batch.known[crate.name] = {name: (True, f"kept: {why}") for name, why in of_crate.items()}
            crate.mutants = [it for it in crate.mutants if it.name not in of_crate]
        self.counts.update(kept=len(refused) - len(batch.again), tried=batch.size(), anew=len(batch.again))
        return batch

    def settled(self, batch, told):
        """What is reported of a batch, as it was tried and as it is known: what was refused is kept, unless a library changed
        meanwhile."""
        keys = self.keys_of(batch)
        for crate, found in told.items():
            for name, (is_refused, why) in found.items():
                key = batch.keys[crate, name]
                if not is_refused:
                    self.kept.drop(key)
                    if (crate, name) in batch.again:
                        found[name] = False, f"{why} (an earlier run refused it, under the same checksum)"
                elif key == keys[crate, name]:
                    self.kept.put(key, why.encode())
        return {it.name: {**batch.known[it.name], **told[it.name]} for it in batch.crates}


def folder_of(function):
    """The folder of the proof files of a function."""
    return f"proofs/{function.replace('::', '/')}"


def told_of_files(outcome):
    """What is reported against the answers of proof files: the function and the goal of each, and whether it is more than that the
    file names a goal which a mutant took away."""
    # (the functions of a cycle of calls have one proof, in a folder whose name begins with a plus)
    told = ((it.replace("/", "::").replace("+", ""), goal, why) for it, goal, why in WRITTEN.findall(outcome.text))
    return [(it, goal, not NAMED_AWAY.match(why)) for it, goal, why in told]


def fails_by_itself(outcome, name):
    """Whether a goal of the function's own, or of a closure of it, is not proved, or it is not though all that it calls is."""
    told = told_of_files(outcome)
    written = {it for it, _, is_more in told if is_more}
    misnamed = {it for it, _, _ in told} - written
    for own, (word, why) in outcome.said.items():
        if (own == name or own.startswith(f"{name}::")) and word in ("not proved", "no proof"):
            if own in written or SEARCHED.search(why) or own in misnamed and has_open_goal(outcome, own):
                return True
            if word == "not proved" and own not in misnamed and not CALLS.search(why):
                return True
    return False


def has_open_goal(outcome, name):
    """Whether a goal of the function's code is left open."""
    path, first, last = outcome.places.get(name, ("", 0, 0))
    return any(at == path and first <= int(line) <= last for at, line in OPEN_AT.findall(outcome.text))


def is_refused(outcome, mutant, name):
    """Whether this function refuses a mutant: at the goal that it names, or else at any goal of its own."""
    return (name, mutant.goal, True) in told_of_files(outcome) if mutant.goal else fails_by_itself(outcome, name)


def is_told(outcome, name):
    """Whether the check said anything of a function."""
    return any(own == name or own.startswith(f"{name}::") for own in outcome.said)


def why_of(outcome, name):
    """What the prover said against a function."""
    word, why = next((outcome.said[it] for it in outcome.said if it == name or it.startswith(f"{name}::")), ("", ""))
    goal = re.search(r"`search` did not prove `([^`]*)`", why)
    error = re.search(rf"^\S*proofs/{re.escape(name.replace('::', '/'))}/\S+ error: (.*)", outcome.text, re.M)
    return f"{name}: {word}: {goal[1] if goal else error[1][:100] if error else why.strip(' :')[:100]}"


def judge(trial, outcome):
    """Which mutants of a trial are refused, each with what was said against it, and the rest; or none where the check says
    nothing of them."""
    names = trial.functions
    clean = [it for it in outcome.said if not any(it == name or it.startswith(f"{name}::") for name in names)]
    if outcome.status not in (REFUSED, AT_A_LIMIT) or not outcome.said or any(fails_by_itself(outcome, it) for it in clean):
        return None
    told, rest = {}, []
    for it in trial.mutants:
        by = [name for name in sorted(it.functions) if is_refused(outcome, it, name)]
        if by:
            told[it.name] = (True, why_of(outcome, by[0]))
        else:
            rest.append(it)
    return told, rest


def try_alone(batch, crate, mutant, kept):
    """Makes one mutant, and returns whether it is refused, and by what."""
    if crate.made([mutant]) is None or not mutant.pairs:
        return False, "BAD EDIT: a text to be changed does not stand in its file once"
    if mutant.goal:
        (outcome,) = batch.check([trial_of(crate, [mutant])], kept)
        by = [it for it in sorted(mutant.functions) if is_refused(outcome, mutant, it)]
        if by:
            return True, why_of(outcome, by[0])
    # (all goals, to see where it is refused if not there)
    (outcome,) = batch.check([trial_of(crate, [mutant._replace(goal="")])], kept)
    lines = outcome.whole.rstrip("\n").split("\n")
    if outcome.status == REFUSED and re.match(r"logic=not-proved|only=", lines[-1]):
        by = [it for it in outcome.said if fails_by_itself(outcome, it)]
        if not by:
            return False, "NOT REFUSED: a proof file names what the mistake took away, and no more is told against it"
        if mutant.goal:
            return False, f"NOT REFUSED at `{mutant.goal}`, but elsewhere: {why_of(outcome, by[0])}"
        return True, why_of(outcome, by[0])
    if outcome.status == 0:
        return False, "NOT REFUSED: the crate is still proved with this mistake"
    return False, "BAD EDIT: it did not reach the prover: " + " / ".join(lines[:3])[:400]


def try_crate(batch, crate, left):
    """Tries these mutants of a crate, and returns whether each was refused, and by what."""
    told, alone = {}, [it for it in left if not it.changes_bodies_alone]
    left = [it for it in left if it.changes_bodies_alone]
    with tempfile.TemporaryDirectory(prefix="mistakes-kept-") as kept:
        while left:
            trial, judged = trial_of(crate, crate.together(left)), None
            keeps = kept if alone or len(left) > len(trial.mutants) else None
            for is_bare in (True, False) if len(trial.mutants) > 1 and crate.made(trial.mutants) else ():
                judged = judged or judge(trial, *batch.check([trial], keeps, is_bare))
            refused, rest = judged or ({}, [])
            told |= refused
            tried = {it.name for it in trial.mutants}
            if not refused:
                # (one of them keeps the check from the others, or none is refused: each by itself)
                alone, rest = [*alone, *(it for it in crate.mutants if it.name in tried)], []
            again = {it.name for it in rest}
            left = [it for it in left if it.name not in tried or it.name in again]
        for it in alone:
            told[it.name] = try_alone(batch, crate, it, kept)
    return told


def try_batch(batch):
    """Tries the mutants of a batch, and returns of each, by crate, whether it was refused, and by what."""
    told = {it.name: {} for it in batch.crates}
    trials = [trial for it in batch.crates for trial in trials_of(it)]
    if trials:
        for trial, outcome in zip(trials, batch.check(trials, is_bare=True)):
            refused, _ = judge(trial, outcome) or ({}, [])
            told[trial.crate.name] |= refused
    for crate in batch.crates:
        left = [it for it in crate.mutants if it.name not in told[crate.name]]
        told[crate.name] |= try_crate(batch, crate, left)
    return told


def unchanged(crate, mutant):
    """A mutant that is made where this one is, and changes nothing."""
    # (a text that only a change before it puts there is left out)
    return mutant._replace(pairs=tuple((path, old, old) for path, old, _ in mutant.pairs if old in crate.texts[path]))


def try_unchanged(batch):
    """Makes none of the mutants of a batch where they are made otherwise, and returns of each, by crate, whether it is not
    refused then, and else by what."""
    why = False, "not tried: no text to be changed, or no function"
    told = {it.name: {mutant.name: why for mutant in it.mutants} for it in batch.crates}
    for crate in batch.crates:
        crate.mutants = [unchanged(crate, it) for it in crate.mutants]
    trials = [trial for it in batch.crates for trial in trials_of(it)]
    for trial, outcome in zip(trials, batch.check(trials, is_bare=True)):
        for it in trial.mutants:
            by = [name for name in sorted(it.functions) if is_refused(outcome, it, name) or not is_told(outcome, name)]
            told[trial.crate.name][it.name] = (not by, why_of(outcome, by[0]) if by else "")
    return told


def batches(crates):
    """The crates in lists that are tried together, each of at most `MOST_MUTANTS` mutants where it has several crates."""
    found, size = [], MOST_MUTANTS
    for it in crates:
        if size + len(it.mutants) > MOST_MUTANTS:
            found, size = [*found, []], 0
        found[-1].append(it)
        size += len(it.mutants)
    return found


def complete(left, names):
    """Takes each batch from these once all of its crates have been named."""
    named = set()
    for name in names:
        named.add(name)
        for it in [it for it in left if named.issuperset(crate.name for crate in it.crates)]:
            left.remove(it)
            yield it


def try_all(found, pool, how, earlier):
    """Tries the mutants of batches in this way as they come, but for what an earlier run refused, of those that wait the largest
    first, and gives each with what was reported."""
    waiting, trials = queue.PriorityQueue(), []

    def try_largest():
        batch = waiting.get()[-1]
        try:
            told = how(batch)
        except Exception as error:  # pylint: disable=broad-except
            # (the other batches are tried all the same)
            why = False, f"not tried: {type(error).__name__}: {error}"
            told = {it.name: {mutant.name: why for mutant in it.mutants} for it in batch.crates}
        return batch, earlier.settled(batch, told)

    for it in map(earlier.left_of, found):
        waiting.put((-it.size(), it.names(), it))
        trials.append(pool.submit(try_largest))
    return (it.result() for it in trials)


def tell(crate, told, passed):
    """Says of each mutant of a crate whether it passed, and what was said against it, and returns how many did."""
    for name, (is_passed, why) in sorted(told.items()):
        print(f"{crate.name}/{name}: {passed if is_passed else 'FAILED'}{': ' * bool(why)}{why}", flush=True)
    return sum(is_passed for is_passed, _ in told.values())


def lanes():
    """How many checks may run at once."""
    with open("/proc/meminfo", encoding="ascii") as file:
        free = 1024 * int(re.search(r"MemAvailable:\s+(\d+)", file.read())[1])
    return max(1, min(len(os.sched_getaffinity(0)), free // ROOM))


def is_proved(name):
    """Has rt check prove a crate of this repository, and build those below it, and prints what it says where that fails."""
    how = {"stdin": subprocess.DEVNULL, "stdout": subprocess.PIPE, "stderr": subprocess.STDOUT}
    ran = subprocess.run(["rt", "check"], cwd=os.path.join(TOP, "crates", name), check=False, **how)
    text = ran.stdout.decode(errors="replace")
    if ran.returncode or not re.search(r"^logic=proved\b", text, re.M):
        print(f"{text}mutants: {name} is not proved", file=sys.stderr)
        return False
    return True


def main():
    words = argparse.ArgumentParser(prog="mutants", description=__doc__, formatter_class=argparse.RawTextHelpFormatter)
    words.add_argument("--libraries", metavar="FOLDER", help="a copy of the repository whose crates are proved")
    words.add_argument("--as-proved", action="store_true", help="try the crates that lines of standard input name")
    words.add_argument("--unchanged", action="store_true", help="make none of the mistakes, where each is made otherwise")
    words.add_argument("--anew", action="store_true", help="try all, also those that an earlier run refused")
    words.add_argument("--seed", type=int, help="draw by this seed which of these are tried anew")
    words.add_argument("crates", metavar="CRATE", nargs="*")
    given, uses = words.parse_args(), dependencies()
    if given.as_proved and (given.crates or given.unchanged or not given.libraries):
        words.error("--as-proved wants --libraries, and neither crates nor --unchanged")
    names = given.crates or [it for it in uses if os.path.isdir(os.path.join(TOP, "crates", it, "must-fail"))]
    if not uses.keys() >= set(names):
        words.error(f"no such crate: {', '.join(sorted(set(names) - uses.keys()))}")
    names = [it for it in uses if it in names]
    if not given.libraries and not all(map(is_proved, names)):
        return 1
    libraries, home = os.path.abspath(given.libraries or TOP), kit()
    try:
        left = [Batch(it, uses, libraries, home) for it in batches([Crate(it) for it in names])]
    except ValueError as fault:
        print(f"mutants: {fault}", file=sys.stderr)
        return 1
    of_all, passed = sum(it.size() for it in left), 0
    print(f"mistakes: {of_all} in {len(names)} crates", flush=True)
    how, word = (try_unchanged, "not made, and not refused") if given.unchanged else (try_batch, "refused, as it must be")
    seed = random.randrange(1_000_000) if given.seed is None else given.seed
    earlier = Earlier(Kept(None if given.unchanged else "mutants", given.anew), home, seed)
    found = complete(left, map(str.strip, sys.stdin) if given.as_proved else names)
    with ThreadPoolExecutor(lanes()) as pool:
        for batch, told in try_all(found, pool, how, earlier):
            passed += sum(tell(it, told[it.name], word) for it in batch.crates)
            print(f"{batch.names()}: {batch.checks} checks, {batch.seconds:.0f} seconds of a core", flush=True)
    for it in left:
        print(f"{it.names()}: FAILED: not all of them were proved, so their {it.size()} mistakes were not tried", flush=True)
    earlier.kept.shrink(MOST_KEPT)
    print("kept: {kept}; tried: {tried}, of these {anew} anew".format_map(earlier.counts), f"(seed {seed})", flush=True)
    print(f"{passed} passed, {of_all - passed} failed", flush=True)
    return 1 if passed < of_all else 0
