"""Runs the tests of the crates that hold tests alone, with no proof of them.

    tools/toolchain/unit-tests [--anew] [CRATE ..]

These are the crates test_.. that no other uses, but for the program test_stores: what they ask of the crates below is said by
running them. Proving such a crate shows that no test stops on its own account, by an overflow or an index, and needs some
five times as long as compiling it with checks of these and running it, which is done here; `rt check --test` in the crate's
folder proves it. What CI would say of the layout of their files is said here, too. Compiling takes long for all that
the tests call, and little for the tests themselves. So they are compiled as one program: a crate that is made for this has
each of theirs as a module. `rt try` has its compiler optimize nothing, by which one test of a bank in a file runs for a
quarter of an hour; so it is run from a copy of the toolchain, of links, whose compiler optimizes, and keeps all checks. The
program is kept for later runs (kept.py), which run its tests as rt try does, unless a source of it has changed; with --anew
it is compiled anew.
"""
import glob
import os
import re
import shutil
import tempfile

from checks import Report, reader
from repository import TOP, below, kit, shared_by_tests, tests_to_run, dependencies
from toolchain.kept import Kept, sum_of, sum_of_files, sum_of_kit, sum_of_tools
from toolchain.program import layout_of, output_of

# How many seconds a run of all tests is given. CI has it beside the proofs, on the time of the processor that they leave.
SECONDS = 14_400
# The crate that has all tests.
WHOLE = "unit_tests"
# What is a file in the copy of the toolchain, and no link: `rt` finds the rest beside itself.
OWN_FILES = ("bin/rt", "bin/rtlib.py")
# What stands there in place of a program of the toolchain, whose folder is HOME. Of several levels the compiler takes the last.
# (It goes on watching each access to memory: these tests are not proved, and `rt try` stops at only some of the calls that break a
# `requires`. Smaller functions are put in place of their calls than it would choose: compiling gains more than the tests lose.)
COMPILER = 'exec "HOME/toolchain/bin/clang" "$@" -O1 -mllvm -inline-threshold=75'
# `rt try` asks the prover for a hint alone, and has it go on for as long as the tests run.
PROVER = "exit 2"
# The linker leaves the program in LINKED, too, if it can.
LINKER = '"HOME/toolchain/bin/ld.lld" "$@" && { cp program "LINKED" 2>/dev/null || true; }'
OWN_PROGRAMS = {"toolchain/bin/clang": COMPILER, "toolchain/bin/ld.lld": LINKER, "bin/rattle": PROVER}
# What the program is made from, the files of tools/ by which it is, and the most bytes that are kept.
SOURCES, MOST_KEPT = ("crates.txt", "HANDLES", "crates/*/src/**"), 500_000_000
TOOLS = ("toolchain/unit_tests.py", "toolchain/program.py", "repository.py")
TEST = re.compile(r"^test (\w+)::(\S+) \.\.\. (\w+)", re.M)
RESULT = re.compile(r"^test result: \w+\. (\d+) passed; (\d+) failed; 0 ignored; 0 filtered out$", re.M)


def sources_of(name):
    """The files of a crate's source."""
    return sorted(glob.glob(os.path.join(TOP, "crates", name, "src", "**", "*.rt"), recursive=True))


def add_module(name, folder):
    """Adds the source of a crate to another, as a module of this name."""
    source = os.path.join(TOP, "crates", name, "src")
    for path in sources_of(name):
        with open(path, encoding="utf-8") as file:
            text = re.sub(r"\bcrate::", f"crate::{name}::", file.read())
        to = os.path.join(folder, name, os.path.relpath(path, source))
        if path == os.path.join(source, "lib.rt"):
            to, text = os.path.join(folder, name, "mod.rt"), re.sub(r"^#!\[.*\n", "", text, flags=re.M)
        os.makedirs(os.path.dirname(to), exist_ok=True)
        with open(to, "w", encoding="utf-8") as file:
            file.write(text)


def make_whole(names, room):
    """Makes a repository in a folder that has the crates below these and one with the tests of all, and returns its folder."""
    uses = dependencies()
    for it in below(uses, names):
        if it not in names:
            left_out = shutil.ignore_patterns("out", "must-fail")
            shutil.copytree(os.path.join(TOP, "crates", it), os.path.join(room, "crates", it), ignore=left_out)
    folder = os.path.join(room, "crates", WHOLE)
    for it in names:
        add_module(it, os.path.join(folder, "src"))
    used = list(dict.fromkeys(word for it in names for word in uses[it]))
    with open(os.path.join(room, "crates.txt"), "w", encoding="utf-8") as file:
        file.writelines(f"{it}: {' '.join(uses[it])}\n" for it in below(uses, names) if it not in names)
        file.write(f"{WHOLE}: {' '.join(used)}\n")
    with open(os.path.join(folder, "src", "lib.rt"), "w", encoding="utf-8") as file:
        file.write("#![tactic(auto)]\n\n")
        file.writelines(f"#[cfg(test)]\nmod {it};\n" for it in names)
    shutil.copy2(os.path.join(TOP, "HANDLES"), room)
    return folder


def link_folder(folder, to, but):
    """Makes a folder anew, of links, but for these files, by their paths in it, and the folders that have them."""
    os.makedirs(to)
    for it in os.listdir(folder):
        inside = [path.partition("/")[2] for path in but if path.partition("/")[0] == it]
        if not inside:
            os.symlink(f"{folder}/{it}", f"{to}/{it}")
        elif all(inside):
            link_folder(f"{folder}/{it}", f"{to}/{it}", inside)


def optimizing_kit(to, linked_to):
    """Makes the toolchain anew in a folder, of links, but with programs of its own, which leave what is linked in this file, and
    returns the folder."""
    home = kit()
    link_folder(home, to, [*OWN_FILES, *OWN_PROGRAMS])
    for it in OWN_FILES:
        shutil.copy2(f"{home}/{it}", f"{to}/{it}")
    for it, text in OWN_PROGRAMS.items():
        with open(f"{to}/{it}", "w", encoding="utf-8") as file:
            file.write(f"#!/bin/sh\n{text.replace('HOME', home).replace('LINKED', linked_to)}\n")
        os.chmod(f"{to}/{it}", 0o755)
    return to


def compile_and_run(folder, room, kept, name):
    """Compiles the crate with all tests and runs them, and returns the exit status of rt try and what it says. The program is
    kept under this name if all passed."""
    made = os.path.join(room, "program")
    rt = os.path.join(optimizing_kit(os.path.join(room, "kit"), made), "bin", "rt")
    status, text = output_of([rt, "try", "--test", "--seconds", str(SECONDS)], folder)
    if not status and RESULT.search(text) and os.path.isfile(made):
        with open(made, "rb") as file:
            kept.put(name, file.read())
        kept.shrink(MOST_KEPT)
    return status, text


def run_alone(word, program, room, libraries):
    """Runs a program with an argument in a folder of its own, with no environment and these libraries, as rt try does, and
    returns its exit status and what it says."""
    command = [f"{libraries}/ld-linux-x86-64.so.2", "--inhibit-cache", "--library-path", libraries, "./program", word]
    with tempfile.TemporaryDirectory(prefix="test-", dir=room) as folder:
        os.link(program, os.path.join(folder, "program"))
        return output_of(["timeout", "--signal=KILL", str(SECONDS), "env", "-i", *command], folder)


def run_again(program, room):
    """Runs the tests of a program that an earlier run compiled, each by itself, and returns what compiled_and_run does."""
    file, libraries = os.path.join(room, "program"), os.path.join(kit(), "toolchain", "lib")
    with open(file, "wb") as made:
        made.write(program)
    os.chmod(file, 0o755)
    lines, counts = [], {"ok": 0, "FAILED": 0}
    for name in re.findall(r"^(\S+): test$", run_alone("--list", file, room, libraries)[1], re.M):
        status, text = run_alone(name, file, room, libraries)
        end = "FAILED" if status else "ok"
        counts[end] += 1
        lines += [text.rstrip("\n")] * bool(status) + [f"test {name} ... {end}"]
    lines.append(f"test result: kept. {counts['ok']} passed; {counts['FAILED']} failed; 0 ignored; 0 filtered out")
    return int(counts["FAILED"] > 0), "\n".join(lines)


def run_tests(names, is_anew):
    """Runs the tests of these crates, and returns how many of each passed, how many failed, and what is to be printed of them."""
    with tempfile.TemporaryDirectory(prefix="unit-tests-") as room:
        repository, kept = os.path.join(room, "repository"), Kept("unit-tests", is_anew)
        folder = make_whole(names, repository)
        name = sum_of(sum_of_kit(kit()), sum_of_tools(TOOLS), sum_of_files(repository, *SOURCES))
        program = kept.get(name)
        status, text = run_again(program, room) if program else compile_and_run(folder, room, kept, name)
    result, tests = RESULT.search(text), TEST.findall(text)
    if not result or not tests or int(result[1]) + int(result[2]) != len(tests):
        return dict.fromkeys(names, (0, 1)), text.rstrip("\n").split("\n")[-20:]
    counts = {}
    for it in names:
        ends = [end for crate, _, end in tests if crate == it]
        good = ends.count("ok")
        # (a crate with no test, or whose status is printed otherwise, is none that passed)
        counts[it] = (good, len(ends) - good or int(not ends))
    failed = sum(bad for _, bad in counts.values())
    if status and not failed:
        counts[names[0]] = (counts[names[0]][0], 1)
    return counts, text.rstrip("\n").split("\n")[-60:] if status or failed else []


def main():
    uses = dependencies()
    shared = shared_by_tests(uses)
    arguments = reader(__doc__, program=None, has_checks=False)
    arguments.add_argument("--anew", action="store_true", help="compile the tests, also if an earlier run did")
    arguments.add_argument("crates", metavar="CRATE", nargs="*")
    given = arguments.parse_args()
    names = given.crates or [it for it in tests_to_run(uses) if it not in shared]
    counts, lines = run_tests(names, given.anew)
    for name in [*names, *(it for it in below(uses, names) if it in shared)]:
        status, text = output_of(layout_of(name))
        good, bad = counts.get(name, (0, 0))
        counts[name] = (good, bad + bool(status))
        lines += text.rstrip("\n").split("\n") if status else []
    for line in lines:
        print(line, flush=True)
    for name, (good, bad) in counts.items():
        if good or bad:
            print(f"{name}: {good} tests passed, {bad} failed", flush=True)
    report = Report()
    report.passed, report.failed = (sum(it) for it in zip(*counts.values()))
    return report.end()
