"""What the tools know of the repository and of the toolchain: the crates, what each uses, and the kit's folder."""
import os
import re
import shutil
import subprocess
import sys

TOP = os.path.dirname(os.path.dirname(os.path.abspath(__file__)))
# The benchmark programs, over synthetic banks, and what makes these. posts and check of tools/benchmarks prove them.
BENCHES = ("bench_bank", "bench_check", "bench_posts")
# The bank program, and the one that serves the sample in a store of one's choice, which tools/toolchain/stores-program builds.
BANK_PROGRAM = "bank_cli"
ROWS_OVER = "test_stores"
# These two, as tools/build leaves them.
PROGRAM, OVER = (os.path.join(TOP, "crates", it, "out", it) for it in (BANK_PROGRAM, ROWS_OVER))
# What rt ci says of a crate that is proved.
PROVED = re.compile(rb"rt: (\w+) (?:proved$|is kept: )")


def are_built(*programs: str) -> bool:
    """Whether these programs are there. Says of each that is not."""
    missing = [it for it in programs if not os.path.isfile(it)]
    for it in missing:
        print(f"{os.path.basename(sys.argv[0])}: there is no program {it}: tools/build builds it")
    return not missing


def dependencies():
    """The libraries that the line of each crate names, the kit's among them, by the crate's name."""
    uses = {}
    with open(os.path.join(TOP, "crates.txt"), encoding="utf-8") as file:
        for line in file:
            head, colon, names = line.partition("#")[0].partition(":")
            if colon:
                uses[head.split()[0]] = names.split()
    return uses


def below(uses, names):
    """These crates and all that they stand on, each after those that it uses; the kit's libraries are left out."""
    order = []

    def visit(crate):
        if crate in uses and crate not in order:
            for used in uses[crate]:
                visit(used)
            order.append(crate)

    for name in names:
        visit(name)
    return order


def tests_to_run(uses):
    """The crates of tests alone that tools/toolchain/unit-tests runs, and what they share. CI does not prove them."""
    return [it for it in uses if it.startswith("test_") and it != ROWS_OVER]


def shared_by_tests(uses):
    """Those of them that have no tests, and that others of them use."""
    used = {word for words in uses.values() for word in words}
    return [it for it in tests_to_run(uses) if it in used]


def copy_crates(folder, names):
    """Copies the repository with these crates alone, and without the mutants that their contracts have to refuse, into a
    folder that isn't there yet."""
    def left_out(within, found):
        of_crates = set(found) - set(names) if within == os.path.join(TOP, "crates") else set()
        return of_crates | {".git", "out", "must-fail"}

    shutil.copytree(TOP, folder, ignore=left_out)
    crates = os.path.join(folder, "crates.txt")
    with open(crates, encoding="utf-8") as file:
        lines = file.readlines()
    with open(crates, "w", encoding="utf-8") as file:
        file.writelines(it for it in lines if ":" not in it.partition("#")[0] or it.partition(":")[0] in names)


def source_of(crate):
    """The first file of a crate's source."""
    program, library = (os.path.join(TOP, "crates", crate, "src", it) for it in ("main.rt", "lib.rt"))
    return program if os.path.isfile(program) else library


def check_arguments(uses, crate, source, libraries, home):
    """The arguments of the prover's check of a crate that begins with this file. FOLDER/crates/NAME of the libraries has each
    crate below it, built; those of the benches, which CI does not build, are read as they stand, and may use what is
    passed to the crate."""
    built = {it: f"{libraries}/crates/{it}/out/rlib" for it in below(uses, [crate]) if it not in (crate, *BENCHES)}
    words = ["--crate-name", crate, source]
    read = [it for it in below(uses, [crate]) if it in BENCHES]
    for it in dict.fromkeys(["std", *uses[crate], *(used for name in read for used in uses[name])]):
        if it in BENCHES:
            words += ["--lib", f"{it}={source_of(it)}"]
        else:
            words += ["--extern", f"{it}={built[it]}/{it}.rlib" if it in built else f"{it}={home}/rlibs/{it}.rlib"]
    for it in [f"{home}/rlibs", *built.values()]:
        words += ["-L", f"dependency={it}"]
    return [*words, "--antt-project", f"{home}/rattle/logic/antt-project.json", "--logic-built", f"{home}/logic_built"]


def kit():
    """The folder of the toolchain's kit."""
    ran = subprocess.run(["rt", "doc"], cwd=TOP, stdin=subprocess.DEVNULL, stdout=subprocess.PIPE, check=True)
    return os.path.dirname(ran.stdout.decode().strip())
