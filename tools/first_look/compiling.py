"""The bank program compiled from source by `rt try`, unproved, and kept under a checksum of all that it is made of.

rt try lowers every function of every library and has one process of clang compile them all. Here the linker compiles instead: it
drops the functions that nothing reaches, and compiles the rest on all processors. The checks that rt try inserts stay as they
are. The hint for which rt try runs the prover beside it is left out.
"""
import hashlib
import os
import shutil
import sys
import time
from collections.abc import Callable

from long_runs import BETWEEN, begun, has_rt, meanwhile, temporary_folder
from repository import BANK_PROGRAM, TOP, below, copy_crates, kit, dependencies
from toolchain.kept import sum_of_kit

# Only tools/try takes a program from here, and tools/test --quick one that takes longer to compile and is quicker. A new one
# replaces the others.
OUT = os.path.join(TOP, "crates", BANK_PROGRAM, "out")
FIRST, QUICK = "first-look", "quick"
# How long the compiled program may take to print its help.
SECONDS = 60
# What has to be a file in the copy of the toolchain, and not a link: rt finds the rest beside itself.
OWN_FILES = ("bin/rt", "bin/rtlib.py")
# rt try accepts nothing but an object from clang, so it is given an empty one, and the linker takes the module in its place.
COMPILER = """#!/bin/bash
set -eu
case " $* " in
*" -fsanitize=address "*)
    while [ "$1" != -o ]; do shift; done
    cp module.bc 'PROGRAM.bc'
    exec 'KIT/toolchain/bin/clang' -c -x assembler /dev/null -o "$2" ;;
esac
exec 'KIT/toolchain/bin/clang' "$@"
"""
LINKER = """#!/bin/bash
set -eu
arguments=("$@")
for i in "${!arguments[@]}"; do [ "${arguments[i]}" != input-0 ] || arguments[i]='PROGRAM.bc'; done
'KIT/toolchain/bin/ld.lld' PASSES --lto-partitions=PROCESSORS \\
    -mllvm -no-trap-after-noreturn -mllvm -trap-unreachable -mllvm -no-x86-call-frame-opt -mllvm -disable-machine-licm \\
    -mllvm -disable-postra-machine-licm -mllvm -sink-common-insts=false "${arguments[@]}"
cp program 'PROGRAM'
"""
# What the linker does to the functions of each kind of program.
PASSES = {FIRST: "--lto-O0 --lto-CGO0 --lto-newpm-passes=globaldce,asan", QUICK: "--lto-O1 --lto-CGO1"}
NO_PROVER = "#!/bin/sh\nexit 2\n"
REPLACED = {"toolchain/bin/clang": COMPILER, "toolchain/bin/ld.lld": LINKER, "bin/rattle": NO_PROVER}


def say(text: str) -> None:
    """Prints a line on standard error."""
    print(f"try: {text}", file=sys.stderr, flush=True)


def link_all(folder: str, to: str, but: list[str]) -> None:
    """Makes a folder of links to all that a folder has, without these files, which are paths in it."""
    os.makedirs(to)
    for name in os.listdir(folder):
        inside = [path.partition("/")[2] for path in but if path.partition("/")[0] == name]
        if not inside:
            os.symlink(os.path.join(folder, name), os.path.join(to, name))
        elif all(inside):
            link_all(os.path.join(folder, name), os.path.join(to, name), inside)


def toolchain_that_keeps(to: str, program: str, replaced: dict[str, str], kind: str = FIRST) -> str:
    """Makes a copy of the toolchain, of links and of these texts in place of files of its own, whose linker leaves a program of
    this kind at a path, and returns the path of its rt."""
    home, processors = kit(), str(len(os.sched_getaffinity(0)))
    link_all(home, to, [*OWN_FILES, *replaced])
    for name in OWN_FILES:
        shutil.copy2(os.path.join(home, name), os.path.join(to, name))
    for name, text in replaced.items():
        path = os.path.join(to, name)
        with open(path, "w", encoding="utf-8") as file:
            text = text.replace("KIT", home).replace("PROGRAM", program).replace("PROCESSORS", processors)
            file.write(text.replace("PASSES", PASSES[kind]))
        os.chmod(path, 0o755)
    return os.path.join(to, "bin", "rt")


def sources() -> list[str]:
    """The files that the program is made of, in order: those of its crates, and this one."""
    found = [os.path.join(TOP, "crates.txt"), os.path.abspath(__file__)]
    for crate in below(dependencies(), [BANK_PROGRAM]):
        for part in ("src", "specs"):
            for folder, folders, files in os.walk(os.path.join(TOP, "crates", crate, part)):
                folders.sort()
                found += [os.path.join(folder, name) for name in sorted(files)]
    return found


def checksum() -> str:
    """The checksum of all that the program is made of, and of the toolchain."""
    found = hashlib.sha256(sum_of_kit(kit()).encode())
    for path in sources():
        with open(path, "rb") as file:
            text = file.read()
        found.update(f"{os.path.relpath(path, TOP)} {len(text)}\n".encode() + text)
    return found.hexdigest()[:32]


def keep(made: str, program: str) -> None:
    """Puts a compiled program in the place of those that were kept."""
    kept = os.path.dirname(program)
    os.makedirs(kept, exist_ok=True)
    for name in os.listdir(kept):
        os.remove(os.path.join(kept, name))
    shutil.copy(made, f"{program}.new")
    os.rename(f"{program}.new", program)


class Steps:
    """The steps of a compilation, each known by a file that it leaves. A line says that one is done, or that it goes on."""

    def __init__(self, made: str) -> None:
        self.left = [(f"{made}.bc", "reading and lowering"), (made, "compiling and linking"), ("", "printing its help")]
        self.begun = self.said = time.monotonic()

    def say(self) -> None:
        """Says what is due by now."""
        now, (file, step) = time.monotonic(), self.left[0]
        is_done = os.path.exists(file)
        if is_done or now - self.said >= BETWEEN:
            say(f"{now - self.begun:4.0f} seconds: {step}{' is done' * is_done}")
            self.said = now
        del self.left[:is_done]


def compile_copy(copy: str, room: str, kind: str) -> str | None:
    """Compiles the program of a copy of its crates, with what that takes in a folder beside it, and returns its path; none if it does
    not compile. Then the compiler's last lines are printed."""
    made = os.path.join(room, "made")
    rt = toolchain_that_keeps(os.path.join(room, "kit"), made, REPLACED, kind)
    words = [rt, "try", "--seconds", str(SECONDS), "--", "--help"]
    with meanwhile(Steps(made).say, 1), begun(words, room, cwd=os.path.join(copy, "crates", BANK_PROGRAM)) as ran:
        assert ran.stdout
        said = ran.stdout.read()
    if ran.returncode or not os.path.isfile(made):
        say(f"the program does not compile:\n{said.decode(errors='replace')[-4000:]}")
        return None
    return made


def compile_to(program: str, kind: str, prepare: Callable[[str], None] = lambda copy: None) -> bool:
    """Compiles the program from a copy of its crates that is prepared before, keeps it, and returns whether it compiled."""
    with temporary_folder("tespiorvu-try-") as room:
        copy = os.path.join(room, "copy")
        copy_crates(copy, below(dependencies(), [BANK_PROGRAM]))
        prepare(copy)
        made = compile_copy(copy, room, kind)
        if made:
            keep(made, program)
    return made is not None


def compiled(kind: str = FIRST) -> str | None:
    """The path of the program of this kind, compiled first if a source has changed; none if it does not compile."""
    if not has_rt():
        return None
    program = os.path.join(OUT, kind, checksum())
    if os.path.isfile(program):
        return program
    say("compiling, once: some four minutes of the processor, more by the clock on a busy machine, and 3 GB of memory")
    return program if compile_to(program, kind) else None
