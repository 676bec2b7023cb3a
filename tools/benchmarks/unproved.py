"""Builds the bank program of a commit, optimized and unproved, so that instructions of two commits are compared alike.

    tools/benchmarks/unproved COMMIT PROGRAM

What `rt try` lowers of the commit's sources is compiled at -O3 as one module, without the checks that a proof makes needless, and
put at PROGRAM. That takes some eight minutes of the processor and 3 GB of memory, where a proof takes an hour. The program takes
about a sixth more instructions than that of tools/build. It is counted (tools/benchmarks/instructions), and serves nobody: a fault
that the checks would have found is undefined in it.
"""
import argparse
import os
import shutil
import subprocess
import sys
import tempfile

import repository
from checks import reader
from first_look.compiling import COMPILER, NO_PROVER, SECONDS, toolchain_that_keeps
from repository import BANK_PROGRAM, TOP, below, copy_crates, dependencies

# The linker takes the module that the compiler has kept, and none of what finds bad access. Left out of the module are the filling
# of locals, the checks, and the traps that a proof rules out.
LINKER = r"""#!/bin/bash
set -eu
T='KIT/toolchain'
"$T/bin/clang" -x ir 'PROGRAM.bc' -S -emit-llvm -Xclang -disable-llvm-passes -o - | sed -E \
    -e '/^  call void @llvm\.memset\.p0\.i64\(ptr %r[0-9]+, i8 -86, /d' \
    -e '/^  call void @"rattle-llvm-checks::/d' \
    -e '/^  call void @llvm\.trap\(\)$/d' \
    -e '/^attributes/s/ sanitize_address//; /^attributes/s/ "frame-pointer"="all"//' \
    -e '/^attributes/s/"target-cpu"="x86-64"/"target-cpu"="x86-64-v2"/; /^attributes/s/\{ +\}/{ nounwind }/' > plain.ll
"$T/bin/clang" -x ir plain.ll -c -emit-llvm -Xclang -disable-llvm-passes -o plain.bc
rm plain.ll
words=()
for it in "$@"; do
    case $it in
    input-0) words+=(plain.bc) ;;
    input-1 | input-4 | --whole-archive | --no-whole-archive | --fatal-warnings) ;;
    *) words+=("$it") ;;
    esac
done
"$T/bin/ld.lld" --lto-O3 --lto-CGO3 "--lto-newpm-passes=globaldce,default<O3>" --lto-partitions=1 \
    -mllvm -no-trap-after-noreturn -mllvm -trap-unreachable -mllvm -no-x86-call-frame-opt -mllvm -disable-machine-licm \
    -mllvm -disable-postra-machine-licm -mllvm -sink-common-insts=false "${words[@]}"
cp program 'PROGRAM'
"""
REPLACED = {"toolchain/bin/clang": COMPILER, "toolchain/bin/ld.lld": LINKER, "bin/rattle": NO_PROVER}


def tree_of(commit: str, folder: str) -> None:
    """Puts the files of a commit into a folder."""
    os.makedirs(folder)
    with subprocess.Popen(["git", "-C", TOP, "archive", commit], stdout=subprocess.PIPE) as files:
        subprocess.run(["tar", "-x", "-C", folder], stdin=files.stdout, check=True)
    if files.returncode:
        raise SystemExit(f"unproved: there is no commit {commit}")


def build(tree: str, room: str, program: str) -> int:
    """Builds the program of these files, and returns the exit status of what does."""
    repository.TOP = tree
    copy = os.path.join(room, "copy")
    copy_crates(copy, below(dependencies(), [BANK_PROGRAM]))
    rt = toolchain_that_keeps(os.path.join(room, "kit"), program, REPLACED)
    words = [rt, "try", "--seconds", str(SECONDS), "--", "--help"]
    return subprocess.run(words, cwd=os.path.join(copy, "crates", BANK_PROGRAM), stdin=subprocess.DEVNULL, check=False).returncode


def arguments() -> argparse.Namespace:
    """What the command line says."""
    found = reader(__doc__, program=None, has_checks=False)
    found.add_argument("commit", metavar="COMMIT", help="the commit, as git names it")
    found.add_argument("program", metavar="PROGRAM", help="where the program is put")
    return found.parse_args()


def main() -> int:
    given = arguments()
    program = os.path.abspath(given.program)
    with tempfile.TemporaryDirectory(prefix="tespiorvu-unproved-") as room:
        tree = os.path.join(room, "tree")
        tree_of(given.commit, tree)
        status = build(tree, room, os.path.join(room, "made"))
        if status == 0:
            shutil.move(os.path.join(room, "made"), program)
    return status


if __name__ == "__main__":
    sys.exit(main())
