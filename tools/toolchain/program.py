"""How a program is proved and built over libraries that rt ci has built."""
import glob
import os
import subprocess

from repository import TOP, kit, dependencies, check_arguments

# For the last lines of a command that ends badly.
MOST_LINES = 40
TARGET = "x86_64-unknown-linux-gnu"


def output_of(words, folder=TOP, **how):
    """The exit status of a command that is given no input, and what it says."""
    pipes = {"stdin": subprocess.DEVNULL, "stdout": subprocess.PIPE, "stderr": subprocess.STDOUT}
    ran = subprocess.run(words, cwd=folder, check=False, **pipes, **how)
    return ran.returncode, ran.stdout.decode(errors="replace")


def fault_of(words, folder=TOP):
    """The last lines of a command that ends badly, or none."""
    status, text = output_of(words, folder)
    return "\n    ".join(text.rstrip("\n").split("\n")[-MOST_LINES:]) if status else None


def layout_of(crate):
    """The command that fails if a file of a crate has another layout."""
    files = glob.glob(os.path.join(TOP, "crates", crate, "src", "**", "*.rt"), recursive=True)
    return ["rattle", "fmt", "--check", *sorted(files)]


def steps(name, folder, libraries, backend, room, jobs=1):
    """What is to be done to prove the program of a crate, which stands in this folder, and to build it by this compiler: each
    step's name, and its command, which is run in the folder. The program is `out/NAME` there. FOLDER/crates/NAME of the libraries
    has each crate below it, built. The room is a folder for what lies between."""
    home, made = kit(), os.path.join(room, "made.o")
    words = [*check_arguments(dependencies(), name, "src/main.rt", libraries, home), "--jobs", str(jobs)]
    toolchain = ["--toolchain", f"{home}/toolchain"]
    foreign = [f"{home}/c/libos_c.a", f"{home}/c/liblibc_c.a"]
    os.makedirs(os.path.join(folder, "out"), exist_ok=True)
    return (
        ("its proof", ["rattle", "build", *words, *toolchain, "--backend", backend, "-o", made]),
        ("the program", [f"{home}/bin/rattle-link", "--target", TARGET, *toolchain, "-o", f"out/{name}", made, *foreign]),
    )
