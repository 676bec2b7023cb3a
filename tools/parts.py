"""Runs a part of tools/test, or another tool, by its path below tools/.

    tools/run PART [ARGUMENTS]
    tools/run --list

PART is a name as `faults/kills`, or a path as `branch/test`. Each has an entry of its own at its place, which does the same. The
arguments are its own; `--help` prints them. `--list` prints all parts.
"""
import glob
import importlib
import os
import sys

from repository import TOP

TOOLS = os.path.join(TOP, "tools")
# What is tried of the branch, of its packages, of the office and of the teller's page: FOLDER/PART is the module FOLDER.tests.PART.
BESIDE = ("branch/in-systemd", "branch/measure", "branch/on-two-machines", "branch/package", "branch/test", "desk/test",
          "office/in-systemd", "office/test")
# Where these find one another's modules, the tools', and those of the programs.
PATHS = (TOP, TOOLS, os.path.join(TOP, "programs"))
# Debian's Python has the packages that tools/packages installs, and any user may read it; without it this one has to do.
PYTHON = "/usr/bin/python3" if os.path.exists("/usr/bin/python3") else sys.executable


def parts():
    """All parts: what can be run below tools/, and those beside it."""
    paths = [it for it in glob.glob(f"{TOOLS}/**/*", recursive=True) if os.path.isfile(it) and os.access(it, os.X_OK)]
    return sorted({os.path.relpath(it, TOOLS) for it in paths} - {"run"}) + [*BESIDE]


def module_of(part):
    """The file of a part that is a module, below tools/."""
    return part.replace("-", "_") + ".py"


def main():
    if len(sys.argv) < 2 or sys.argv[1] in ("--help", "-h"):
        print(__doc__.strip())
        return 0 if len(sys.argv) > 1 else 2
    part, arguments = sys.argv[1], sys.argv[2:]
    if part == "--list":
        print("\n".join(parts()))
        return 0
    if part not in parts():
        print(f"run: there is no part {part}: --list prints all", file=sys.stderr)
        return 2
    if part in BESIDE:
        os.environ.update(PYTHONPATH=":".join(PATHS), PYTHONDONTWRITEBYTECODE="1")
        name = part.replace("/", ".tests.").replace("-", "_")
        os.execv(PYTHON, [PYTHON, "-m", name, *arguments])
    if not os.path.isfile(os.path.join(TOOLS, module_of(part))):
        path = os.path.join(TOOLS, part)
        os.execv(path, [path, *arguments])
    sys.argv = [os.path.join(TOOLS, part), *arguments]
    return importlib.import_module(module_of(part)[: -len(".py")].replace("/", ".")).main()
