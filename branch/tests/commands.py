"""Commands of the machine that the tests run on."""
import shutil
import subprocess
from collections.abc import Mapping
from pathlib import Path
from typing import Any

from checks import require
from repository import TOP


def ended(*words: Any, **how: Any) -> "subprocess.CompletedProcess[str]":
    """A command that has ended, well or not; without input, unless some is given."""
    given: dict[str, Any] = {**({} if "input" in how else {"stdin": subprocess.DEVNULL}), **how}
    return subprocess.run([str(it) for it in words], capture_output=True, text=True, check=False, **given)


def ran(*words: Any, **how: Any) -> tuple[int, str]:
    """The exit status of a command, and what it prints, its errors after that."""
    found = ended(*words, **how)
    return found.returncode, found.stdout + found.stderr


def run(*words: Any, **how: Any) -> str:
    """What a command prints that has to succeed."""
    found = ended(*words, **how)
    what = f"{' '.join(map(str, words))[:90]}: {found.stdout[-500:]}{found.stderr[-900:]}: its status"
    require(found.returncode, 0, what)
    return found.stdout


def printed(*words: Any, **how: Any) -> tuple[int, list[str]]:
    """The exit status of a command that must write no errors, and the lines that it prints."""
    found = ended(*words, **how)
    require(found.stderr, "", f"what {words[0]} says of itself")
    return found.returncode, found.stdout.splitlines()


def packed(program: Any, folder: Any, *more: str) -> list[Path]:
    """The packages of a program, made in a folder by tools/release."""
    return [Path(it) for it in run(f"{TOP}/tools/release", "--program", program, *more, folder).splitlines()]


def lacking(packages: Mapping[str, str], path: str | None = None) -> list[str]:
    """Which programs are not there, each with the package of Debian that has it."""
    return [f"{it} (package {package})" for it, package in packages.items() if not shutil.which(it, path=path)]


def said_of(lacks: list[str]) -> str:
    """What is said of what is not there."""
    return ", ".join(f"there is no {it}" for it in lacks)
