"""Which files below a folder a linter reads: by their endings, or, if a file has none, by its first line."""
import os
import re
import subprocess
from collections.abc import Iterator

# Rattle, cases and earlier banks, which have linters of their own; and what is built or kept.
LEFT_OUT = {".git", "__pycache__", "crates", "migrations", "node_modules", "out", "rows"}
SECONDS = 600
PYTHON = re.compile(rb"#!.*\bpython3?\b")
SHELL = re.compile(rb"#!.*/(?:ba|da)?sh\b")


def all_files(top: str) -> Iterator[str]:
    """The paths of all files that are looked at, below the top."""
    for folder, folders, names in os.walk(top):
        folders[:] = sorted(set(folders) - LEFT_OUT)
        for name in sorted(names):
            yield os.path.relpath(os.path.join(folder, name), top)


def ending_in(top: str, *endings: str) -> list[str]:
    """The files with one of these endings."""
    return [it for it in all_files(top) if it.endswith(endings)]


def written_in(top: str, ending: str, first_line: re.Pattern[bytes]) -> list[str]:
    """The files with an ending, and those without any whose first line fits."""
    found = []
    for path in all_files(top):
        if path.endswith(ending) or ("." not in os.path.basename(path) and first_line.match(head_of(os.path.join(top, path)))):
            found.append(path)
    return found


def head_of(path: str) -> bytes:
    """The first line of a file, as far as it is short."""
    with open(path, "rb") as file:
        return file.readline(200)


def python_files(top: str) -> list[str]:
    """All Python, scripts without an ending among it."""
    return written_in(top, ".py", PYTHON)


def shell_files(top: str) -> list[str]:
    """All shell scripts."""
    return written_in(top, ".sh", SHELL)


def output_of(arguments: list[str], folder: str, **more: str) -> tuple[int, list[str]]:
    """The exit status of a command in a folder, with some more variables of the environment, and its lines on both streams."""
    ran = subprocess.run(
        arguments,
        cwd=folder,
        env={**os.environ, **more},
        stdin=subprocess.DEVNULL,
        stdout=subprocess.PIPE,
        stderr=subprocess.STDOUT,
        timeout=SECONDS,
        text=True,
        errors="replace",
        check=False,
    )
    return ran.returncode, [it for it in ran.stdout.splitlines() if it.strip()]


def findings_of(arguments: list[str], folder: str, **more: str) -> list[str]:
    """The lines of a linter that found something, or none. One that fails and says nothing has failed, too."""
    status, lines = output_of(arguments, folder, **more)
    return (lines or [f"{arguments[0]} ended with status {status}"]) if status else []
