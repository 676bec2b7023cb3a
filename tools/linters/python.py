"""Python: names that are not used or not there, by pyflakes; and types, by mypy."""
import os
import re
import tempfile

from linters.tree import findings_of, output_of, python_files

# What has modules, and where they look for others. (Two of them may have modules of one name.)
ROOTS: dict[str, list[str]] = {
    "tools": ["tools"],
    "programs": ["programs"],
    "branch": [".", "programs", "tools"],
    "desk": [".", "programs", "tools"],
    "office": [".", "programs", "tools"],
}
PLACE = re.compile(r"([^:]+):(\d+):")


def has_noqa(top: str, finding: str) -> bool:
    """Whether the line of a finding says that it is meant so, as `# noqa` does."""
    place = PLACE.match(finding)
    if not place:
        return False
    with open(os.path.join(top, place[1]), encoding="utf-8") as file:
        return "# noqa" in file.readlines()[int(place[2]) - 1]


def pyflakes(top: str) -> list[str]:
    """What pyflakes finds."""
    files = python_files(top)
    return [it for it in findings_of(["pyflakes3", *files], top) if not has_noqa(top, it)] if files else []


def linked_scripts(top: str, scripts: list[str], room: str) -> dict[str, str]:
    """Links to scripts without an ending, whose names are those of modules; and the script of each."""
    links = {}
    for path in scripts:
        link = os.path.join(room, re.sub(r"\W", "_", path) + ".py")
        os.symlink(os.path.join(top, path), link)
        links[link] = path
    return links


def mypy(root: str, top: str) -> list[str]:
    """What mypy finds in one of these folders, strictly if tools/mypy.ini says so."""
    files = [it for it in python_files(top) if it.startswith(root + "/")]
    if not files:
        return []
    modules = [it for it in files if it.endswith(".py")]
    with tempfile.TemporaryDirectory(prefix="bank-mypy-") as room:
        links = linked_scripts(top, [it for it in files if it not in modules], room)
        arguments = ["mypy", "--config-file", "tools/mypy.ini", "--cache-dir", os.path.join(room, "cache")]
        search = ":".join(os.path.join(top, it) for it in ROOTS[root])
        # (what is wrong in the modules of others is found there)
        silent = [] if root == "tools" else ["--follow-imports", "silent"]
        status, lines = output_of([*arguments, *silent, *modules, *links], top, MYPYPATH=search)
    for link, path in links.items():
        lines = [it.replace(os.path.relpath(link, top), path).replace(link, path) for it in lines]
    return [it for it in lines if ": note: " not in it] if status else []
