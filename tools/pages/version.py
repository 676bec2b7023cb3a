"""Compares the version of the program, and the newest schema version, which a constant of crates/cli_words has, with what else
names them.

    tools/pages/version [PROGRAM]

CHANGELOG.md begins with the version, and docs/openapi.json is of it; docs/TABLES.md has the schema version; the program prints
both. The package takes the version from the same constant (tools/release).
"""
import glob
import json
import os
import re
import subprocess
from functools import partial

from checks import Check, Wrong, reader, require, run_checks
from repository import TOP

CONSTANT = re.compile(r'^const VERSION: &str = "([0-9.]+), schema version ([0-9]+)";$', re.MULTILINE)


def read(path: str) -> str:
    """The text of a file of the repository."""
    with open(os.path.join(TOP, path), encoding="utf-8") as file:
        return file.read()


def first(pattern: str, path: str) -> str | None:
    """What the first match of a pattern has in a file."""
    found = re.search(pattern, read(path), re.MULTILINE)
    return found[1] if found else None


def constant() -> tuple[str, str]:
    """The version and the newest schema version, as the source states them."""
    found = [it for path in glob.glob(os.path.join(TOP, "crates/cli_words/src/*.rt")) for it in CONSTANT.findall(read(path))]
    if len(found) != 1:
        raise Wrong(f"crates/cli_words/src has {len(found)} constants VERSION, and not one")
    return found[0]


def require_printed(program: str, version: str, schema: str) -> None:
    """Requires that the program prints both."""
    ran = subprocess.run([program, "--version"], stdin=subprocess.DEVNULL, stdout=subprocess.PIPE, text=True, check=False)
    require(ran.stdout, f"bank_cli {version}, schema version {schema}\n", "what is printed")


def main() -> int:
    given = reader(__doc__).parse_args()

    def checks_of(_room: str) -> list[Check]:
        """What is compared."""
        version, schema = constant()
        of_page = json.loads(read("docs/openapi.json"))["info"]["version"]
        found = {
            "CHANGELOG.md": (first(r"^## (.*)$", "CHANGELOG.md"), version),
            "docs/openapi.json": (of_page, version),
            "docs/TABLES.md": (first(r"schema version (\d+)", "docs/TABLES.md"), schema),
        }
        compared = [Check(name, partial(require, *both, name)) for name, both in found.items()]
        return [*compared, Check("bank_cli --version", partial(require_printed, given.program, version, schema))]

    return run_checks(given, checks_of)
