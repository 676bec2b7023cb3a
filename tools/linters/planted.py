"""Faults that are planted in a folder with the settings of the linters, each of which its linter has to find."""
import os
import shutil
from collections.abc import Callable
from functools import partial
from typing import NamedTuple

from linters import branch, page, python, shell


class Linter(NamedTuple):
    """A linter: its name, the program of Debian and the package that has it, and what finds faults below a folder."""

    name: str
    program: str
    package: str
    findings: Callable[[str], list[str]]


class Plant(NamedTuple):
    """A fault: whose it is, what it is called, its text, which is put at the end of a file, and what has to be found; and the
    settings that the linter reads."""

    linter: str
    name: str
    path: str
    text: str
    found: str
    settings: tuple[str, ...] = ()


LINTERS = (
    Linter("pyflakes", "pyflakes3", "pyflakes3", python.pyflakes),
    *(Linter(f"mypy {it}", "mypy", "mypy", partial(python.mypy, it)) for it in python.ROOTS),
    Linter("shellcheck", "shellcheck", "shellcheck", shell.shellcheck),
    Linter("eslint", "eslint", "eslint", page.eslint),
    Linter("tsc", "tsc", "node-typescript", page.tsc),
    Linter("nginx -t", "nginx", "nginx-light", branch.nginx),
    Linter("systemd-analyze verify", "systemd-analyze", "systemd", branch.verify),
    Linter("systemd-analyze security", "systemd-analyze", "systemd", branch.exposure),
)
SCRIPT = "desk/page/js/planted.js"
SERVICE = "branch/units/planted.service"
NEEDS_DROP_IN = "office/units/bank-office-runs.service"
MYPY, MODEL = ("tools/mypy.ini",), ("tools/mypy.ini", "tools/model/__init__.py")
ESLINT, TSC = ("desk/.eslintrc.json",), ("desk/tsconfig.json", "desk/shapes.d.ts")
FRONT = ("branch/front", "branch/certificates")

PLANTS = (
    Plant(
        *("pyflakes", "a name that is not used", "tools/planted"),
        *("#!/usr/bin/env python3\nimport os\n", "'os' imported but unused"),
    ),
    Plant("pyflakes", "a name that is nowhere", "tools/planted.py", "print(ammount)\n", "undefined name 'ammount'"),
    Plant(
        *("mypy tools", "a wrong type", "tools/planted", "#!/usr/bin/env python3\ncents: int = '5'\n"),
        *("tools/planted:2: error: Incompatible types", MYPY),
    ),
    Plant(
        *("mypy tools", "no type, where all have one", "tools/model/planted.py", "def doubled(it):\n    return 2 * it\n"),
        *("missing a type annotation", MODEL),
    ),
    Plant("shellcheck", "a variable without quotes", "branch/planted", '#!/bin/sh\nfolder="$1"\nrm -r $folder\n', "SC2086"),
    Plant("eslint", "a name that is nowhere", SCRIPT, "export const due = () => ammount;\n", "'ammount' is not defined", ESLINT),
    Plant("eslint", "a name that is not used", SCRIPT, "const due = 5;\n", "'due' is assigned a value but never used", ESLINT),
    Plant(
        *("tsc", "a wrong type", SCRIPT, "/** @param {number} cents */\nexport const due = cents => cents.trim();\n"),
        *("Property 'trim'", TSC),
    ),
    Plant(
        *("tsc", "a member that a reply has not", SCRIPT, "/** @param {BankReply} it */\nexport const due = it => it.code;\n"),
        *("Property 'code'", TSC),
    ),
    Plant(
        *("nginx -t", "a setting that is none", "branch/front/nginx.conf", "client_body_size 5;\n"),
        *('unknown directive "client_body_size"', FRONT),
    ),
    Plant(
        *("systemd-analyze verify", "a setting that is none", SERVICE, "[Service]\nExecStart=/bin/true\nPrivateNet=yes\n"),
        "Unknown key",
    ),
    Plant(
        *("systemd-analyze security", "a service with all rights", SERVICE, "[Service]\nExecStart=/bin/true\n"),
        "the exposure is 9",
    ),
    Plant("systemd-analyze security", "a service without its drop-in", NEEDS_DROP_IN, "", "the exposure is", (NEEDS_DROP_IN,)),
)


def copy_settings(top: str, paths: tuple[str, ...], room: str) -> None:
    """Copies the settings of a linter into a folder."""
    for path in paths:
        source, target = os.path.join(top, path), os.path.join(room, path)
        os.makedirs(os.path.dirname(target), exist_ok=True)
        if os.path.isdir(source):
            shutil.copytree(source, target)
        else:
            shutil.copy(source, target)


def plant(top: str, fault: Plant, room: str) -> None:
    """Leaves a fault in a folder, and the settings that its linter reads."""
    copy_settings(top, fault.settings, room)
    path = os.path.join(room, fault.path)
    os.makedirs(os.path.dirname(path), exist_ok=True)
    with open(path, "a", encoding="utf-8") as file:
        file.write(fault.text)
