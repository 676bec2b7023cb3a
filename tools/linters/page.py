"""The teller's page: names and style by eslint, types by tsc. desk/ has the settings of both, and shapes that modules pass."""
import os

from linters.tree import ending_in, findings_of, output_of

# Debian's libraries of node, which a node of another origin looks for elsewhere.
LIBRARIES = "/usr/share/nodejs:/usr/lib/nodejs"


def eslint(top: str) -> list[str]:
    """What eslint finds."""
    if not ending_in(top, ".js"):
        return []
    return findings_of(["eslint", "--format", "unix", "--ext", ".js", "."], os.path.join(top, "desk"), NODE_PATH=LIBRARIES)


def tsc(top: str) -> list[str]:
    """What tsc finds, each in one line."""
    status, lines = output_of(["tsc", "--project", "desk/tsconfig.json", "--pretty", "false"], top, NODE_PATH=LIBRARIES)
    return [it for it in lines if not it.startswith(" ")] if status else []
