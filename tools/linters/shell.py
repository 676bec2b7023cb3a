"""Shell scripts, by shellcheck."""
from linters.tree import findings_of, shell_files


def shellcheck(top: str) -> list[str]:
    """What shellcheck finds, notes on style among it."""
    files = shell_files(top)
    return findings_of(["shellcheck", "--format=gcc", *files], top) if files else []
