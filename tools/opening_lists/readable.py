"""Which lists the user who makes the bank can't read, and why: `bank_cli init` says no more than `file: not read`."""
import os
import pwd
import subprocess

from opening_lists.columns import LISTS

# For each path, as that user: the first folder on the way that they may not enter, or the file that they may not read; or nothing.
LOOK = """for path; do
    closed=
    way=$path
    while [ "$way" != / ]; do way=$(dirname "$way"); [ -x "$way" ] || closed=$way; done
    [ -n "$closed" ] || [ -r "$path" ] || closed=$path
    echo "$closed"
done"""


def as_shown(path: str) -> str:
    """Whose a path is, and its rights."""
    found = os.stat(path)
    return f"{path} is {pwd.getpwuid(found.st_uid).pw_name}'s, with mode {found.st_mode & 0o7777:04o}"


def find_unreadable(folder: str, user: str) -> list[str]:
    """The lists of a folder that a user can't read, each with why. Only root can look with another's eyes; of a user who is not there
    nothing is known."""
    try:
        pwd.getpwnam(user)
    except KeyError:
        return []
    if os.geteuid() != 0:
        return []
    real = os.path.realpath(folder)
    paths = [it for it in (os.path.join(real, f"{name}.csv") for name in LISTS if name != "badges") if os.path.exists(it)]
    words = ["runuser", "-u", user, "--", "sh", "-c", LOOK, "sh", *paths]
    ran = subprocess.run(words, cwd="/", stdin=subprocess.DEVNULL, stdout=subprocess.PIPE, text=True, check=True)
    wrong = [(path, at) for path, at in zip(paths, ran.stdout.splitlines()) if at]
    cure = f"install -d -o {user} -m 700 /run/lists && install -o {user} -m 600 {folder}/*.csv /run/lists"
    lines = [f"{os.path.join(folder, os.path.basename(path))}: user {user} can't read it, as {as_shown(at)}" for path, at in wrong]
    return lines + ([f"`{cure}`, and init with /run/lists"] if lines else [])
