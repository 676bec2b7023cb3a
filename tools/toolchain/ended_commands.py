"""Trials of the commands that make the bank program, in a repository with one crate: each says in one line that there is no rt, and
if it is ended by a signal while its rt is at work, here one that sleeps, it leaves no process and no temporary file."""
import contextlib
import glob
import os
import shutil
import signal
import subprocess
import sys
from collections.abc import Iterator
from functools import partial

from checks import Check, require, wait_until
from repository import TOP

COMMANDS = {"try": ["tools/try", "sample"], "build": ["tools/build", "bank_cli"], "bank": ["tools/bank", "sample"]}
TEXTS = {
    "repository/crates.txt": "bank_cli: std\n",
    "repository/crates/bank_cli/src/main.rt": "",
    "kit/bin/rt": '#!/bin/sh\n[ "$1" != doc ] || exec echo "ROOM/kit/START-HERE.md"\nmkdir "$TMPDIR/begun"\nexec sleep 600\n',
    **dict.fromkeys(("kit/bin/rtlib.py", "kit/bin/rattle", "kit/toolchain/bin/clang", "kit/toolchain/bin/ld.lld"), ""),
}
NO_RT = "there is no rt: the toolchain's bin/ has to be on the path (README.md)\n"
SECONDS = 60


def begin(room: str, command: str, path: str) -> subprocess.Popen[str]:
    """Begins a command in a new repository, with this path beside the folder of an interpreter."""
    for name, text in TEXTS.items():
        os.makedirs(os.path.dirname(f"{room}/{name}"), exist_ok=True)
        with open(f"{room}/{name}", "w", encoding="utf-8") as file:
            file.write(text.replace("ROOM", room))
        os.chmod(file.name, 0o755)
    shutil.copytree(f"{TOP}/tools", f"{room}/repository/tools")
    for it in ("bin", "temporary"):
        os.mkdir(f"{room}/{it}")
    for name, program in {"python3": sys.executable, "dirname": shutil.which("dirname")}.items():
        os.symlink(str(program), f"{room}/bin/{name}")
    return subprocess.Popen(
        COMMANDS[command],
        cwd=f"{room}/repository",
        env={**os.environ, "PATH": f"{room}/bin{path}", "TMPDIR": f"{room}/temporary"},
        stdin=subprocess.DEVNULL,
        stdout=subprocess.PIPE,
        stderr=subprocess.PIPE,
        start_new_session=True,
        text=True,
    )


def has_process(group: int) -> bool:
    """Whether a group has a process that has not ended. (One that has may wait long for who is to take note of it.)"""
    for path in glob.glob("/proc/[0-9]*/stat"):
        with contextlib.suppress(OSError), open(path, encoding="utf-8") as file:
            state, _, its_group = file.read().rpartition(") ")[2].split()[:3]
            if int(its_group) == group and state != "Z":
                return True
    return False


def require_one_line(room: str, command: str) -> None:
    """Passes if a command without rt on its path says so in one line, and ends with 125."""
    with begin(room, command, "") as run:
        output, errors = run.communicate(timeout=SECONDS)
    require((run.returncode, output, errors.partition(": ")[2]), (125, "", NO_RT), f"of {errors!r}")


def require_nothing_left(room: str, command: str) -> None:
    """Passes if a command that is ended at work leaves no process and no temporary file."""
    with begin(room, command, f":{room}/kit/bin:{os.environ['PATH']}") as run:
        try:
            wait_until(lambda: glob.glob(f"{room}/temporary/**/begun", recursive=True), SECONDS, "its rt has begun")
            run.send_signal(signal.SIGTERM)
            run.communicate(timeout=SECONDS)
            require((run.returncode, os.listdir(f"{room}/temporary")), (128 + signal.SIGTERM, []), "status, and what is left")
            wait_until(lambda: not has_process(run.pid), SECONDS, "all that it started has ended")
        finally:
            with contextlib.suppress(ProcessLookupError):
                os.killpg(run.pid, signal.SIGKILL)


def checks_of(room: str) -> Iterator[Check]:
    """The trials."""
    for command in COMMANDS:
        yield Check(f"no_rt_for_{command}", partial(require_one_line, f"{room}/no_rt_for_{command}", command))
        yield Check(f"nothing_left_by_{command}", partial(require_nothing_left, f"{room}/left_by_{command}", command))
