"""The machines, as processes of User-Mode Linux that are switched on and off."""
import contextlib
import os
import signal
import subprocess
import threading
import time
from collections.abc import Callable, Iterable
from pathlib import Path
from typing import Any

from checks import Wrong, wait_until
from branch.tests.blocks import DOCS, lines_of
from branch.tests.commands import run
from branch.tests.pair.networks import NETWORKS

PAGE = DOCS / "TWO-MACHINES.md"
BEGAN = time.monotonic()
MACHINES = {"a": 11, "b": 12}
# With Pacemaker a third has a voice.
THIRD = "third"
HOSTS = {**MACHINES, THIRD: 13}
DISK_SIZE = "64M"
# Seconds between two looks at a machine, each of which takes up to one of its processor.
PAUSE = 4
# The device's state, as DRBD says it.
STATE = "sed -n 's/^ *0: //p' /proc/drbd"


def say(text: str) -> None:
    """Prints a line with the seconds since the trial began."""
    print(f"    {time.monotonic() - BEGAN:7.1f} {text}", flush=True)


class Machine:
    """A machine that is switched on and off. Its two disks are files in the folder, and stay."""

    def __init__(self, folder: Path, image: Path, name: str) -> None:
        self.folder, self.image, self.name, self.host = folder, image, name, HOSTS[name]
        self.process: subprocess.Popen[bytes] | None = None
        self.lock = threading.Lock()
        if not (folder / f"{name}.disk").exists():
            run("truncate", "-s", DISK_SIZE, folder / f"{name}.disk")
        options = {"StrictHostKeyChecking": "no", "UserKnownHostsFile": "/dev/null", "ConnectTimeout": "30",
                   "ServerAliveInterval": "30", "ControlPath": f"{folder}/{name}.ssh"}
        words = [word for key, value in options.items() for word in ("-o", f"{key}={value}")]
        self.ssh = ["ssh", "-q", "-i", str(image.parent / "key"), *words, f"root@10.0.2.{self.host}"]

    def on(self) -> None:
        """Gives it power, if it has none."""
        with self.lock:
            if self.is_on():
                return
            command = ["linux.uml", "mem=512M", f"ubd0={self.name}.cow,{self.image}", f"ubd1={self.name}.disk", "root=/dev/ubda", "rw",
                       "con=null", "con0=null,fd:1", "ssl=null", f"systemd.hostname={self.name}"]
            command += [f"vec{number}:transport=tap,ifname={self.name}-{network},mac=52:54:00:00:{number:02}:{self.host}"
                        for number, network in enumerate(NETWORKS)]
            settings = {**os.environ, "TMPDIR": "/dev/shm", "LD_PRELOAD": str(self.image.with_name("registers.so"))}
            with open(self.folder / f"{self.name}.console", "ab") as console:
                self.process = subprocess.Popen(command, cwd=self.folder, stdin=subprocess.DEVNULL, stdout=console, stderr=console,
                                                start_new_session=True, env=settings)

    def up(self) -> None:
        """Waits until it has started, and keeps a connection to it that later orders use."""
        (self.folder / f"{self.name}.ssh").unlink(missing_ok=True)
        self.await_that("true")
        null = subprocess.DEVNULL
        subprocess.Popen([*self.ssh, "-M", "-N"], stdin=null, stdout=null, stderr=null)

    def start(self) -> None:
        """Gives it power, and waits until it has started."""
        self.on()
        self.up()

    def off(self) -> None:
        """The power fails: from here on nothing is written."""
        with self.lock:
            if self.process and self.is_on():
                os.killpg(self.process.pid, signal.SIGKILL)
                self.process.wait()

    def hang(self, is_hung: bool) -> None:
        """It stands still, as with a fault of its hardware, or goes on."""
        with self.lock:
            if self.process and self.is_on():
                os.killpg(self.process.pid, signal.SIGSTOP if is_hung else signal.SIGCONT)

    def is_on(self) -> bool:
        """Whether it has power."""
        return self.process is not None and self.process.poll() is None

    def sh(self, text: str, **how: Any) -> "subprocess.CompletedProcess[str]":
        """Has a shell there carry out a text; its status, output and errors."""
        streams: dict[str, Any] = {"stdout": subprocess.PIPE, "stderr": subprocess.PIPE, "stdin": subprocess.DEVNULL, "timeout": 300, **how}
        with contextlib.suppress(subprocess.TimeoutExpired):
            return subprocess.run([*self.ssh, text], text=True, check=False, **streams)
        return subprocess.CompletedProcess([], 255, "", "no reply in time")

    def done(self, text: str, **how: Any) -> str:
        """The output of a text that has to be carried out well."""
        ran = self.sh(text, **how)
        if ran.returncode:
            raise Wrong(f"{self.name}: {text[:70]!r}: status {ran.returncode} {ran.stdout[-900:]}{(ran.stderr or '')[-900:]}")
        return str(ran.stdout).strip()

    def carry_out(self, mark: str) -> str:
        """The output of the lines of the page's only block with this mark."""
        return self.done(lines_of(PAGE, f"sh {mark}"))

    def await_that(self, text: str, seconds: float = 180) -> None:
        """Waits until a text is carried out well."""
        wait_until(lambda: not self.sh(text, timeout=60).returncode, seconds, f"{self.name}: {text!r}", PAUSE)

    def state(self) -> str:
        """What DRBD says there of the disk; nothing if it has no power."""
        return str(self.sh(STATE, timeout=20).stdout).strip() if self.is_on() else ""

    def put(self, folder: Path, where: str) -> None:
        """Copies a folder's files there."""
        packed = subprocess.run(["tar", "-C", folder, "-c", "."], capture_output=True, check=True).stdout
        words = [*self.ssh, f"mkdir -p {where} && tar -C {where} --no-same-owner -x"]
        ran = subprocess.run(words, input=packed, capture_output=True, check=False)
        if ran.returncode:
            raise Wrong(f"{self.name}: {where}: {ran.stderr[-900:]!r}")

    def fetch(self, where: str, folder: Path) -> None:
        """Copies files of a folder there to here."""
        folder.mkdir(parents=True, exist_ok=True)
        packed = subprocess.run([*self.ssh, f"tar -C {where} -c ."], capture_output=True, check=True).stdout
        subprocess.run(["tar", "-C", folder, "-x"], input=packed, check=True)


def on_each(machines: Iterable[Machine], what: Callable[[Machine], Any]) -> None:
    """Does something with each machine at once; raises the first error."""
    wrong: list[Exception] = []

    def tried(each: Machine) -> None:
        try:
            what(each)
        except Exception as error:  # noqa: BLE001 - it is raised below
            wrong.append(error)
    threads = [threading.Thread(target=tried, args=(each,)) for each in machines]
    for thread in threads:
        thread.start()
    for thread in threads:
        thread.join()
    for error in wrong:
        raise error
