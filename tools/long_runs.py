"""What a command that takes minutes needs: it says if there is no toolchain, and that it goes on, and if it is ended by a signal, so is what it
has started."""
import contextlib
import os
import shutil
import signal
import subprocess
import sys
import tempfile
import threading
from collections.abc import Callable, Iterator
from typing import Any

from checks import wait_until

SIGNALS = (signal.SIGINT, signal.SIGTERM, signal.SIGHUP)
# How often a run says that it goes on, and how long what was killed may take to end, in seconds.
BETWEEN, TO_END = 30, 10


def has_rt() -> bool:
    """Whether the toolchain's rt is on the path. Says so if it is not."""
    found = shutil.which("rt") is not None
    if not found:
        said = f"{os.path.basename(sys.argv[0])}: there is no rt: the toolchain's bin/ has to be on the path (README.md)"
        print(said, file=sys.stderr, flush=True)
    return found


def stop(number: int, _frame: object) -> None:
    """Ends this run, so that all it started ends, and its folders are removed. No further signal interrupts that."""
    for it in SIGNALS:
        signal.signal(it, signal.SIG_IGN)
    sys.exit(128 + number)


def end_in_order() -> None:
    """Has each signal that asks for an end, and is not ignored, end this run in order."""
    for it in SIGNALS:
        if signal.getsignal(it) is not signal.SIG_IGN:
            signal.signal(it, stop)


def become(program: str, words: list[str]) -> None:
    """Runs a program in place of this one, with the signals as a shell leaves them."""
    signal.signal(signal.SIGPIPE, signal.SIG_DFL)
    os.execv(program, words)


@contextlib.contextmanager
def temporary_folder(prefix: str) -> Iterator[str]:
    """A temporary folder, which is removed at the end, once nothing that was started writes there any more."""
    folder = tempfile.mkdtemp(prefix=prefix)
    os.chmod(folder, 0o711)  # as rt runs programs there as nobody, if it is root's

    def is_removed() -> bool:
        shutil.rmtree(folder, ignore_errors=True)
        return not os.path.exists(folder)

    try:
        yield folder
    finally:
        wait_until(is_removed, TO_END, f"{folder} is removed")


@contextlib.contextmanager
def begun(words: list[str], temporary: str, **how: Any) -> Iterator[subprocess.Popen[bytes]]:
    """A command that has begun, whose output is read. Its temporary files are in this folder, and it ends with this run."""
    how |= {"stdin": subprocess.DEVNULL, "stdout": subprocess.PIPE, "stderr": subprocess.STDOUT}
    with subprocess.Popen(words, env={**os.environ, "TMPDIR": temporary}, **how) as ran:
        try:
            yield ran
        except BaseException:
            ran.terminate()
            raise


@contextlib.contextmanager
def meanwhile(call: Callable[[], None], seconds: float = BETWEEN) -> Iterator[None]:
    """Calls something again and again, after a pause of these seconds, in a thread of its own."""
    is_over = threading.Event()

    def go_on() -> None:
        while not is_over.wait(seconds):
            call()

    thread = threading.Thread(target=go_on, daemon=True)
    thread.start()
    try:
        yield
    finally:
        is_over.set()
        thread.join()
