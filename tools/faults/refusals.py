"""A program whose calls for memory are refused: a library of a few lines, which cc compiles and the loader puts before the C
library, counts the calls and refuses some. It counts the bytes that are held, too."""
import os
import subprocess

from checks import Wrong
from preload import preloaded
from served import Served

SECONDS = 240
MOST_CALLS = 100_000


class Program:
    """The program, with the library before the C library, which is kept in a folder. Runs begin there."""

    def __init__(self, path, folder):
        self.path = os.path.abspath(path)
        self.folder = folder
        self.library = preloaded("faults/refusals.c", folder, "-fno-builtin")

    def environment(self, told, first, last, counted=-1):
        """The environment of a run whose calls from the first to the last are refused."""
        return {
            "PATH": "/usr/local/bin:/usr/bin:/bin",
            "LANG": "C.UTF-8",
            "LD_PRELOAD": self.library,
            "REFUSAL_TOLD": str(told),
            "REFUSAL_COUNTED": str(counted),
            "REFUSAL_FIRST": str(first),
            "REFUSAL_LAST": str(last),
        }

    def run(self, words, given, first, last, beside=None):
        """What a run wrote, on both streams, and its status; and whether it got as far as a call that is refused. What is done
        beside it is given its process."""
        hears, tells = os.pipe()
        with os.fdopen(hears, "rb") as heard:
            try:
                ran = subprocess.Popen(
                    [self.path, *words],
                    stdin=subprocess.PIPE,
                    stdout=subprocess.PIPE,
                    stderr=subprocess.PIPE,
                    cwd=self.folder,
                    env=self.environment(tells, first, last),
                    pass_fds=[tells],
                )
            finally:
                os.close(tells)
            with ran:
                try:
                    if beside:
                        beside(ran)
                    output, errors = ran.communicate(given, SECONDS)
                finally:
                    ran.kill()
            return (ran.returncode, output, errors), heard.read() != b""

    def held(self, words, messages):
        """The bodies of the replies to messages, and the most bytes held at once while each was answered."""
        hears, tells = os.pipe()
        with os.fdopen(hears, "rb") as heard:
            try:
                how = {"cwd": self.folder, "env": self.environment(-1, 0, 0, tells), "pass_fds": [tells]}
                with Served([self.path, *words], **how) as served:
                    bodies = [served.ask(it) for it in messages]
            finally:
                os.close(tells)
            # (the first number came before any message)
            counts = [int(it) for it in heard.read().split()][1 : len(messages) + 1]
        if len(counts) != len(messages):
            raise Wrong(f"it read {len(counts)} times for {len(messages)} messages")
        return bodies, counts
