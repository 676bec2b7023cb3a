"""A program whose calls that change files are watched: a library of a few lines, which cc compiles and the loader puts before
the C library, counts those calls and has one of them end the program, fail or do half of what it is asked."""
import os
import re

from preload import preloaded
from sample_file import run_to_end

LINE = re.compile(rb"(\w) (\d+) (\d+) (\d+)\n")


class Call:
    """A call that changed a file, or opened it, or found none to open."""

    def __init__(self, kind: str, file: int, where: int, data: bytes) -> None:
        self.kind = kind
        self.file = file
        self.where = where
        self.data = data

    def is_counted(self):
        """Whether it can be the call that is not made as it is asked for."""
        return self.kind not in "mo"


def calls_in(told: bytes) -> list[Call]:
    """The calls that a run reported."""
    calls, at = [], 0
    while at < len(told):
        line = LINE.match(told, at)
        if line is None:
            raise ValueError(f"no call is reported by {told[at : at + 80]!r}")
        kind, file, where, size = line[1].decode(), int(line[2]), int(line[3]), int(line[4])
        at = line.end() + size
        calls.append(Call(kind, file, where, told[line.end() : at]))
    return calls


class Watched:
    """The program, with the library before the C library, which is kept in a folder."""

    def __init__(self, path, folder):
        self.path = os.path.abspath(path)
        self.library = preloaded("faults/disk_calls.c", folder, "-w")

    def environment(self, call, way, told, only=""):
        """The environment of a run."""
        return {
            "PATH": "/usr/local/bin:/usr/bin:/bin",
            "LANG": "C.UTF-8",
            "LD_PRELOAD": self.library,
            "DISK_CALL": str(call),
            "DISK_WAY": way,
            "DISK_TOLD": str(told),
            "DISK_ONLY": only,
        }

    def run(self, words, call=0, way="n", given=b"", only=""):
        """What a run wrote, on both streams, after its status. The call of this number is not made as it is asked for: `k` the
        program is killed in its place, `t` after half of it, `h` half of it is made, `o` it fails, `f` with all later ones. Of
        `only`, the path of a file, each call is counted, and no other."""
        return run_to_end([self.path, *words], given, env=self.environment(call, way, -1, only))

    def calls(self, words, told, given=b"", only=""):
        """What a run wrote, as above, and the calls that it made, which it reports in a file. Of `only` their number comes
        last."""
        with open(told, "w+b") as file:
            how = {"env": self.environment(0, "n", file.fileno(), only), "pass_fds": [file.fileno()]}
            said = run_to_end([self.path, *words], given, **how)
            file.seek(0)
            return said, calls_in(file.read())
