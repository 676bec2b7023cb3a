"""Holds what goes by the clock against a peer on the same machine, in rounds that alternate: posts to a file against C SQLite, and
posts over connections against PostgreSQL.

    tools/benchmarks/peers [--rounds N] [--posts N] [--clients N ..] [--only PEER] [PROGRAM]

PROGRAM is crates/bank_cli/out/bank_cli if it is left out. Of a file: posts from standard input to standard output by `run`, and the
statements of as many by C SQLite (peer_sqlite.c), over copies of one bank without sums. Of connections: posts to `counter` by so
many clients, each of which sends its next once the reply before has come, and pgbench's TPC-B-like by as many, prepared, over
100,000 accounts. All are committed by a sync on the disk of TMPDIR. The clients of `counter` are one process of Python, those of
pgbench one or two of C.

A line for each round has both rates, their ratio and the machine's load; the last lines have the medians. What is not there is
skipped, and named. With --only file or connections one peer alone is met.
"""
import argparse
import contextlib
import glob
import os
import selectors
import shutil
import socket
import statistics
import subprocess
import tempfile
import time
from collections.abc import Callable, Iterator
from typing import Self

from checks import Wrong, lacking, reader
from repository import TOP, are_built
from sample_file import copy_bank, ended, make_sample, message, run_arguments
from serving import Counter, connected, free_port

POST = message("tess", "/do/post", {"account": 101, "branch": 1, "delta": 1, "teller": 11})
CLIENTS = (1, 6, 50, 500)
POSTS, ROUNDS, SECONDS = 2_000, 5, 10
# How many hundreds of thousands of accounts pgbench's bank has.
SCALE, MOST_CLIENTS = "1", 600
SETTINGS = f"""
listen_addresses = '127.0.0.1'
unix_socket_directories = ''
max_connections = {MOST_CLIENTS}
"""
# As whom PostgreSQL runs; it refuses to run as root.
OWNER = "postgres"


def peer_of_files(folder: str) -> str:
    """Compiles the peer of files, and returns its path."""
    peer = os.path.join(folder, "peer")
    source = os.path.join(TOP, "tools", "benchmarks", "peer_sqlite.c")
    subprocess.run(["cc", "-O2", "-o", peer, source, "-lsqlite3"], check=True)
    return peer


def lacks_sqlite() -> str:
    """What is said if C SQLite cannot be compiled against."""
    ran = subprocess.run(["cc", "-E", "-"], input=b"#include <sqlite3.h>\n", capture_output=True, check=False) if shutil.which("cc") else None
    return "" if ran and not ran.returncode else "there is no cc, or no sqlite3.h (package libsqlite3-dev)"


class Files:
    """Posts to a file, by the program and by C SQLite."""

    def __init__(self, program: str, folder: str, posts: int) -> None:
        self.program, self.posts = program, posts
        self.sample, self.file = (os.path.join(folder, it) for it in ("plain", "file"))
        make_sample(program, self.sample, sums=False)
        self.peer = peer_of_files(folder)

    def seconds(self, posts: int) -> float:
        """How long a run takes that is sent n posts."""
        copy_bank(self.sample, self.file)
        start = time.monotonic()
        ended(self.program, run_arguments(self.file, 0), POST * posts)
        return time.monotonic() - start

    def ours(self) -> float:
        """Posts per second by `run`, without its start."""
        first, whole = self.seconds(1), self.seconds(self.posts + 1)
        return self.posts / (whole - first)

    def theirs(self) -> float:
        """Posts per second by C SQLite."""
        copy_bank(self.sample, self.file)
        ran = subprocess.run([self.peer, self.file, str(self.posts)], stdout=subprocess.PIPE, check=True)
        return self.posts / int(ran.stdout) * 1e9


class Postgres:
    """A server of PostgreSQL with pgbench's tables, in a folder of its own."""

    def __init__(self, folder: str) -> None:
        self.folder, self.port = os.path.join(folder, "postgres"), str(free_port())
        self.programs = sorted(glob.glob("/usr/lib/postgresql/*/bin"))[-1]
        os.makedirs(self.folder)
        if os.getuid() == 0:
            os.chmod(folder, 0o755)
            shutil.chown(self.folder, OWNER)

    def run(self, name: str, *words: str) -> str:
        """Runs a program of PostgreSQL, as its owner if we are root, and returns what it prints."""
        before = ["setpriv", f"--reuid={OWNER}", f"--regid={OWNER}", "--clear-groups"] if os.getuid() == 0 else []
        path = os.path.join(self.programs, name)
        ran = subprocess.run([*before, path, *words], cwd=self.folder, capture_output=True, text=True, check=False)
        if ran.returncode:
            raise Wrong(f"{name} ended with status {ran.returncode}: {ran.stderr[-300:]}")
        return ran.stdout

    def pgbench(self, *words: str) -> str:
        """Runs pgbench over the server."""
        return self.run("pgbench", "-h", "127.0.0.1", "-p", self.port, *words, "postgres")

    def __enter__(self) -> Self:
        self.run("initdb", "-D", "data", "-A", "trust", "--no-locale", "-E", "UTF8")
        with open(os.path.join(self.folder, "data", "postgresql.conf"), "a", encoding="utf-8") as file:
            file.write(f"{SETTINGS}port = {self.port}\n")
        self.run("pg_ctl", "-D", "data", "-l", "log", "-w", "start")
        self.pgbench("-i", "-q", "-s", SCALE)
        return self

    def __exit__(self, *error: object) -> None:
        self.run("pg_ctl", "-D", "data", "-m", "fast", "-w", "stop")

    def rate(self, clients: int) -> float:
        """Transactions per second by n clients."""
        words = ("-n", "-b", "tpcb-like", "-M", "prepared", "-c", str(clients), "-j", str(min(2, clients)), "-T", str(SECONDS))
        found = [it.split()[2] for it in self.pgbench(*words).splitlines() if it.startswith("tps")]
        if not found:
            raise Wrong(f"pgbench counted no transaction of {clients} clients within {SECONDS} seconds")
        return float(found[0])


def rate(port: int, clients: int, posts: int) -> float:
    """Posts per second by n clients at a port, each of which sends its next once the reply before has come."""
    waiting, sent, done = selectors.DefaultSelector(), clients, 0
    with contextlib.ExitStack() as open_ones:
        opened = [open_ones.enter_context(connected(port)) for _ in range(clients)]
        for each in opened:
            waiting.register(each, selectors.EVENT_READ)
        start = time.perf_counter()
        for each in opened:
            each.sendall(POST)
        while done < sent:
            for key, _ in waiting.select():
                assert isinstance(key.fileobj, socket.socket)
                got = key.fileobj.recv(65536)
                if not got.startswith(b"HTTP/1.1 200 "):
                    raise Wrong(f"it answered {got[:200]!r}")
                done += 1
                if sent < posts:
                    key.fileobj.sendall(POST)
                    sent += 1
        passed = time.perf_counter() - start
    return done / passed


def our_rate(program: str, sample: str, file: str, clients: int, posts: int) -> float:
    """Posts per second by n clients of `counter`."""
    copy_bank(sample, file)
    with Counter(program, file) as serving:
        found = rate(serving.port, clients, posts)
        serving.require_done()
    return found


# What is measured of the program and of its peer, by what it is called.
Pair = tuple[Callable[[], float], Callable[[], float]]


def rounds(pairs: dict[str, Pair], count: int) -> None:
    """Measures each pair so often, one after another, and prints each round and the medians."""
    found: dict[str, list[tuple[float, float]]] = {name: [] for name in pairs}
    for number in range(1, count + 1):
        for name, (ours, theirs) in pairs.items():
            found[name].append((one := ours(), other := theirs()))
            print(f"round {number}, {name}: {one:.0f} and {other:.0f}, ratio {one / other:.2f}, load {os.getloadavg()[0]:.1f}", flush=True)
    for name, rates in found.items():
        one, other, ratio = (statistics.median(it) for it in (*zip(*rates), [a / b for a, b in rates]))
        print(f"{name}: {one:.0f} and {other:.0f} per second, ratio {ratio:.2f}", flush=True)


def of_connections(given: argparse.Namespace, postgres: Postgres, folder: str) -> dict[str, Pair]:
    """The pairs of connections, by how many clients there are."""
    sample, file = (os.path.join(folder, it) for it in ("sample", "bank"))
    make_sample(given.program, sample)

    def pair(clients: int) -> Pair:
        return lambda: our_rate(given.program, sample, file, clients, given.posts), lambda: postgres.rate(clients)

    return {f"{it} clients" if it > 1 else "1 client": pair(it) for it in given.clients}


def skipped(only: str | None) -> Iterator[tuple[str, str]]:
    """What is not measured, and why."""
    lacks_postgres = lacking("pgbench", "setpriv") or ("" if glob.glob("/usr/lib/postgresql/*/bin") else "there is no server of PostgreSQL")
    for name, lacks in (("file", lacks_sqlite()), ("connections", lacks_postgres)):
        if lacks or only not in (None, name):
            yield name, lacks


def measure(given: argparse.Namespace, folder: str) -> None:
    """Measures what can be measured."""
    left_out = dict(skipped(given.only))
    print("".join(f"skipped {name}: {why}\n" for name, why in left_out.items() if why), end="")
    if "file" not in left_out:
        files = Files(given.program, folder, given.posts)
        rounds({"a file": (files.ours, files.theirs)}, given.rounds)
    if "connections" not in left_out:
        with Postgres(folder) as postgres:
            rounds(of_connections(given, postgres, folder), given.rounds)


def main() -> int:
    arguments = reader(__doc__, has_checks=False)
    arguments.add_argument("--rounds", type=int, default=ROUNDS)
    arguments.add_argument("--posts", type=int, default=POSTS)
    arguments.add_argument("--clients", type=int, nargs="+", default=CLIENTS)
    arguments.add_argument("--only", choices=("file", "connections"))
    given = arguments.parse_args()
    if not are_built(given.program):
        return 1
    with tempfile.TemporaryDirectory(prefix="bank-peers-") as folder:
        try:
            measure(given, folder)
        except Wrong as wrong:
            print(f"FAILED {wrong}")
            return 1
    return 0
