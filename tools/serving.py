"""The built program as it serves connections over a bank in a file."""
import contextlib
import fcntl
import itertools
import os
import socket
import struct
import subprocess
import termios
from collections.abc import Callable
from typing import Any, NamedTuple, Self, TypeVar

from checks import Wrong, wait_until
from sample_file import BADGES

SECONDS = 240
HOST = "127.0.0.1"
# Ports that are tried, below those that the system gives to clients.
PORTS = itertools.cycle(range(20_000, 30_000))
# How far apart two processes begin whose numbers follow one another; of twenty no two begin within 300.
PORTS_APART = 6_181
# Another port is taken so often, where somebody takes one between its choice and its use.
TRIES = 5
Made = TypeVar("Made")


class Begun(NamedTuple):
    """A run that has begun at a port, and its first line."""

    port: int
    run: subprocess.Popen[bytes]
    line: bytes

    def has_line(self) -> bool:
        """Whether it has a first line."""
        return bool(self.line)


def skip_ports():
    """Goes on to ports that other processes do not begin with."""
    for _ in range(os.getpid() * PORTS_APART % 10_000):
        next(PORTS)


skip_ports()
os.register_at_fork(after_in_child=skip_ports)


def is_free(port: int) -> bool:
    """Whether nobody has a port."""
    with socket.socket() as held:
        held.setsockopt(socket.SOL_SOCKET, socket.SO_REUSEADDR, 1)
        try:
            held.bind((HOST, port))
            held.listen()
        except OSError:
            return False
    return True


def free_port() -> int:
    """A port that nobody has, and that was not given before for long."""
    return next(port for port in PORTS if is_free(port))


def serve_arguments(file: str, port: int, requests: int) -> list[str]:
    """The arguments by which a bank in a file is served at a port, until `requests` messages are counted."""
    return ["serve", file, "--badges", BADGES, "--port", str(port), "--requests", str(requests)]


def connected(port: int) -> socket.socket:
    """A client's socket, whose bytes go out as they are sent."""
    client = socket.create_connection((HOST, port), SECONDS)
    client.setsockopt(socket.IPPROTO_TCP, socket.TCP_NODELAY, 1)
    return client


def bytes_at(client: socket.socket, question: int) -> int:
    """How many bytes the system says that it holds of a connection: TIOCOUTQ of those sent, FIONREAD of those to be read."""
    return struct.unpack("i", fcntl.ioctl(client, question, bytes(4)))[0]


def wait_until_taken(client, pause=0.001):
    """Waits until the system has taken what was sent over to the other side's end, which may not read it yet; of a Unix socket,
    until the other side has read it."""
    wait_until(lambda: not bytes_at(client, termios.TIOCOUTQ), SECONDS, "what was sent has come", pause)


def read_to_end(client):
    """What comes until the connection ends, however it ends."""
    got = b""
    with contextlib.suppress(ConnectionError):
        while piece := client.recv(65536):
            got += piece
    return got


def asked(port, given):
    """What a client gets that sends these bytes and says that no more come, if the connection is still there."""
    with connected(port) as client:
        with contextlib.suppress(OSError):
            client.sendall(given)
            client.shutdown(socket.SHUT_WR)
        return read_to_end(client)


def at_free_port(make: Callable[[int], Made], has_it: Callable[[Made], bool]) -> Made:
    """What is made at a free port; or at another one, if what was made does not have that and somebody else does."""
    for left in reversed(range(TRIES)):
        port = free_port()
        made = make(port)
        if has_it(made) or is_free(port) or not left:
            return made
    raise Wrong(f"no port was free at {TRIES} tries")


def listening(start: Callable[[int], subprocess.Popen[bytes]]) -> Begun:
    """A port, a run that `start` has begun at it, and its first line."""

    def begun(port: int) -> Begun:
        run = start(port)
        line = run.stdout.readline() if run.stdout else b""
        if not line:
            run.wait(SECONDS)
        return Begun(port, run, line)

    return at_free_port(begun, Begun.has_line)


class Serving:
    """A run that serves the bank in a file until a number of messages are counted. It is killed where it is left early."""

    given = subprocess.DEVNULL

    def __init__(self, program: str, file: str, requests: int, **more: Any) -> None:
        def start(port: int) -> subprocess.Popen[bytes]:
            words = [program, *self.arguments_at(file, port, requests)]
            return subprocess.Popen(words, stdin=self.given, stdout=subprocess.PIPE, stderr=subprocess.PIPE, **more)

        self.port, self.run, self.line = listening(start)

    def arguments_at(self, file: str, port: int, requests: int) -> list[str]:
        """The arguments of the run."""
        return serve_arguments(file, port, requests)

    def __enter__(self) -> Self:
        if not self.is_told():
            self.run.kill()
            self.run.communicate()
            raise Wrong(f"it said {self.line!r} first")
        return self

    def __exit__(self, *error: object) -> None:
        if self.run.poll() is None:
            self.run.kill()
        self.run.communicate()

    def is_told(self) -> bool:
        """Whether the first line says at which port it listens."""
        return self.line == b"listening %d\n" % self.port

    def ended(self, seconds: float = SECONDS) -> tuple[int, bytes, bytes]:
        """The status, and what was written after the first line, once it has ended."""
        output, errors = self.run.communicate(timeout=seconds)
        return self.run.returncode, output, errors

    def require_done(self, seconds: float = SECONDS) -> None:
        """Passes if it has counted its messages, and has nothing more to say."""
        found = self.ended(seconds)
        if found != (0, b"", b""):
            raise Wrong(f"it ended with {found!r}")


def counter_arguments(file: str, *more: str) -> list[str]:
    """The arguments by which many connections are served at once over a bank in a file, until standard input ends."""
    return ["counter", file, "--badges", BADGES, "--until-input-ends", *more]


class Counter(Serving):
    """A run that serves many connections at once over the bank in a file, until its input ends. How many messages are wanted is
    not looked at."""

    given = subprocess.PIPE

    def __init__(self, program: str, file: str, requests: int = 0, **more: Any) -> None:
        super().__init__(program, file, requests, **more)

    def arguments_at(self, file: str, port: int, requests: int) -> list[str]:
        return counter_arguments(file, "--port", str(port))

    def end_input(self):
        """Ends the input, and does not wait for what comes of that. (What waits for the end closes the input otherwise.)"""
        self.run.stdin.close()
        self.run.stdin = None
