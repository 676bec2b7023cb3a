"""The built program at work on a machine of the simulation, by `serve` or by `run`, and what clients say to it."""
import contextlib
import os
import re
import select
import socket
import subprocess
import time
from collections.abc import Sequence
from typing import IO

from checks import Wrong
from replies import size_of
from serving import HOST, listening
from simulation.machine import Machine
from simulation.messages import Message
from simulation.plants import Crossing

SECONDS = 120
PIECE = 1 << 16
MOST_REQUESTS = 1_000_000
# A client that is silent is let go after this part of the time that it has; on a busy machine its messages come within that.
PART_OF_WAIT = 15
# What a counter gives a client for a message is less, in seconds. So long it is given itself to hear of one.
MORE_THAN_A_MESSAGE, HEARD = 31, 1.5
RESET = b"\1\0\0\0\0\0\0\0"
# How a client uses its connection: sends all at once, a byte at a time, in slow pieces; ends it inside a message,
# breaks it off inside one, or once the replies have come, which it doesn't read; is silent inside a message until it is
# let go.
MANNERS = ("plain", "bytes", "slow", "half", "reset", "unread", "silent")
HALF = b"POST /do/balance HTTP/1.1\r\nHost: bank\r\nContent-Le"


class Talk:
    """What a client says on one connection, in which manner, and what it gets: whole replies, and a beginning of the
    next one."""

    def __init__(self, messages: list[Message], manner: str = "plain") -> None:
        self.messages = messages
        self.manner = manner
        self.replies: list[bytes] = []
        self.rest = b""

    def given(self) -> bytes:
        """What is sent."""
        return b"".join(it.given for it in self.messages) + (HALF if self.manner in ("half", "reset", "silent") else b"")

    def take(self, piece: bytes) -> None:
        """Takes bytes that came."""
        self.rest += piece
        while len(self.replies) < len(self.messages):
            size = size_of(self.rest, self.messages[len(self.replies)].has_body)
            if size is None:
                return
            self.replies.append(self.rest[:size])
            self.rest = self.rest[size:]

    def is_answered(self) -> bool:
        return len(self.replies) == len(self.messages)

    def ends_connection(self) -> bool:
        return bool(self.messages) and self.messages[-1].closes

    def pairs(self) -> list[tuple[Message, bytes | None]]:
        """Each message with its reply, or None."""
        return list(zip(self.messages, [*self.replies, *[None] * (len(self.messages) - len(self.replies))]))


def badges_arguments(file: str, badges: str) -> list[str]:
    """The arguments that name a bank and its badges."""
    return [file, "--badges", badges]


def commands_of(program: str) -> set[str]:
    """The commands of the program, and whether `init` keeps sums of pages."""
    said, said_of_init = (help_of(it) for it in ([program], [program, "init"]))
    found = {it for it in ("counter", "forward") if re.search(rb"^ +%s\b" % it.encode(), said, re.MULTILINE)}
    return found | ({"sums"} if b"--sums" in said_of_init else set())


def help_of(arguments: list[str]) -> bytes:
    """What a program prints with --help."""
    return subprocess.run([*arguments, "--help"], capture_output=True, timeout=SECONDS, check=False).stdout


def input_of(run: subprocess.Popen[bytes]) -> IO[bytes]:
    """The input of a run."""
    if run.stdin is None:
        raise LookupError("the input has ended")
    return run.stdin


def output_of(run: subprocess.Popen[bytes]) -> IO[bytes]:
    """The output of a run."""
    if run.stdout is None:
        raise LookupError("the output is not read")
    return run.stdout


class Running:
    """A program that runs on a machine, by a command of this name; its first line, and a connection to it that is kept."""

    name = ""
    line = b""
    kept: socket.socket | None = None

    def __init__(self, machine: Machine, arguments: list[str], file: str, is_traced: bool) -> None:
        self.machine = machine
        self.run = machine.start(arguments, file, is_traced)

    def is_ready(self) -> bool:
        """Whether it takes messages."""
        return not self.is_dead()

    def converse(self, talks: Sequence[Talk], keeps: bool = False) -> None:
        """Has clients talk. The last one's connection is kept if that is asked for."""
        raise NotImplementedError

    def let_go(self) -> None:
        """Ends a connection that was kept."""
        if self.kept:
            self.kept.close()
            self.kept = None

    def input_ended(self, given: bytes = b"") -> tuple[int, bytes]:
        """Sends a last piece and ends the input: the status and what was written on standard error."""
        with contextlib.suppress(BrokenPipeError), input_of(self.run) as last:
            last.write(given)
        self.run.stdin = None
        return self.ended()

    def is_dead(self) -> bool:
        """Whether it has ended."""
        return self.run.poll() is not None

    def killed(self) -> tuple[int, bytes]:
        """Kills it, and returns its status and what it wrote on standard error."""
        self.run.kill()
        return self.ended()

    def terminated(self) -> tuple[int, bytes]:
        """Ends it by the signal that a supervisor sends."""
        self.run.terminate()
        return self.ended()

    def ended(self) -> tuple[int, bytes]:
        """Its status and what it wrote on standard error, once it has ended."""
        try:
            _, errors = self.run.communicate(timeout=SECONDS)
        except subprocess.TimeoutExpired as why:
            self.run.kill()
            self.run.communicate()
            raise Wrong(f"it had not ended after {SECONDS} seconds") from why
        return self.run.returncode, errors


class ByServe(Running):
    """`serve` over a file."""

    name = "serve"

    def __init__(
        self,
        machine: Machine,
        program: str,
        file: str,
        badges: str,
        moment: int,
        is_traced: bool = False,
        requests: int = MOST_REQUESTS,
    ) -> None:
        def start(port: int) -> subprocess.Popen[bytes]:
            self.port = port
            word, *more = self.arguments(requests)
            Running.__init__(self, machine, [program, word, *badges_arguments(file, badges), *more], file, is_traced)
            return self.run

        self.proxy: Crossing | None = None
        machine.set(moment=moment)
        self.port, self.run, self.line = listening(start)

    def arguments(self, requests: int) -> list[str]:
        """The command and its arguments but for the file and the badges."""
        return ["serve", "--port", str(self.port), "--requests", str(requests)]

    def is_ready(self) -> bool:
        """Whether it listens."""
        return self.line == b"listening %d\n" % self.port

    def connected(self) -> socket.socket:
        """A client's socket."""
        client = socket.create_connection((HOST, self.proxy.port if self.proxy else self.port), SECONDS)
        client.setsockopt(socket.IPPROTO_TCP, socket.TCP_NODELAY, 1)
        return client

    def converse(self, talks: Sequence[Talk], keeps: bool = False) -> None:
        """Has clients talk, the first of whom goes on with a connection that was kept. The last is kept where that is
        asked for."""
        clients = []
        for talk in talks:
            client, self.kept = self.kept, None
            self.machine.set(waits_part=PART_OF_WAIT if talk.manner == "silent" else 1)
            with contextlib.suppress(ConnectionError):
                client = client or self.connected()
                say(client, talk)
                if not keeps and talk.manner != "silent":
                    end_writing(client)
            clients.append(client)
            if talk.manner == "silent" and client:
                with contextlib.suppress(ConnectionError):
                    self.outwait(client, talk)
                hear(client, talk, False)
        for client, talk in zip(clients, talks):
            self.drain(client, talk, keeps)
        self.machine.set(waits_part=1)

    def outwait(self, client: socket.socket, talk: Talk) -> None:
        """Has the time pass that a silent client is given: its waits are shorter already."""

    def drain(self, client: socket.socket | None, talk: Talk, keeps: bool) -> None:
        """Takes what a client gets, and ends its connection or keeps it."""
        if client is None:
            return
        is_kept = keeps and not talk.ends_connection()
        if talk.manner != "reset":
            hear(client, talk, is_kept)
        if is_kept and talk.is_answered():
            self.kept = client
            return
        if talk.manner in ("reset", "unread"):
            client.setsockopt(socket.SOL_SOCKET, socket.SO_LINGER, RESET)
        client.close()


def say(client: socket.socket, talk: Talk) -> None:
    """Sends what a client says in its manner."""
    given = talk.given()
    if talk.manner == "bytes":
        for at in range(0, len(given), 1 if len(given) < 3_000 else 64):
            client.sendall(given[at : at + (1 if len(given) < 3_000 else 64)])
    elif talk.manner == "slow":
        size = max(len(given) // 4, 1)
        for at in range(0, len(given), size):
            client.sendall(given[at : at + size])
            time.sleep(0.002)
    else:
        client.sendall(given)


def end_writing(client: socket.socket) -> None:
    """Says that no more comes, where the connection still stands."""
    with contextlib.suppress(OSError):
        client.shutdown(socket.SHUT_WR)


def hear(client: socket.socket, talk: Talk, is_kept: bool) -> None:
    """Takes what comes until the connection ends, or all is answered where it is kept."""
    with contextlib.suppress(ConnectionError):
        while not (is_kept and talk.is_answered()):
            try:
                piece = client.recv(PIECE)
            except TimeoutError as why:
                raise Wrong(f"no reply came within {SECONDS} seconds") from why
            if not piece:
                return
            talk.take(piece)


class ByCounter(ByServe):
    """`counter` over a file, which serves many connections side by side until its input ends."""

    name = "counter"

    def arguments(self, requests: int) -> list[str]:
        return ["counter", "--port", str(self.port), "--until-input-ends"]

    def outwait(self, client: socket.socket, talk: Talk) -> None:
        """Has the running clock go on by more than a client is given for a message, until the connection ends: on a busy
        machine the message may come late, and its time begins then."""
        until = time.monotonic() + SECONDS
        while time.monotonic() < until:
            if not select.select([client], [], [], HEARD)[0]:
                self.machine.set(skipped=self.machine.get("skipped") + MORE_THAN_A_MESSAGE)
                continue
            piece = client.recv(PIECE)
            if not piece:
                return
            talk.take(piece)


class ByRun(Running):
    """`run` over a file."""

    name = "run"

    def __init__(
        self,
        machine: Machine,
        program: str,
        file: str,
        badges: str,
        moment: int,
        is_traced: bool = False,
        requests: int = MOST_REQUESTS,
    ) -> None:
        self.moment = moment
        super().__init__(machine, [program, "run", *badges_arguments(file, badges), "--moment", str(moment)], file, is_traced)

    def converse(self, talks: Sequence[Talk], keeps: bool = False) -> None:
        """Has one client talk after the other."""
        for talk in talks:
            with contextlib.suppress(BrokenPipeError):
                input_of(self.run).write(b"".join(it.given for it in talk.messages))
            while not talk.is_answered():
                if not select.select([output_of(self.run)], [], [], SECONDS)[0]:
                    raise Wrong(f"no reply came within {SECONDS} seconds")
                piece = os.read(output_of(self.run).fileno(), PIECE)
                if not piece:
                    self.run.wait(SECONDS)
                    return
                talk.take(piece)


# How a program is run, by its command.
Way = type[ByServe] | type[ByRun]
