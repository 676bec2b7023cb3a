"""Faults that are planted to see that a life finds them: here a proxy that gives replies to another connection."""
import contextlib
import socket
import threading
import time

from serving import HOST

SECONDS = 120
PIECE = 1 << 16
# So long a connection's replies wait for those of another that was made meanwhile.
WAIT = 0.05


class Passed:
    """A connection that is passed on: its client, and what came for it."""

    def __init__(self, client: socket.socket, server: socket.socket) -> None:
        self.client, self.server = client, server
        self.got = b""
        self.is_over = threading.Event()
        self.partner: Passed | None = None


class Crossing:
    """A proxy of a port. Of two connections that stand at once it gives the replies of each to the other."""

    def __init__(self, port: int) -> None:
        self.served = port
        self.listener = socket.create_server((HOST, 0))
        self.port = self.listener.getsockname()[1]
        self.lock = threading.Lock()
        self.open: list[Passed] = []
        threading.Thread(target=self.accept, daemon=True).start()

    def accept(self) -> None:
        """Passes on each connection that comes."""
        with contextlib.suppress(OSError):
            while True:
                client, _ = self.listener.accept()
                passed = Passed(client, socket.create_connection((HOST, self.served), SECONDS))
                with self.lock:
                    other = next((it for it in self.open if it.partner is None), None)
                    if other:
                        other.partner, passed.partner = passed, other
                    self.open.append(passed)
                threading.Thread(target=pass_on, args=(client, passed.server), daemon=True).start()
                threading.Thread(target=self.give_back, args=(passed,), daemon=True).start()

    def give_back(self, passed: Passed) -> None:
        """Gives a client what comes for it, or what comes for its partner."""
        with contextlib.suppress(OSError):
            first = passed.server.recv(PIECE)
            if first:
                time.sleep(WAIT)
            with self.lock:
                self.open.remove(passed)
            if passed.partner is None:
                passed.client.sendall(first)
                pass_on(passed.server, passed.client)
                return
            cross(passed, passed.partner, first)


def cross(passed: Passed, partner: Passed, first: bytes) -> None:
    """Takes all that comes for a client, and gives it what came for its partner."""
    passed.got = first
    with contextlib.suppress(OSError):
        while piece := passed.server.recv(PIECE):
            passed.got += piece
    passed.is_over.set()
    partner.is_over.wait(SECONDS)
    passed.client.sendall(partner.got)
    passed.client.close()


def pass_on(source: socket.socket, target: socket.socket) -> None:
    """Passes on all bytes."""
    with contextlib.suppress(OSError):
        while piece := source.recv(PIECE):
            target.sendall(piece)
        target.shutdown(socket.SHUT_WR)
