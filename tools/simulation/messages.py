"""Messages as clients send them, and what is due to each by the reference model: requests, and messages that state none."""
import json
import re

from model.answers import answer
from model.bank import COMMANDS, OPERATIONS, AnyBank, Body
from replies import END_OF_HEAD

# The user whose badge is nobody's.
NOBODY = 0

STATUS = {
    1: "400 Bad Request",
    2: "431 Request Header Fields Too Large",
    3: "413 Payload Too Large",
    4: "501 Not Implemented",
    5: "404 Not Found",
    6: "422 Unprocessable Entity",
}
# What changes nothing.
READS = {"balance", "statement", "accounts", "proof", "listing"}
CLOSE = b"Connection: close\r\n"
FAILED = re.compile(rb'HTTP/1\.1 503 Service Unavailable\r\n.*\r\n\r\n\{"fault":"F(\d)"\}', re.DOTALL)


class Asked:
    """A request of a kind by a user at a moment, in a session; of NOBODY if nobody has the badge."""

    def __init__(self, kind: str, user: int, session: int, body: Body, release: int = 0, slip: int = 0) -> None:
        self.kind = kind
        self.user = user
        self.session = session
        self.body = body
        self.release = release
        self.slip = slip
        self.moment = 0


def target_of(kind: str) -> str:
    """The method and the path that ask for a kind."""
    if kind == "listing":
        return "GET /policy"
    if kind in OPERATIONS:
        return "POST /do/" + kind
    return "POST /policy/" + kind if kind in COMMANDS else "POST /" + kind


def fields_of(asked: Asked, badge: str) -> list[str]:
    """The field lines of a request."""
    numbers = {"Session": asked.session, "Release": asked.release, "Slip": asked.slip}
    badges = [f"Bank-Badge: {badge}"] if badge else []
    return [*badges, *(f"Bank-{name}: {it}" for name, it in numbers.items() if it)]


class Message:
    """What a client sends: a request, or a message with a fault M1 to M6 that the head or the fields have."""

    def __init__(self, asked: Asked, badge: str, fault: int = 0, head: bytes | None = None, closes: bool = False) -> None:
        self.asked, self.badge, self.fault = asked, badge, fault
        self.closes = closes or 1 <= fault <= 4
        self.has_body = head is None or not head.startswith(b"HEAD ")
        self.given = self.made() if head is None else head
        # whether it was sent before
        self.was_sent = False

    def made(self) -> bytes:
        """The bytes of a request."""
        body = json.dumps(self.asked.body).encode() if self.asked.body else b""
        lines = [f"{target_of(self.asked.kind)} HTTP/1.1", "Host: bank", *fields_of(self.asked, self.badge)]
        lines += ["Connection: close"] if self.closes else []
        return ("\r\n".join([*lines, f"Content-Length: {len(body)}"]) + "\r\n\r\n").encode() + body

    def renew(self, session: int) -> None:
        """Has it name another session, and not end its connection."""
        self.asked.session, self.closes = session, False
        self.given = self.made()

    def due(self, bank: AnyBank, moment: int) -> tuple[AnyBank, bytes]:
        """The bank after the message at a moment, and the reply."""
        if self.fault:
            text = b'{"fault":"M%d"}' % self.fault
            head = f"HTTP/1.1 {STATUS[self.fault]}\r\nContent-Type: application/json\r\nContent-Length: {len(text)}\r\n\r\n"
            reply = head.encode() + (text if self.has_body else b"")
        else:
            self.asked.moment = moment
            after, _, reply = answer(bank, self.asked)
            bank = bank if self.asked.kind in READS else after
        return bank, with_close(reply) if self.closes else reply

    def is_again(self) -> bool:
        """Whether its client sends it again where no reply came."""
        return not self.fault and self.asked.slip > 0 and self.asked.user != NOBODY


def with_close(reply: bytes) -> bytes:
    """A reply after which the connection ends."""
    head, _, body = reply.partition(END_OF_HEAD)
    return head + b"\r\n" + CLOSE + b"\r\n" + body


def failure(reply: bytes) -> int:
    """The number of the fault F that a reply has, or 0."""
    found = FAILED.match(reply)
    return int(found[1]) if found else 0
