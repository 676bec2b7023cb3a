"""Replies of HTTP, read from the bytes of a connection or of a stream."""
import re
from collections.abc import Callable
from typing import NamedTuple

from checks import Wrong

END_OF_HEAD = b"\r\n\r\n"
# Where a reply begins, and its field that says how long its body is.
BEGIN, LENGTH = re.compile(rb"(?=HTTP/1\.1 \d{3} )"), re.compile(rb"^Content-Length: (\d+)\r$", re.MULTILINE)
STATUS = re.compile(rb"HTTP/1\.[01] (\d{3}) ")


class Reply(NamedTuple):
    """A reply: its status with the phrase, its fields by their names, and its body."""

    status: int
    phrase: str
    fields: dict[str, str]
    body: bytes

    def as_text(self) -> str:
        """What is printed of it."""
        return f"{self.status} {self.body.decode(errors='replace')}"


def size_of(got: bytes, has_body: bool = True) -> int | None:
    """How many bytes the first reply has in these, or none if it is not whole; that to a HEAD has no body."""
    head, end, body = got.partition(END_OF_HEAD)
    length = LENGTH.search(head + b"\r\n") if end else None
    if not length or has_body and len(body) < int(length[1]):
        return None
    return len(head + end) + (int(length[1]) if has_body else 0)


def next_reply(receive: Callable[[], bytes], got: bytes = b"", has_body: bool = True) -> tuple[bytes, bytes]:
    """The next reply, whose pieces `receive` returns after those that came before, and the bytes after it."""
    while (size := size_of(got, has_body)) is None:
        piece = receive()
        if not piece:
            raise Wrong(f"it ended within a reply: {got[:200]!r}")
        got += piece
    return got[:size], got[size:]


def parsed(reply: bytes) -> Reply | None:
    """A whole reply by its parts, or none if its head is none."""
    head, _, body = reply.partition(END_OF_HEAD)
    first, *lines = head.decode("ascii").split("\r\n")
    found = re.fullmatch(r"HTTP/1\.1 (\d{3}) (.+)", first)
    return Reply(int(found[1]), found[2], dict(it.split(": ", 1) for it in lines), body) if found else None


def replies_in(output: bytes) -> list[bytes]:
    """The replies in a stream that begins with one; the last may be cut."""
    return BEGIN.split(output)[1:]


def body_of(reply: bytes) -> bytes:
    """The body of a reply."""
    return reply.partition(END_OF_HEAD)[2]


def with_body(reply: bytes, body: bytes) -> bytes:
    """A reply that has another body."""
    head = reply.partition(END_OF_HEAD)[0] + END_OF_HEAD
    return LENGTH.sub(b"Content-Length: %d\r" % len(body), head) + body


def statuses_in(output: bytes) -> list[int]:
    """The statuses of all replies in a stream, also of those that only begin there."""
    return [int(it) for it in STATUS.findall(output)]
