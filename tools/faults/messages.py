"""The messages that a case sends to `sample`: where each ends, its reply, and what comes of the input where it is cut."""
import re

from checks import Wrong
from replies import replies_in

CUT = b"stream: cut\n"
# A message of more than LONG bytes is cut at each of its first and last EDGE bytes, and of those between at one in SPARSE.
LONG, EDGE, SPARSE = 1_500, 300, 61

# The grammar of a head, line by line, as docs/MESSAGES.md gives it.
TOKEN = rb"[!#$%&'*+.^_`|~0-9A-Za-z-]+"
FIRST_LINE = re.compile(TOKEN + rb" [^\x00-\x20\x7f]+ HTTP/1\.[01]\r?\n")
FIELD_LINE = re.compile(TOKEN + rb":[^\x00-\x08\x0a-\x1f\x7f]*\r?\n")
LINE_ENDS = re.compile(rb"(?:\r?\n)*")
LENGTH = re.compile(rb"^content-length:[ \t]*(\d+)[ \t]*\r?$", re.IGNORECASE | re.MULTILINE)
MOST_HEAD = 8_192


def length_of(given, status):
    """How many bytes the message has that these begin with, by the status of its reply: up to where its fault shows, up to the
    end of its head, or of its body."""
    if status == 431:
        return MOST_HEAD
    at = LINE_ENDS.match(given).end()
    line = FIRST_LINE
    while found := line.match(given, at):
        at, line = found.end(), FIELD_LINE
    end = given.find(b"\n", at) + 1
    is_head = given[at:end] in (b"\r\n", b"\n") and line is FIELD_LINE
    if not end or not is_head and status != 400:
        raise Wrong("a case has a reply to what is no message")
    length = LENGTH.search(given[:end]) if status not in (400, 413, 501) else None
    return end + (int(length[1]) if length else 0)


class Message:
    """Bytes that are answered: where they begin and end in what is sent, the reply, and whether it ends the connection."""

    def __init__(self, given, begin, reply):
        self.begin = begin
        self.reply = reply
        self.closes = b"\r\nConnection: close\r\n" in reply.partition(b"\r\n\r\n")[0] + b"\r\n"
        self.end = self.begin + length_of(given[begin:], int(reply[9:12]))


class Messages:
    """What is sent, and its messages, by what it is answered."""

    def __init__(self, given, output):
        self.given = given
        self.all = []
        for reply in replies_in(output):
            self.all.append(Message(given, self.all[-1].end if self.all else 0, reply))

    def whole(self, size):
        """How many messages are whole in the first `size` bytes."""
        return sum(it.end <= size for it in self.all)

    def replies(self, count=None):
        """The replies to the first `count` messages, or to all."""
        return b"".join(it.reply for it in self.all[:count])

    def pieces(self):
        """The bytes of each message; what is sent after the last one belongs to it."""
        begins = [it.begin for it in self.all]
        return [self.given[begin:end] for begin, end in zip(begins, [*begins[1:], len(self.given)])]

    def ended(self, size):
        """How a run ends that is sent the first `size` bytes: the status, and what is written to both streams."""
        whole = self.whole(size)
        last = self.all[whole - 1] if whole else None
        rest = self.given[last.end if last else 0 : size]
        is_done = last and last.closes or LINE_ENDS.fullmatch(rest)
        return (0, self.replies(whole), b"") if is_done else (3, self.replies(whole), CUT)

    def places(self, known):
        """After which bytes it is cut: those of the messages that are not known yet, and of what follows the last one."""
        ends = [it.end for it in self.all]
        parts = [(0, ends[0] if ends else len(self.given)), *zip(ends, [*ends[1:], len(self.given)])]
        for begin, end in parts:
            part = self.given[begin:end]
            if part not in known:
                known.add(part)
                yield from (begin + at for at in range(1, len(part) + 1) if is_tried(at, len(part)))


def is_tried(at, size):
    """Whether a message of a size is cut after its first `at` bytes."""
    return size <= LONG or at <= EDGE or size - at <= EDGE or at % SPARSE == 0
