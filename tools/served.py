"""The built program at work: messages are sent to it one at a time, each once the reply before has come."""
import os
import re
import subprocess

from checks import Wrong
from replies import body_of, next_reply

PIECE = 1 << 16


class Served:
    """A run of the program that serves standard input. It has to end well once nothing more is sent."""

    def __init__(self, words, **how):
        self.run = subprocess.Popen(words, stdin=subprocess.PIPE, stdout=subprocess.PIPE, bufsize=0, **how)
        self.got = b""

    def __enter__(self):
        return self

    def __exit__(self, kind, error, trace):
        if kind:
            self.run.kill()
        self.run.stdin.close()
        more, status = self.run.stdout.read(), self.run.wait()
        self.run.stdout.close()
        if not kind and (more, status) != (b"", 0):
            raise Wrong(f"it ended with status {status}, and wrote {more[:200]!r} after the last reply")

    def ask(self, message):
        """The body of the reply to a message. It has to be carried out."""
        self.run.stdin.write(message)
        reply, self.got = next_reply(lambda: os.read(self.run.stdout.fileno(), PIECE), self.got)
        if not reply.startswith(b"HTTP/1.1 200 "):
            raise Wrong(f"it answered {reply[:200]!r}")
        return body_of(reply)

    def most_held(self):
        """The most memory that the program ever held at once, in kilobytes."""
        return most_held(self.run)


def most_held(process):
    """The most memory that a process ever held at once, in kilobytes."""
    with open(f"/proc/{process.pid}/status", encoding="ascii", errors="replace") as file:
        found = re.search(r"^VmHWM:\s*(\d+) kB$", file.read(), re.MULTILINE)
    if not found:
        raise Wrong("/proc does not say what memory it held")
    return int(found[1])
