"""What the files of a bank can hold when the power fails: what was written, what was synced, or that and the last write."""
import os

from faults.disk_calls import Call
from sample_file import ENDINGS

# The files of a bank, and the one in which `init` writes its first page, by the endings of their names.
ALL = (*ENDINGS, "-new")


def make(text: bytearray, call: Call) -> None:
    """Makes a call, which writes a file or shortens it, on its bytes."""
    if len(text) < call.where:
        text.extend(bytes(call.where - len(text)))
    if call.kind == "t":
        del text[call.where :]
    else:
        text[call.where : call.where + len(call.data)] = call.data


class Held:
    """What a file held when it was synced last, and the calls that came since."""

    def __init__(self, text: bytes = b"") -> None:
        self.synced = bytearray(text)
        self.since: list[Call] = []

    def sync(self) -> None:
        """All that was written is synced."""
        for call in self.since:
            make(self.synced, call)
        self.since = []

    def with_calls(self, calls: list[Call]) -> bytes:
        """What was synced, and these calls."""
        text = bytearray(self.synced)
        for call in calls:
            make(text, call)
        return bytes(text)

    def written(self) -> bytes:
        """All that was written."""
        return self.with_calls(self.since)

    def ways(self) -> tuple[bytes, bytes, bytes]:
        """What it can hold when the power fails."""
        return self.written(), bytes(self.synced), self.with_calls(self.since[-1:])


class Disk:
    """The files of a bank, by the endings of their names. One that is made, renamed or removed is so at once. Where no bank is
    named, there are none."""

    def __init__(self, file: str | None = None) -> None:
        self.held: dict[str, Held] = {}
        for ending in ALL if file else ():
            if os.path.exists(f"{file}{ending}"):
                with open(f"{file}{ending}", "rb") as opened:
                    self.held[ending] = Held(opened.read())
        # the ending of each file that is open, by its number
        self.opened: dict[int, str | None] = {}

    def ending(self, path: bytes) -> str | None:
        """The ending of the bank's name in a path, or none where it is no file of the bank's."""
        name = os.fsdecode(path)
        return next((it for it in ALL if os.path.basename(name) == "bank" + it), None)

    def rename(self, old, new):
        """A file takes the name of another, which is gone."""
        self.held[new] = self.held.pop(old)
        moved = {old: new, new: None}
        self.opened = {file: moved.get(ending, ending) for file, ending in self.opened.items()}

    def make(self, call: Call) -> None:
        """Makes a call."""
        if call.kind in "oc":
            opened = self.opened[call.file] = self.ending(call.data)
            if call.kind == "c" and opened is not None:
                self.held.setdefault(opened, Held())
            return
        if call.kind == "r":
            self.rename(*(self.ending(it) for it in call.data.split(b"\0")))
            return
        ending = self.ending(call.data) if call.kind == "u" else self.opened.get(call.file)
        if ending is None or call.kind == "p":
            return
        if call.kind == "u":
            del self.held[ending]
        elif call.kind == "s":
            self.held[ending].sync()
        else:
            self.held[ending].since.append(call)

    def written(self):
        """What was written, in each file."""
        return {ending: it.written() for ending, it in self.held.items()}

    def synced(self):
        """What was synced, in each file."""
        return {ending: bytes(it.synced) for ending, it in self.held.items()}

    def states(self):
        """What the files can hold when the power fails now."""
        ways = [{}]
        for ending, held in self.held.items():
            ways = [{**way, ending: text} for way in ways for text in held.ways()]
        return {tuple(sorted(it.items())) for it in ways}
