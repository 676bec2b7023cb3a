"""What fails while the built program is at work (works.py): a fault has places, and the work is tried once for each of them."""
import contextlib
import fcntl
import os
import random
import struct
import subprocess
import tempfile
import termios
import time

from checks import Wrong
from faults import disk_states
from faults.earlier_files import NOT_READ
from faults.refusals import MOST_CALLS
from faults.works import AFTER, BROKEN, REFUSED
from sample_file import SECONDS

# How many of a run's last calls for memory are refused, each in a run of its own.
LAST = 100
KILLED = (-9, b"", b"")
# So often an upgrade is killed, at a moment that is drawn.
TIMES = 50


class Fault:
    """What fails. A work ends as it does without it, or with status 3 and its line; a request is answered 503, by its first
    reply, and then by its later one."""

    line = b"memory\n"
    replies = (REFUSED[1], REFUSED[1])
    # whether a request may be carried out that is answered 503, and whether nothing is carried out after it
    may_be_done = stops = False
    # whether a file that is not changed keeps its bytes
    leaves_bytes = False

    def __init__(self, name):
        self.name = name

    def ends(self, well):
        """How a work may end that ends so without the fault."""
        return {well, (3, b"", self.line)}

    def judged(self, work, said, file, place):
        """What is left, once a work ended so; what must not be is raised."""
        return work.judged(said, file, self, place)


class Memory(Fault):
    """A call for memory is refused, alone or with all later ones."""

    leaves_bytes = True

    def __init__(self, name, program, early, late, later):
        """Of the calls before the first request is read one in `early` is refused alone, or none; of the others one in `late`,
        and with all later ones one in `later`."""
        super().__init__(name)
        self.program = program
        self.early, self.late, self.later = early, late, later

    def run(self, work, file, first, last, given=None):
        """How a work ends with these calls refused, and whether the first of them was made."""
        reached = []

        def run(arguments, given, beside=None):
            said, is_reached = self.program.run(arguments, given, first, last, beside)
            reached.append(is_reached)
            return said

        return work.made(run, file, given), reached[0]

    def calls(self, work, room, given=None):
        """How often a work calls for memory, which may be given something else."""
        made, more = 0, MOST_CALLS
        while more - made > 1:
            call = (made + more) // 2
            with tempfile.TemporaryDirectory(dir=room) as folder:
                work.begin(os.path.join(folder, "bank"))
                is_reached = self.run(work, os.path.join(folder, "bank"), call, call, given)[1]
            made, more = (call, more) if is_reached else (made, call)
        return made

    def places(self, work, room):
        """The calls that are refused, from the first to the last."""
        calls = self.calls(work, room)
        start = 0 if work.is_tried_throughout else self.calls(work, room, b"")
        begin = max(start - LAST, 0) if self.early else start
        alone = {*(range(1, begin, self.early) if self.early else ()), *range(begin + 1, calls + 1, self.late)}
        alone |= {*range(max(start, calls - LAST) + 1, calls + 1)}
        many = range(1 if self.early else start + 1, calls + 1, self.later)
        return [(it, it) for it in sorted(alone)] + [(it, MOST_CALLS) for it in many]

    def goes_on(self, place):
        """Whether all later calls are refused, too."""
        return place[1] > place[0]

    def at(self, place):
        """What is refused, as text."""
        return f"call {place[0]} for memory refused{' and all later ones' if self.goes_on(place) else ''}"

    def made(self, work, file, place):
        """Tries it; where each run makes the same calls, that one has to be made."""
        said, is_reached = self.run(work, file, *place)
        if work.is_steady and said[0] >= 0 and not is_reached:
            raise Wrong("that call was not made")
        return said


class Disk(Fault):
    """A call is not made as it is asked for: of those that change files, or of all to the bank's file or to its log."""

    line = NOT_READ[2]
    replies = (REFUSED[3], REFUSED[4])
    may_be_done = stops = True
    WAYS = {"killed": "k", "torn": "t", "once": "o", "half": "h", "from there on": "f"}

    def __init__(self, name, watched, way, ending=None):
        super().__init__(name)
        self.watched = watched
        self.way, self.ending = way, ending

    def ends(self, well):
        return {KILLED} if self.way in ("killed", "torn") else {well} if self.way == "half" else super().ends(well)

    def only(self, file):
        """The path of the file whose calls fail, or none where those of each do."""
        return "" if self.ending is None else os.path.realpath(file) + self.ending

    def calls(self, work, room):
        """The calls that a work makes."""
        with tempfile.TemporaryDirectory(dir=room) as folder:
            file, report = os.path.join(folder, "bank"), os.path.join(folder, "report")
            work.begin(file)
            (status, *wrote), calls = self.watched.calls(work.arguments(file), report, work.given, self.only(file))
        if status != 0:
            raise Wrong(f"it ended with status {status}, {wrote!r}, and nothing failed")
        return calls

    def places(self, work, room):
        calls = self.calls(work, room)
        number = sum(it.is_counted() for it in calls) if self.ending is None else calls[-1].where
        if number == 0:
            raise Wrong("no call was seen")
        return range(1, number + 1)

    def at(self, place):
        return f"call {place} to the disk"

    def made(self, work, file, place):
        return self.watched.run(work.arguments(file), place, self.WAYS[self.way], work.given, self.only(file))


class Power(Disk):
    """The power fails after a call: of the file and of its log what was written is there, only what was synced, or beside that
    the last write."""

    def __init__(self, name, watched):
        super().__init__(name, watched, "once")

    def ends(self, well):
        return {None}

    def places(self, work, room):
        """What the files may hold, and whether nothing else came; then it is the bank after the work."""
        disk, states = disk_states.Disk(work.bank), {}
        for call in self.calls(work, room):
            disk.make(call)
            states.update(dict.fromkeys(sorted(disk.states())))
        ends = [tuple(sorted(it.items())) for it in (disk.written(), disk.synced())]
        return [(it, False) for it in states] + [(it, True) for it in ends]

    def at(self, place):
        return f"files of {' and '.join(str(len(text)) for _, text in place[0])} bytes"

    def made(self, work, file, place):
        for ending in disk_states.ALL:
            with contextlib.suppress(FileNotFoundError):
                os.remove(file + ending)
        for ending, text in place[0]:
            with open(file + ending, "wb") as opened:
                opened.write(text)

    def judged(self, work, said, file, place):
        left = super().judged(work, said, file, place)
        if place[1] and left != AFTER:
            raise Wrong("in the end the bank after it is not there")
        return left


class Killed(Fault):
    """The program is killed at a moment that is drawn from the time that it takes."""

    def __init__(self, name):
        super().__init__(name)
        self.rng = random.Random(1)

    def ends(self, well):
        return {well, KILLED, (-9, *well[1:])}

    def places(self, work, room):
        """Seconds."""
        with tempfile.TemporaryDirectory(dir=room) as folder:
            file = os.path.join(folder, "bank")
            work.begin(file)
            start = time.monotonic()
            work.made(lambda *it: ran(work.program, *it), file)
            longest = time.monotonic() - start
        return [self.rng.random() * longest for _ in range(TIMES)]

    def at(self, place):
        return f"killed after {place * 1000:.1f} milliseconds"

    def made(self, work, file, place):
        def kill(process):
            time.sleep(place)
            process.kill()

        return work.made(lambda arguments, given: ran(work.program, arguments, given, kill), file)


class OfStream(Fault):
    """Something at a byte of the standard streams. How the run ends and what is left are both fixed."""

    def judged(self, work, said, file, place):
        due, count = self.due(work.messages, place, said)
        if said != due:
            raise Wrong(f"it ended with {said!r}, wanted {due!r}")
        work.require_world(file, count)
        return "as due"


class Cut(OfStream):
    """The input comes in two pieces, the second once the first was taken."""

    def places(self, work, _):
        return [it for it in work.places if it]

    def at(self, place):
        return f"cut after byte {place}"

    def due(self, messages, _place, _said):
        return messages.ended(len(messages.given)), len(messages.all)

    def made(self, work, file, place):
        def send(process):
            last = time.monotonic() + SECONDS
            with contextlib.suppress(BrokenPipeError):
                process.stdin.write(work.given[:place])
            while not is_taken(process):
                if time.monotonic() > last:
                    raise Wrong(f"it had not taken {place} bytes after {SECONDS} seconds")
                time.sleep(0.0002)

        return ran(work.program, work.arguments(file), work.given[place:], send)


class Ended(OfStream):
    """The input ends."""

    def places(self, work, _):
        return work.places

    def at(self, place):
        return f"ended after byte {place}"

    def due(self, messages, place, _):
        return messages.ended(place), messages.whole(place)

    def made(self, work, file, place):
        return ran(work.program, work.arguments(file), work.given[:place])


class Failing(OfStream):
    """Standard input or output, each a byte at a time, fails at a call: alone, with all later calls, or by taking no byte."""

    def __init__(self, name, library, call, how="o"):
        super().__init__(name)
        self.library = library
        self.call, self.how = call, how

    def places(self, work, _):
        messages = work.messages
        return range(len(messages.given) + 1) if self.call == "read" else range(len(messages.replies()))

    def at(self, place):
        return f"{self.name} after byte {place}"

    def due(self, messages, place, said):
        """Of a read: what had come whole is answered and done. Of a write: the message whose reply broke off was carried out, and
        none after it; those bytes went out, and more of that reply at most, where a later write was not refused."""
        if self.call == "read":
            whole = messages.whole(place)
            return (3, messages.replies(whole), BROKEN), whole
        done = 1 + next(it for it in range(len(messages.all)) if len(messages.replies(it + 1)) > place)
        replies = messages.replies(done)
        size = min(max(len(said[1]), place), place if self.how == "f" else len(replies))
        return (3, replies[:size], BROKEN), done

    def made(self, work, file, place):
        calls = {"FAILS_READ": "0", "FAILS_WRITE": "0", f"FAILS_{self.call.upper()}": str(place + 1), "FAILS_HOW": self.how}
        return ran(work.program, work.arguments(file), work.given, LD_PRELOAD=self.library, **calls)


def ran(program, arguments, given, beside=None, **settings):
    """How a run ended: the status, and what it wrote to both streams. A function that is done beside it is given its process."""
    pipes = dict.fromkeys(("stdin", "stdout", "stderr"), subprocess.PIPE)
    env = {"PATH": "/usr/local/bin:/usr/bin:/bin", "LANG": "C.UTF-8", **settings}
    with subprocess.Popen([program, *arguments], bufsize=0, env=env, **pipes) as run:
        try:
            if beside:
                beside(run)
            output, errors = run.communicate(given, SECONDS)
        finally:
            run.kill()
    return run.returncode, output, errors


def is_taken(process):
    """Whether a program has taken all that was sent to it, or has ended."""
    held = struct.unpack("i", fcntl.ioctl(process.stdin, termios.FIONREAD, bytes(4)))[0]
    return held == 0 or process.poll() is not None
