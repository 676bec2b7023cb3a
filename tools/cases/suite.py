r"""Reads the acceptance tests: rows/*.rows, text files whose cases say what the program is given and what it must answer, and
the long cases that long_cases makes. `Suite` has all of them. A case is a list of steps, each a run of the program with what is
done in its folder before. It begins with `row NAME`, and has lines of these kinds:

    tess POST /do/balance {"account":101}    a request: `Host: bank`, the badge, session 1, the length where there is a body, and
                                             the body. At /session it has no session. After the badge may stand `session=2`,
                                             `session=none`, `release=1`, `slip=5`
    200 {"balance":50000}                    a reply: the phrase of its status, `Content-Type: application/json`, the length and
                                             the body. `200 text` is `text/plain`, `400 close` has `Connection: close`; lines that
                                             begin with `|` may be its body
    > Host: bank, < HTTP/1.1 200 OK          a line that is sent or must be written, with CR LF
    | made, ! stream: cut                    a line that must be written to standard output or to standard error, with LF
    as NAME                                  the requests and replies of `talk NAME`, a block of them alone
    run sample --moment 700                  the arguments; before the first case of a file, those of its cases that have none.
                                             `""` is an empty one
    status 3, output any                     the exit status where it is not 0; that output is not compared
    shows limit, rules .., test .., none ..  for `coverage`: which rule the case shows; in a file's head which rules there are,
                                             and what no case shows

A file NAME.rows.gz is such a text that gzip has compressed. A file holds printable ASCII alone. A line that begins with `#` is a comment. In texts `\n`, `\r`, `\t`, `\s` for a space, `\\`
and `\xff` are single bytes, `\{973*\s}` is 973 spaces, and a `\` at the end of a line takes its line end away. `\{length}` is the
number of bytes after the next empty line, up to the end of these `>` lines. All that a run is sent comes at once: the replies
stand between the requests for the reader alone.

A case may have several runs in one folder, each after a `run` of its own, and files:

    file lists/users.csv                     the file, by its lines with `|`
    edit lists/users.csv                     lines with `-` that stand there once, and those with `+` in their place
    copy bank.db old.db, remove users.csv    the copy; the file is removed
    lists lists, badges badges.csv           the sample's opening lists in a folder, and its badges in a file, from sample/
    sql bank.db                              what Python's sqlite3 carries out on the file: its lines with `|`
    after NAME                               the folder begins as the case NAME leaves it, whose runs are compared here, too; or as
                                             `files NAME` says, a block that has files and no run
    unchanged bank.db, absent bank.db        after a run: the file is as it was before it, or is not there
    rights bank.db 644                       after a run, which a mask of 0 takes no rights from: those of the file
"""
import glob
import gzip
import os
import re
import shutil
import sqlite3

from cases import long_cases
from repository import TOP

ROWS = os.path.join(TOP, "rows")
# Long files that were drawn at random, and that nobody reads, are compressed.
ENDS = (".rows", ".rows.gz")
# The opening lists of the sample bank, and among them its badges.
SAMPLE = os.path.join(TOP, "sample")
BADGES = "badges.csv"
PHRASES = {
    200: "OK",
    400: "Bad Request",
    403: "Forbidden",
    404: "Not Found",
    409: "Conflict",
    413: "Payload Too Large",
    422: "Unprocessable Entity",
    431: "Request Header Fields Too Large",
    501: "Not Implemented",
    503: "Service Unavailable",
}
# The fields that a request in one line may name, in the order in which they are sent.
FIELDS = {"session": "Bank-Session", "release": "Bank-Release", "slip": "Bank-Slip"}
REQUEST = re.compile(r"([A-Za-z]+)((?: [a-z]+=\S+)*) ([A-Z]+) (/\S*)(?: (.+))?")
REPLY = re.compile(r"([0-9]{3})( text)?( close)?(?: (.+))?")
# What begins a line of bytes, or one of two that an `edit` has.
MARKS = {">", "<", "|", "!", "-", "+"}
ESCAPES = {"n": b"\n", "r": b"\r", "t": b"\t", "s": b" ", "\\": b"\\"}
TOKEN = re.compile(r"\\x([0-9a-f]{2})|\\\{([0-9]+)\*([^}]+)\}|\\([nrts\\])|([^\\]+)")
# A backslash at the end, and not one that is written as two.
OPEN_END = re.compile(r"(?<!\\)(?:\\\\)*\\$")
LENGTH = r"\{length}"


class BadRow(Exception):
    """Text that is no row."""


def bytes_of(text):
    """The bytes that a text represents."""
    made, at = [], 0
    while at < len(text):
        token = TOKEN.match(text, at)
        if not token:
            raise BadRow(f"there is no such escape: {text[at:at + 10]}")
        number, times, repeated, letter, plain = token.groups()
        if number:
            made.append(bytes([int(number, 16)]))
        elif times:
            made.append(int(times) * bytes_of(repeated))
        else:
            made.append(ESCAPES[letter] if letter else plain.encode("ascii"))
        at = token.end()
    return b"".join(made)


def bytes_of_lines(lines, end=b"\n"):
    """The bytes of lines that have this end. A backslash after a line takes its end away."""
    return b"".join(bytes_of(it[:-1]) if OPEN_END.search(it) else bytes_of(it) + end for it in lines)


def spelled(lines):
    """The bytes of lines that end with CR LF. Where a length is asked for, it is that of all after the next empty line."""
    counted = []
    for number, line in enumerate(lines):
        if LENGTH in line:
            below = lines[lines.index("", number) + 1:] if "" in lines[number:] else []
            line = line.replace(LENGTH, str(len(bytes_of_lines(below, b"\r\n"))))
        counted.append(line)
    return bytes_of_lines(counted, b"\r\n")


def message(head, body):
    """The bytes of a message."""
    return "\r\n".join([*head, "", ""]).encode("ascii") + body


def request(badge, named, method, path, body):
    """The bytes of a request in one line."""
    values = {"session": "none" if path == "/session" else "1", **dict(it.split("=", 1) for it in named.split())}
    if set(values) - set(FIELDS):
        raise BadRow(f"a request in one line names no such field: {' '.join(sorted(set(values) - set(FIELDS)))}")
    fields = [f"{FIELDS[it]}: {values[it]}" for it in FIELDS if values.get(it, "none") != "none"]
    text = bytes_of(body or "")
    length = [f"Content-Length: {len(text)}"] if text else []
    return message([f"{method} {path} HTTP/1.1", "Host: bank", f"Bank-Badge: {badge}", *fields, *length], text)


def reply(status, is_text, closes, body):
    """The bytes of a reply in one line."""
    if int(status) not in PHRASES:
        raise BadRow(f"no reply has the status {status}")
    head = [
        f"HTTP/1.1 {status} {PHRASES[int(status)]}",
        f"Content-Type: {'text/plain' if is_text else 'application/json'}",
        f"Content-Length: {len(body)}",
    ]
    return message([*head, "Connection: close"] if closes else head, body)


class Written:
    """A file that is written before a run."""

    def __init__(self, path, text):
        self.path = path
        self.text = text

    def make(self, room):
        """Writes it, in a folder of the case's own."""
        path = os.path.join(room, self.path)
        os.makedirs(os.path.dirname(path), exist_ok=True)
        with open(path, "wb") as file:
            file.write(self.text)


class Edited:
    """Lines of a file that are replaced before a run."""

    def __init__(self, path, old, new):
        self.path = path
        self.old = old
        self.new = new

    def make(self, room):
        """Replaces them. They have to stand there once."""
        path = os.path.join(room, self.path)
        with open(path, "rb") as file:
            text = b"\n" + file.read()
        if text.count(b"\n" + self.old) != 1:
            raise BadRow(f"the lines to be replaced do not stand in {self.path} once")
        with open(path, "wb") as file:
            file.write(text.replace(b"\n" + self.old, b"\n" + self.new)[1:])


class Copied:
    """A file that is copied before a run."""

    def __init__(self, path, target):
        self.path = path
        self.target = target

    def make(self, room):
        """Copies it."""
        shutil.copyfile(os.path.join(room, self.path), os.path.join(room, self.target))


class Removed:
    """A file that is taken away before a run."""

    def __init__(self, path):
        self.path = path

    def make(self, room):
        """Takes it away."""
        os.remove(os.path.join(room, self.path))


class SampleLists:
    """A folder that the opening lists of the sample bank are copied to before a run."""

    def __init__(self, folder):
        self.folder = folder

    def make(self, room):
        """Makes the folder, and copies them."""
        shutil.copytree(SAMPLE, os.path.join(room, self.folder), ignore=shutil.ignore_patterns(BADGES))


class SampleBadges:
    """A file that the badges of the sample bank are copied to before a run."""

    def __init__(self, path):
        self.path = path

    def make(self, room):
        """Copies them."""
        shutil.copyfile(os.path.join(SAMPLE, BADGES), os.path.join(room, self.path))


class Statements:
    """SQL that is carried out on a file before a run. The file is made where it is not there."""

    def __init__(self, path, text):
        self.path = path
        self.text = text

    def make(self, room):
        """Carries it out, and leaves no file beside this one."""
        connection = sqlite3.connect(os.path.join(room, self.path))
        try:
            connection.executescript(self.text)
            connection.commit()
        finally:
            connection.close()


class Step:
    """A run of the program: what is done before it, its arguments and input, and what has to come of it."""

    def __init__(self, words, changes):
        self.changes = changes
        self.words = words
        self.given = b""
        self.output = b""
        self.errors = b""
        self.as_of = None
        self.status = 0
        self.compares_output = True
        self.unchanged = []
        self.absent = []
        self.rights = {}


class Row:
    """A case: its steps, and the case in whose folder it begins. Files that cases begin with have changes and no step, and a talk has
    one step that is not run."""

    def __init__(self, name, place, runs):
        self.name = name
        self.place = place
        self.runs = runs
        self.after = None
        self.changes = []
        self.steps = []
        self.shows = []

    def is_plain(self):
        """Whether it is one run in an empty folder whose output is compared."""
        return self.after is None and len(self.steps) == 1 and self.only().compares_output and not self.only().changes

    def only(self):
        """Its one run."""
        if len(self.steps) != 1:
            raise BadRow(f"{self.name} has {len(self.steps)} runs")
        return self.steps[0]


class Group:
    """Lines one after the other with the same mark, or one line that has none."""

    def __init__(self, number, mark, line):
        self.number = number
        self.mark = mark
        self.lines = [line]

    def goes_on(self, number, mark):
        """Whether a line of this number and mark is one more of these."""
        return mark in MARKS and self.mark == mark and self.number + len(self.lines) == number


def grouped(lines):
    """The lines, each with its number, in groups. Empty lines and comments end a group and are left out."""
    groups = []
    for number, line in lines:
        if line != line.rstrip() or "\t" in line:
            raise BadRow(rf"line {number}: a space at the end is written \s, and a tab \t")
        mark, _, text = line.partition(" ")
        if groups and groups[-1].goes_on(number, mark):
            groups[-1].lines.append(text)
        elif line and not line.startswith("#"):
            groups.append(Group(number, mark, text) if mark in MARKS else Group(number, "", line))
    return groups


class RowReader:
    """Reads the lines of one row."""

    def __init__(self, row, groups, words):
        self.row = row
        self.groups = groups
        self.words = words
        self.has_own_words = any(it.mark == "" and it.lines[0].split(" ")[0] == "run" for it in groups)

    def read(self):
        """Reads all of them, and returns the row."""
        group = None
        try:
            while self.groups:
                group = self.groups.pop(0)
                self.take(group)
            if self.row.runs and (self.row.changes or not self.row.steps):
                self.step()
            if any(not it.compares_output and (it.output or it.errors) for it in self.row.steps):
                raise BadRow("output any stands beside output")
        except (BadRow, ValueError) as why:
            raise BadRow(f"{self.row.place}, {self.row.name}, line {group.number if group else 1}: {why}") from None
        return self.row

    def take(self, group):
        """Takes a group, with those after it that belong to it."""
        if group.mark == ">":
            self.step().given += spelled(group.lines)
        elif group.mark == "<":
            self.step().output += spelled(group.lines)
        elif group.mark == "|":
            self.step().output += bytes_of_lines(group.lines)
        elif group.mark == "!":
            self.step().errors += bytes_of_lines(group.lines)
        else:
            self.take_line(group.lines[0])

    def take_line(self, line):
        """Takes a line without a mark: one that begins with a key of KEYS, a request, or a reply."""
        word, _, text = line.partition(" ")
        asked, answered = REQUEST.fullmatch(line), REPLY.fullmatch(line)
        if word in KEYS:
            KEYS[word](self, text)
        elif asked:
            self.step().given += request(*asked.groups())
        elif answered:
            *head, body = answered.groups()
            self.step().output += reply(*head, bytes_of(body) if body else bytes_of_lines(self.lines_after("|")))
        else:
            raise BadRow(f"no line begins so: {line[:40]}")

    def lines_after(self, mark):
        """The lines with this mark that come next."""
        return self.groups.pop(0).lines if self.groups and self.groups[0].mark == mark else []

    def step(self):
        """The run that a line is about."""
        row = self.row
        if not self.has_own_words and not row.steps and self.words is not None:
            self.begin(self.words)
        if not row.steps or row.changes:
            raise BadRow("no run comes before this line")
        return row.steps[-1]

    def begin(self, words):
        """Begins a run, after the changes that were read."""
        if not self.row.runs:
            raise BadRow("files run nothing")
        self.row.steps.append(Step(words, self.row.changes))
        self.row.changes = []

    def take_run(self, text):
        self.begin(words_of(text))

    def take_as(self, text):
        self.step().as_of = text

    def take_status(self, text):
        self.step().status = int(text)

    def take_output(self, text):
        if text != "any":
            raise BadRow("output is any, where it is not compared")
        self.step().compares_output = False

    def take_unchanged(self, text):
        self.step().unchanged.append(text)

    def take_absent(self, text):
        self.step().absent.append(text)

    def take_rights(self, text):
        path, rights = text.split(" ")
        self.step().rights[path] = int(rights, 8)

    def take_after(self, text):
        self.row.after = text

    def take_shows(self, text):
        self.row.shows.append(text)

    def take_file(self, text):
        self.row.changes.append(Written(text, bytes_of_lines(self.lines_after("|"))))

    def take_edit(self, text):
        old, new = bytes_of_lines(self.lines_after("-")), bytes_of_lines(self.lines_after("+"))
        self.row.changes.append(Edited(text, old, new))

    def take_copy(self, text):
        self.row.changes.append(Copied(*text.split(" ")))

    def take_remove(self, text):
        self.row.changes.append(Removed(text))

    def take_lists(self, text):
        self.row.changes.append(SampleLists(text))

    def take_badges(self, text):
        self.row.changes.append(SampleBadges(text))

    def take_sql(self, text):
        self.row.changes.append(Statements(text, "\n".join(self.lines_after("|"))))


# What a line of a case may begin with, beside bytes, a request and a reply.
KEYS = {
    "run": RowReader.take_run,
    "as": RowReader.take_as,
    "status": RowReader.take_status,
    "output": RowReader.take_output,
    "unchanged": RowReader.take_unchanged,
    "absent": RowReader.take_absent,
    "rights": RowReader.take_rights,
    "after": RowReader.take_after,
    "shows": RowReader.take_shows,
    "file": RowReader.take_file,
    "edit": RowReader.take_edit,
    "copy": RowReader.take_copy,
    "remove": RowReader.take_remove,
    "lists": RowReader.take_lists,
    "badges": RowReader.take_badges,
    "sql": RowReader.take_sql,
}


def words_of(text):
    """The arguments of a run."""
    return [b"" if it == '""' else bytes_of(it) for it in text.split(" ")] if text else []


class Subject:
    """Cases of one file, or cases made by one rule; and what their head says of what no case shows."""

    def __init__(self, name, place, text):
        self.name = name
        self.place = place
        self.rules = []
        self.cases = []
        self.rows = []
        self.words = None
        lines = list(enumerate(text.split("\n"), 1))
        firsts = [at for at, (_, line) in enumerate(lines) if line.startswith(("row ", "files ", "talk "))]
        try:
            self.read_head(grouped(lines[: firsts[0] if firsts else len(lines)]))
            for first, end in zip(firsts, [*firsts[1:], len(lines)]):
                self.read_row(lines[first], grouped(lines[first + 1 : end]))
        except BadRow as why:
            raise BadRow(f"{self.place}: {why}") from None

    def read_head(self, groups):
        """Reads the lines before the first row."""
        for group in groups:
            word, _, text = group.lines[0].partition(" ")
            if group.mark or word not in ("run", "rules", "test", "none"):
                raise BadRow(f"line {group.number}: no line before the first row begins so: {word}")
            if word == "run":
                self.words = words_of(text)
            elif word == "rules":
                self.rules = text.split(", ")
            else:
                self.cases.append((word, *text.split(": ", 1)))

    def read_row(self, line, groups):
        """Reads a row."""
        number, text = line
        word, name = text.split(" ", 1)
        if not re.fullmatch(r"\w+", name):
            raise BadRow(f"line {number}: a name has letters, digits and underscores: {name}")
        row = Row(name, f"{self.place}:{number}", word == "row")
        row.steps += [Step([], [])] * (word == "talk")
        self.rows.append(RowReader(row, groups, self.words).read())


def subject_of(path):
    """The cases of a file, as text or compressed."""
    with (gzip.open if path.endswith(".gz") else open)(path, "rt", encoding="ascii", newline="") as file:
        return Subject(os.path.basename(path).partition(".rows")[0], os.path.relpath(path, TOP), file.read())


class Suite:
    """All cases, by their names, in the order of their files; after those of the suite's own folder the ones made by a rule."""

    def __init__(self, folder=ROWS):
        self.subjects = [subject_of(it) for it in sorted(it for end in ENDS for it in glob.glob(os.path.join(folder, f"*{end}")))]
        if folder == ROWS:
            self.subjects += [Subject(name, "tools/cases/long_cases.py", text) for name, text in long_cases.SUBJECTS.items()]
        self.rows = {}
        for row in (row for subject in self.subjects for row in subject.rows):
            if row.name in self.rows:
                raise BadRow(f"{row.place}: {row.name} stands in {self.rows[row.name].place} too")
            self.rows[row.name] = row
        for row in self.rows.values():
            self.way_to(row)
            for step in (it for it in row.steps if it.as_of):
                self.add_as(row, step)

    def add_as(self, row, step):
        """Adds to a run of a case the requests and replies that a block has."""
        other = self.row(step.as_of)
        if other.runs or not other.steps:
            raise BadRow(f"{row.place}: {step.as_of} is no talk")
        step.given, step.output = step.given + other.only().given, step.output + other.only().output

    def way_to(self, row):
        """The cases whose steps come before those of a case, in their order."""
        way = []
        while row.after is not None:
            if row.after not in self.rows:
                raise BadRow(f"{row.place}: there is no row {row.after}")
            row = self.rows[row.after]
            if row in way:
                raise BadRow(f"{row.place}: {row.name} comes before itself")
            way.insert(0, row)
        return way

    def names(self):
        """The names of the cases that are run."""
        return [name for name, row in self.rows.items() if row.runs]

    def row(self, name):
        """The case of this name."""
        if name not in self.rows:
            raise BadRow(f"there is no row {name}")
        return self.rows[name]

    def only(self, name):
        """The one run of the case of this name."""
        return self.row(name).only()
