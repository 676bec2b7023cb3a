"""Asks the built program what docs/openapi.json says of it.

    tools/pages/openapi [PROGRAM]

Of the program its `sample` is asked. Of each path of the file:

- The example of its body is answered by the example of its reply, byte for byte. Where a slip may be borne it is asked for twice
  with one, and answered so twice; another body with that slip is denied by the rule of slips.
- Each number, text, list and choice of the body is asked for at both ends of what the file allows, and one past them; each
  member is left out, and those that may be are together; one more is put in, and a whole number is written as `101.0`, as
  `101e0`, with a zero before it and in quotes. What the file allows is judged by the rules, and what it doesn't is 422.
- So are the fields that it lists. One that has to be there and isn't is denied by rule 1; one that it doesn't list may hold
  anything.
- Each reply is one of those that the file lists for its status.

What a schema can't say stands in a description, and has a request of its own here. Last come messages that end the
connection, and paths that the file has not. tools/pages/openapi_schema.py says which keys of schemas are read; any other is a
fault.

Each request is a check, and each part of the file.
"""
import json
import os

from cases.suite import PHRASES
from checks import Report, reader, refuse
from model.bank import COMMANDS, PROCEDURES
from pages.openapi_schema import JSON, Document, admits, fault_of_schema, letters_of, text_of, variants
from replies import parsed, size_of
from repository import TOP, are_built
from sample_file import run_to_end

FILE = os.path.join(TOP, "docs", "openapi.json")
SAMPLE = ["sample", "--moment", "700"]
FIELDS = ("Bank-Badge", "Bank-Session", "Bank-Release", "Bank-Slip")
# The statuses of a request that the rules have judged, and the denial by rule 1.
JUDGED = (200, 403, 409)
NOBODY = (403, b'{"name":"identity","rule":1}')
TAKEN = (409, b'{"name":"slip","rule":22}')
METHODS = ("GET", "POST", "PUT", "DELETE", "HEAD", "OPTIONS", "PATCH", "post", "get")

# Who asks for a path, where that isn't Tess.
ASKERS = {
    "tom": ["/do/transfer", "/do/correct", "/do/drawer-on", "/do/drawer-off"],
    "sue": ["/do/new-account", "/do/release", "/do/proof", "/do/close-day"],
    "carl": ["/policy/define-set", "/policy/grant", "/policy/revoke"],
    "cora": ["/policy/certify", "/policy/withdraw"],
    "olga": [*(f"/policy/{it}" for it in ("appoint", "dismiss", "enrol", "suspend", "restore")), "/policy"],
}
POST = ("tess", "/do/post", {"account": 101, "branch": 1, "delta": 2500, "teller": 11})
TOM_OFF = ("tom", "/do/drawer-off", {"branch": 1, "counted": 4900, "teller": 12})
TESS_OFF = ("tess", "/do/drawer-off", {"branch": 1, "counted": 40000, "teller": 11})
# What is asked before the example of a path, where that isn't of the sample's opening.
BEFORE = {
    "/do/correct": [POST],
    "/do/drawer-on": [TOM_OFF],
    "/do/statement": [POST],
    "/do/close-day": [TOM_OFF, TESS_OFF],
    "/policy/restore": [("olga", "/policy/suspend", {"user": 7})],
}

# What another body of a path has otherwise than its example, where a slip may be borne.
OTHERWISE = {
    **{f"/do/{it}": {"delta": 1} for it in ("post", "correct")},
    "/do/transfer": {"amount": 1},
    "/do/drawer-on": {"cash": 1},
    "/do/drawer-off": {"counted": 1},
    "/do/move-cash": {"amount": 1},
    "/do/new-account": {"account": 999},
    "/do/release": {"beneficiary": 7},
    "/do/close-day": {"branch": 2},
}

# Bodies that a schema lets pass and that are 422, each with the text that says so in a description.
OF_OPERATIONS = [
    ("transfer", {"amount": 1, "branch": 1, "source": 101, "target": 101, "teller": 12}, "two accounts"),
    ("correct", {"account": 101, "branch": 1, "delta": 1, "entry": 1, "other": 101, "teller": 12}, "the account itself"),
    ("move-cash", {"amount": 1, "branch": 1, "source": 11, "target": 11}, "two places"),
    ("move-cash", {"amount": 1, "branch": 1, "source": 0, "target": 0}, "two places"),
]
UNSAID = [
    *((f"/do/{name}", body, words) for name, body, words in OF_OPERATIONS),
    *(
        ("/do/release", {"beneficiary": 8, "operation": body | {"procedure": name}}, words)
        for name, body, words in OF_OPERATIONS
    ),
    *(
        ("/policy/grant", {**moments, "limit": 0, "procedure": "balance", "set": 2, "user": 9}, "first is not above last")
        for moments in ({"first": 701, "last": 700}, {"first": 99999999999, "last": 0})
    ),
    *(
        ("/policy/grant", {name: 0, "limit": 0, "procedure": "balance", "set": 2, "user": 9}, "It has first and last, or neither")
        for name in ("first", "last")
    ),
    *(("/policy/define-set", {"members": [[kind, 101, 101]], "set": 6}, "Another kind is 422") for kind in (7, 999999999)),
    ("/policy/define-set", {"members": [[1, 102, 101]], "set": 6}, "low is not above high"),
    ("/policy/define-set", {"members": [[1, 101, 102], [2, 999999999, 1]], "set": 6}, "low is not above high"),
]
# Bodies at an end of what the text alone allows.
AT_AN_END = [("/policy/define-set", {"members": [[6, 999999999, 999999999]], "set": 6})]
# What the file says of every request, as text; the requests that show it are among those below.
SAID_OF_ALL = [
    "A whole number is written in digits alone",
    "A member more or less is 422",
    "that stands twice where it is listed",
    "What is not in this file is 404",
    "a query, a percent code or a slash at the end",
    "which is at most 1,024",
]
# Messages that end the connection: the status and the fault that are due, and the lines of the head.
OPENING = ["POST /session HTTP/1.1", "Host: bank"]
ENDINGS = [
    (400, "M1", OPENING[:1]),
    (400, "M1", [*OPENING, "Host: bank"]),
    (400, "M1", [*OPENING, "Content-Length: 1", "Content-Length: 1"]),
    (400, "M1", [*OPENING, "Content-Length: +1"]),
    (400, "M1", ["no head"]),
    (413, "M3", [*OPENING, "Content-Length: 1025"]),
    (431, "M2", [*OPENING, "X: " + "x" * 8192]),
    (501, "M4", [*OPENING, "Transfer-Encoding: chunked"]),
]


class Asked:
    """A message, and what has to come of it: a function that answers what is wrong with the reply, if anything."""

    def __init__(self, name, method, given, fault):
        self.name = name
        self.method = method
        self.given = given
        self.fault = fault


def message(method, path, fields, body=b""):
    """The bytes of a message with these fields."""
    lines = [f"{method} {path} HTTP/1.1", "Host: bank", *(f"{name}: {value}" for name, value in fields)]
    if body:
        lines.append(f"Content-Length: {len(body)}")
    return "\r\n".join([*lines, "", ""]).encode("latin-1") + body


def replies(output, methods):
    """The replies that were written to messages of these methods, and the bytes after them."""
    found = []
    for method in methods:
        size = size_of(output, method != "HEAD")
        reply = size and parsed(output[:size])
        if not reply or PHRASES.get(reply.status) != reply.phrase:
            break
        found.append(reply)
        output = output[size:]
    return found, output


def ask_all(program, messages):
    """Sends messages to the sample, and says of each what is wrong with its reply, if anything."""
    given = b"".join(it.given for it in messages)
    status, output, errors = run_to_end([program, *SAMPLE], given)
    found, rest = replies(output, [it.method for it in messages])
    said = [it.fault(reply) for it, reply in zip(messages, found)]
    said += ["no reply"] * (len(messages) - len(found))
    if status or errors or rest:
        said[-1] = said[-1] or f"after it: status {status}, {errors!r}, {rest[:100]!r}"
    return [(it.name, why) for it, why in zip(messages, said)]


class Path:
    """What the file says of a path, and the requests by which it is tried."""

    def __init__(self, document, path, method, said):
        self.document = document
        self.path = path
        self.method = method
        self.said = said
        self.body = document.body_of(said)
        self.listed = {it["name"]: it for it in map(document.at, said["parameters"])}
        asker = next((name for name, paths in ASKERS.items() if path in paths), "tess")
        self.values = {name: {"Bank-Badge": asker, "Bank-Session": "1"}.get(name) for name in self.listed}

    def reply_of(self, status):
        """The type of the reply of a status, and what the file says of its content."""
        return next(iter(self.document.at(self.said["responses"][str(status)])["content"].items()))

    def fault_of_reply(self, reply):
        """Why a reply is none of those that the file lists, if so."""
        if str(reply.status) not in self.said["responses"]:
            return f"{reply.status}, which is not listed"
        kind, content = self.reply_of(reply.status)
        if reply.fields["Content-Type"] != kind:
            return f"{reply.status} of type {reply.fields['Content-Type']}"
        if kind == JSON and not admits(self.document, content["schema"], json.loads(reply.body)):
            return f"{reply.as_text()}, which the file doesn't allow"
        return None

    def fault_of_good(self, reply):
        """Why a reply is not that of a request which the rules have judged."""
        return self.fault_of_reply(reply) or (None if reply.status in JUDGED else reply.as_text())

    def fault_of_bad(self, reply):
        """Why a reply is not the 422 that the file lists."""
        return self.fault_of_reply(reply) or (None if reply.status == 422 else f"{reply.as_text()} and not 422")

    def fault_of_nobody(self, reply):
        """Why a reply is not the denial by rule 1."""
        return None if (reply.status, reply.body) == NOBODY else reply.as_text()

    def fault_of_known(self, reply):
        """Why a reply is not that of a request which rules after rule 1 have judged."""
        return reply.as_text() if (reply.status, reply.body) == NOBODY else self.fault_of_good(reply)

    def fault_of_taken(self, reply):
        """Why a reply is not the denial by the rule of slips."""
        return self.fault_of_reply(reply) or (None if (reply.status, reply.body) == TAKEN else reply.as_text())

    def fault_of_example(self, reply):
        """Why a reply is not the example of the file."""
        kind, content = self.reply_of(200)
        example = content.get("example")
        wanted = text_of(example) if kind == JSON else example
        if reply.status != 200 or wanted is not None and reply.body != wanted.encode():
            return reply.as_text()
        return self.fault_of_reply(reply)

    def judge_of(self, is_good):
        """What looks at the reply to a request that the file allows, or that it doesn't."""
        return self.fault_of_good if is_good else self.fault_of_bad

    def asked(self, what, fault, fields=None, body=None):
        """A request with these fields and this body, or those of the example."""
        if body is None:
            body = text_of(self.body["example"]).encode() if self.body else b""
        sent = [it for it in self.values.items() if it[1] is not None] if fields is None else fields
        return Asked(f"{self.path}, {what}", self.method, message(self.method, self.path, sent, body), fault)

    def with_field(self, name, value):
        """The fields of a request with another value of one, or without it."""
        return [it for it in {**self.values, name: value}.items() if it[1] is not None]

    def before(self):
        """What comes before the example of the file."""
        for badge, path, body in BEFORE.get(self.path, []):
            given = message("POST", path, [("Bank-Badge", badge), ("Bank-Session", "1")], text_of(body).encode())
            yield Asked(f"before {self.path}", "POST", given, lambda it: None if it.status == 200 else it.as_text())

    def example(self):
        """The example of the file, after what comes before it."""
        return [*self.before(), self.asked("its example", self.fault_of_example)]

    def again(self):
        """The example with a slip, twice, where the file lists slips; and another body with that slip."""
        if "Bank-Slip" not in self.listed:
            return []
        fields = self.with_field("Bank-Slip", "5")
        sent = [self.asked(f"its example with a slip, {it}", self.fault_of_example, fields) for it in ("once", "twice")]
        other = text_of({**self.body["example"], **OTHERWISE[self.path]}).encode()
        return [*self.before(), *sent, self.asked("another body with its slip", self.fault_of_taken, fields, other)]

    def bodies(self):
        """Bodies at the ends of what the file allows, and past them."""
        if not self.body:
            return [self.asked("a body that isn't looked at", self.fault_of_good, body=b'{"x":')]
        example = self.body["example"]
        varied = variants(self.document, self.body["schema"], example)
        found = [(it.what, text_of(it.value).encode(), it.is_good) for it in varied]
        text = text_of(example).encode()
        found += [("an empty body", b"", not self.said["requestBody"]["required"])]
        found += [("text after it", text + b"x", False), ("a byte that is no text", text + b"\xff", False)]
        found += [("spaces around it", b" " + text + b"\n", True)]
        return [self.asked(what, self.judge_of(is_good), body=body) for what, body, is_good in found]

    def field_values(self, name):
        """Values of a field, each with whether the file allows it."""
        schema = self.listed[name]["schema"]
        if schema["type"] == "integer":
            least, most = schema["minimum"], schema["maximum"]
            past = [str(it) for it in (least - 1, most + 1, 2**32 + 1, 2**64 + 1)]
            past += ["01", "1.0", "+1", "-1", "1e0", "x", ""]
            return [(str(least), True), (str(most), True), *((it, False) for it in past)]
        (least, most), shortest, longest = letters_of(schema), schema["minLength"], schema["maxLength"]
        ends = [it * length for it in (least, most) for length in (shortest, longest)]
        past = [most * (shortest - 1), most * (longest + 1), "a\u00e9"]
        # (a control byte is no part of a field at all)
        past += [f"a{it}b" for it in (chr(ord(least) - 1), chr(ord(most) + 1)) if it.isprintable()]
        return [*((it, True) for it in ends), *((it, False) for it in past)]

    def fields(self):
        """Requests with each field that is listed at its ends and past them, twice and left out; and with one that isn't."""
        found = []
        for name in FIELDS:
            if name not in self.listed:
                found.append(self.asked(f"{name}, which isn't read", self.fault_of_good, self.with_field(name, "x x")))
                continue
            for value, is_good in self.field_values(name):
                found.append(self.asked(f"{name} {value!r}", self.judge_of(is_good), self.with_field(name, value)))
            found.append(self.asked(f"{name} twice", self.fault_of_bad, [*self.with_field(name, "1"), (name, "1")]))
            missing = self.fault_of_nobody if self.listed[name]["required"] else self.fault_of_known
            found.append(self.asked(f"without {name}", missing, self.with_field(name, None)))
        return found

    def unsaid(self):
        """What a schema can't say."""
        own = [(body, words, self.fault_of_bad) for path, body, words in UNSAID if path == self.path]
        own += [(body, "at an end", self.fault_of_good) for path, body in AT_AN_END if path == self.path]
        return [self.asked(f"{words}: {text_of(body)}", fault, body=text_of(body).encode()) for body, words, fault in own]

    def groups(self):
        """The requests by which the path is tried, those of a list in one stream."""
        return [it for it in (self.example(), self.again(), self.bodies(), self.fields(), self.unsaid()) if it]

    def faults(self):
        """What is looked at in what the file says of the path, and what is wrong with it, if anything."""
        if self.body:
            bad = not admits(self.document, self.body["schema"], self.body["example"])
            yield f"{self.path}, the example of its body", "the schema doesn't allow it" if bad else None
        bare = [it for it, said in self.said["responses"].items() if "description" not in self.document.at(said)]
        yield f"{self.path}, its responses", f"{', '.join(bare)} without a description" if bare else None
        for words in sorted({words for path, _, words in UNSAID if path == self.path}):
            missing = words not in self.document.words_under(self.body)
            yield f"{self.path}, the words {words!r}", "no description has them" if missing else None


def fault_of_ending(paths, status, fault, reply):
    """Why a reply to a message that ends the connection is not what each path lists."""
    wanted = (status, f'{{"fault":"{fault}"}}'.encode(), "close")
    if (reply.status, reply.body, reply.fields.get("Connection")) != wanted:
        return reply.as_text()
    return next((f"{it.path}: {why}" for it in paths if (why := it.fault_of_reply(reply))), None)


def not_listed(paths):
    """Methods with paths that the file has not."""
    known = {(it.method, it.path) for it in paths}
    found = {(method, it.path) for method in METHODS for it in paths}
    found |= {(it.method, it.path + end) for it in paths for end in ("/", "?x=1", "%20", ".")}
    found |= {(it.method, other) for it in paths for other in (it.path.upper(), "/" + it.path, "http://bank" + it.path)}
    found |= {("POST", it) for it in ("/", "*", "/do", "/do/", "/do/pay", "/policy/", "/policy/end", "/openapi.json")}
    # (one of these that the file has not is served all the same, and so reported)
    found |= {("POST", f"/do/{it}") for it in PROCEDURES} | {("POST", f"/policy/{it}") for it in COMMANDS}
    found |= {("POST", "/session"), ("POST", "/end"), ("GET", "/policy")}
    return sorted(found - known)


def fault_of_other(method, reply):
    """Why a reply is not that to a path which the file has not."""
    body = b"" if method == "HEAD" else b'{"fault":"M5"}'
    return None if (reply.status, reply.body) == (404, body) else reply.as_text()


def others(paths):
    """Requests for what the file has not."""
    fields = [("Bank-Badge", "tess"), ("Bank-Session", "1")]
    for method, path in not_listed(paths):
        judge = lambda reply, of=method: fault_of_other(of, reply)
        yield Asked(f"{method} {path}", method, message(method, path, fields), judge)


def faults_of_file(document, paths):
    """What is looked at in the file itself, and what is wrong with it, if anything."""
    parts = document.root["components"]
    for name, schema in parts["schemas"].items():
        yield f"schema {name}", fault_of_schema(document, schema)
    for path in paths:
        yield from path.faults()
    names = [it.said["operationId"] for it in paths]
    yield "the names of operations", None if len(set(names)) == len(names) else "one stands twice"
    for words in SAID_OF_ALL:
        missing = words not in document.root["info"]["description"]
        yield f"the words {words!r}", "the file's description has them not" if missing else None
    for kind, named in parts.items():
        for name in named:
            is_used = f"#/components/{kind}/{name}" in document.named
            yield f"{kind} {name}", None if is_used else "nothing refers to it"


def judge_all(document, program):
    """All that is tried, and what is wrong with it, if anything."""
    paths = [Path(document, *it) for it in document.operations()]
    yield from faults_of_file(document, paths)
    for path in paths:
        for group in path.groups():
            yield from ask_all(program, group)
    for status, fault, lines in ENDINGS:
        judge = lambda reply, of=(status, fault): fault_of_ending(paths, *of, reply)
        given = "\r\n".join([*lines, "", ""]).encode()
        yield from ask_all(program, [Asked(f"{fault}: {lines[-1][:40]}", "POST", given, judge)])
    yield from ask_all(program, list(others(paths)))


def main():
    program = reader(__doc__, has_checks=False).parse_args().program
    if not are_built(program):
        return refuse("there is no program")
    return Report().add_all(judge_all(Document(FILE), program))
