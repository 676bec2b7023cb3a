"""Has clients of all kinds ask the built program over a bank in a file, and looks at what they get: of `serve`, and of `counter`
where what they ask for is not counted.

    tools/faults/clients [--long] [--only TEXT] [--list] [PROGRAM]

curl, wget and Python's own http.client ask for a post, a statement and a path that is not there. Other clients send two messages
a byte at a time, end inside a message, say nothing, or send ten megabytes of one line: their connection ends, and the next one is
served. The port is another's; a port that is served is so at 127.0.0.1 alone. A triple begins and another ends between two
requests. With --long there come a client that reads none of its replies, and 10,000 connections one after another, whose
memory is compared with that of ten; that takes three minutes.

Each of these is a run of its own, over a bank of its own, beside the others; who was late is tried once more at the end.
"""
import contextlib
import http.client
import json
import os
import re
import socket
import subprocess
import time

from checks import Check, Late, Wrong, lacking, reader, require, require_time, run_checks
from replies import body_of, next_reply
from sample_file import SampleBanks, ended, message, require_sound, run_to_end, run_arguments
from served import most_held
from serving import HOST, Counter, Serving, asked, connected, read_to_end, serve_arguments
from simulation.machine import Machine

SECONDS = 240
FIELDS = {"Bank-Badge": "tess", "Bank-Session": "1"}
POST = {"account": 101, "branch": 1, "delta": 2500, "teller": 11}
BALANCE = message("tess", "/do/balance", {"account": 101})
NO_TRIPLE = b'{"name":"no triple","rule":3}'
BALANCE_REPLY = b'HTTP/1.1 200 OK\r\nContent-Type: application/json\r\nContent-Length: 17\r\n\r\n{"balance":50000}'
STATEMENT = {"account": 101, "count": 10, "start": 1}
# Of the statement after one post at a moment: the bytes before the moment and after it.
STATEMENT_HEAD = b"STATEMENT ACCOUNT       101 FROM         1 LINES     1\n        1         1         1        11 "
STATEMENT_END = b"    25.00         525.00\n"
# How long a connection may be silent, and how long it may last.
MOST_SILENCE = 30
MOST_AGE = 120
MOST_WRITING = 180
# What a clock that is set reads first, in seconds.
CLOCK_STARTED = 1_000
# For how many seconds the rest of what a client sends is read after its last reply.
PARTING = 1
# So many seconds after it is granted a triple ends, and another begins. (What is silent beside it takes longer.)
SECONDS_OF_TRIPLE = 40
# Another address of this machine, at which nothing may be served.
OTHER_HOST = "127.0.0.2"
# How much more memory 10,000 connections may take than ten, in kilobytes.
MOST_GROWTH = 300


def require_statement(text, first):
    """Passes if a text is the statement after one post, made from this moment on."""
    moment = text[len(STATEMENT_HEAD) : -len(STATEMENT_END)]
    require((text[: len(STATEMENT_HEAD)], text[-len(STATEMENT_END) :]), (STATEMENT_HEAD, STATEMENT_END), "statement")
    if not re.fullmatch(rb" *[0-9]+", moment) or len(moment) != 11 or not first <= int(moment) <= time.time():
        raise Wrong(f"the statement has the moment {moment!r}")


def require_served(serving):
    """Passes if the next connection is served."""
    require(asked(serving.port, BALANCE), BALANCE_REPLY, "the next connection")


def by_curl(url, body):
    """The status, the type and the body that curl gets for a body."""
    # (kept from a proxy and from settings of one's own)
    words = ["curl", "-q", "--noproxy", "*", "-sS", "--max-time", str(SECONDS), "-w", "\n%{http_code} %{content_type}"]
    words += ["--data-binary", json.dumps(body)]
    words += [word for name, value in FIELDS.items() for word in ("-H", f"{name}: {value}")]
    ran = subprocess.run([*words, url], capture_output=True, check=True, timeout=SECONDS)
    text, _, end = ran.stdout.rpartition(b"\n")
    return (*end.decode().split(" ", 1), text)


def by_wget(url, body):
    """The same of wget."""
    words = ["wget", "--no-config", "--no-proxy", "-q", "-S", "-O", "-", "--tries=1", "--content-on-error"]
    words += [f"--post-data={json.dumps(body)}", *(f"--header={name}: {value}" for name, value in FIELDS.items())]
    ran = subprocess.run([*words, url], capture_output=True, check=False, timeout=SECONDS)
    status = re.search(rb"HTTP/1\.1 (\d+)", ran.stderr)
    kind = re.search(rb"Content-Type: (\S+)", ran.stderr)
    return status[1].decode(), kind[1].decode(), ran.stdout


class ByPython:
    """The same of Python's own client, over one connection."""

    def __init__(self, port):
        self.connection = http.client.HTTPConnection(HOST, port, timeout=SECONDS)

    def __call__(self, url, body):
        path = url.partition("//")[2].partition("/")[2]
        self.connection.request("POST", f"/{path}", json.dumps(body), FIELDS)
        reply = self.connection.getresponse()
        return str(reply.status), reply.getheader("Content-Type"), reply.read()


def ask_three(serving, ask, first):
    """Has a client ask for a post, a statement and a path that is not there, and looks at the replies."""
    url = f"http://{HOST}:{serving.port}"
    require(ask(f"{url}/do/post", POST), ("200", "application/json", b'{"balance":52500,"branch":1,"entry":1}'), "post")
    status, kind, text = ask(f"{url}/do/statement", STATEMENT)
    require((status, kind), ("200", "text/plain"), "statement")
    require_statement(text, first)
    require(ask(f"{url}/do/pay", POST), ("404", "application/json", b'{"fault":"M5"}'), "path")


def curl_is_answered(program, file, serve=Serving):
    """curl, each request on a connection of its own."""
    first = int(time.time())
    with serve(program, file, 3) as serving:
        ask_three(serving, by_curl, first)
        serving.require_done()


def wget_is_answered(program, file, serve=Serving):
    """wget, likewise."""
    first = int(time.time())
    with serve(program, file, 3) as serving:
        ask_three(serving, by_wget, first)
        serving.require_done()


def python_is_answered(program, file, serve=Serving):
    """Python's own client, all on one connection."""
    first = int(time.time())
    with serve(program, file, 3) as serving:
        ask_three(serving, ByPython(serving.port), first)
        serving.require_done()


def pieces_are_answered(program, file, serve=Serving):
    """Two messages on one connection, a byte at a time."""
    with serve(program, file, 2) as serving, connected(serving.port) as client:
        for byte in BALANCE + BALANCE:
            client.sendall(bytes([byte]))
        client.shutdown(socket.SHUT_WR)
        require(read_to_end(client), BALANCE_REPLY * 2, "two messages")
        serving.require_done()


def reply_comes_before_the_next_message(program, file, serve=Serving):
    """A reply comes while the connection is open."""
    with serve(program, file, 2) as serving, connected(serving.port) as client:
        for _ in range(2):
            client.sendall(BALANCE)
            require(next_reply(lambda: client.recv(65536)), (BALANCE_REPLY, b""), "a reply")
        serving.require_done()


def cut_connection_ends_alone(program, file, serve=Serving):
    """Connections that end at once, inside a message, and after one that is whole."""
    with serve(program, file, 4) as serving:
        connected(serving.port).close()
        require(asked(serving.port, BALANCE[:-1]), b"", "a message without its last byte")
        require(asked(serving.port, BALANCE + BALANCE[:40]), BALANCE_REPLY, "a message and a part of one")
        require_served(serving)
        serving.require_done()


def reset_connection_ends_alone(program, file, serve=Serving):
    """Connections that are broken off, before they send and after it, with the replies unread."""
    with serve(program, file, 41) as serving:
        for number in range(40):
            with connected(serving.port) as client:
                client.setsockopt(socket.SOL_SOCKET, socket.SO_LINGER, b"\1\0\0\0\0\0\0\0")
                client.sendall(BALANCE * (number % 3) + BALANCE[:number])
        require_served(serving)
        serving.require_done()


def silent_connection_is_let_go(program, file, serve=Serving):
    """A connection that says nothing, or stops inside a message."""
    for given in (b"", BALANCE[:-1]):
        with serve(program, file, 2) as serving, connected(serving.port) as client:
            start = time.monotonic()
            client.sendall(given)
            require(read_to_end(client), b"", "a connection that is silent")
            require_time(time.monotonic() - start, MOST_SILENCE - 1, MOST_SILENCE + 5, "what lets it go")
            require_served(serving)
            serving.require_done()


def old_connection_is_let_go(program, file, serve=Serving):
    """A connection that lasts as long as one may, by a clock that is set: a message that begins then is not read."""
    machine = Machine(os.path.dirname(file))
    machine.set(stopped=CLOCK_STARTED)
    with serve(program, file, 1_000, env=machine.environment(None)) as serving, connected(serving.port) as client:
        # Of the two that come a second before, the first is read by a call that waited for it already.
        for second in (0, MOST_AGE - 1, MOST_AGE - 1):
            machine.set(stopped=CLOCK_STARTED + second)
            client.sendall(BALANCE)
            require(next_reply(lambda: client.recv(65536)), (BALANCE_REPLY, b""), f"a reply after {second} seconds")
        machine.set(stopped=CLOCK_STARTED + MOST_AGE)
        start = time.monotonic()
        client.sendall(BALANCE[:1])
        require(read_to_end(client), b"", f"after {MOST_AGE} seconds")
        require_time(time.monotonic() - start, 0, MOST_SILENCE - 1, "what lets it go")
        require_served(serving)


def long_line_ends_alone(program, file, serve=Serving):
    """Ten megabytes of one line."""
    head = b"HTTP/1.1 431 Request Header Fields Too Large\r\nContent-Type: application/json\r\nContent-Length: 14\r\n"
    reply = head + b'Connection: close\r\n\r\n{"fault":"M2"}'
    with serve(program, file, 2) as serving:
        with connected(serving.port) as client:
            start, found = time.monotonic(), []
            with contextlib.suppress(ConnectionError):
                client.sendall(b"x" * 10_000_000)
                found.append("all is sent")
            found.append(read_to_end(client))
            passed = time.monotonic() - start
        require_served(serving)
        serving.require_done()
    if found != ["all is sent", reply] and passed >= PARTING:
        raise Late(f"ten megabytes of a line were not sent within {PARTING} second")
    require(found, ["all is sent", reply], "ten megabytes of a line")


def unread_replies_end_alone(program, file, serve=Serving):
    """A client that asks without end and reads none of its replies. Its connection ends once the system takes none of them for
    30 seconds, or is too old for a reply."""
    with serve(program, file, 1_000_000) as serving, connected(serving.port) as client:
        client.settimeout(1)
        start, sent = time.monotonic(), 0
        try:
            while sent < 1_000_000_000:
                sent += client.send(BALANCE * 100)
        except TimeoutError:
            pass
        require_served(serving)
        require_time(time.monotonic() - start, 0, MOST_WRITING + MOST_SILENCE + 5, "the next connection")


def messages_are_counted(program, file, serve=Serving):
    """A connection that is answered counts its messages, and every other one."""
    with serve(program, file, 6) as serving:
        require(asked(serving.port, BALANCE * 3), BALANCE_REPLY * 3, "three messages")
        require(asked(serving.port, b""), b"", "no message")
        require(asked(serving.port, BALANCE * 4 + b"POST"), BALANCE_REPLY * 2, "the last two messages")
        serving.require_done()


def port_of_another_is_reported(program, file, serve=Serving):
    """A port that another program has, and one that may not be bound."""
    with socket.socket() as other:
        other.bind((HOST, 0))
        other.listen()
        words = serve_arguments(file, other.getsockname()[1], 1)
        require(run_to_end([program, *words]), (3, b"", b"stream: broken\n"), "a port of another")
    require_sound(program, file)


def other_address_is_refused(program, file, serve=Serving):
    """A client that asks for the port at another address."""
    with serve(program, file, 1) as serving:
        try:
            socket.create_connection((OTHER_HOST, serving.port), SECONDS).close()
        except ConnectionRefusedError:
            require_served(serving)
            serving.require_done()
        else:
            raise Wrong(f"the port is served at {OTHER_HOST}, too")


def bank_goes_on(program, file, serve=Serving):
    """What one run has done is there in the next, and `check` finds the books sound."""
    post = message("tess", "/do/post", POST)
    for entry in (1, 2):
        with serve(program, file, 1) as serving:
            due = b'{"balance":%d,"branch":1,"entry":%d}' % (50_000 + 2_500 * entry, entry)
            require(body_of(asked(serving.port, post)), due, "post")
            serving.require_done()
        require_sound(program, file)
    require(body_of(ended(program, run_arguments(file, 0), BALANCE)), b'{"balance":55000}', "the balance after them")


def triples_begin_and_end(program, file, serve=Serving):
    """A triple that ends, and one that begins, while both are in the cache: each request is judged at its own moment."""
    balance = message("sue", "/do/balance", {"account": 101})
    statement = message("sue", "/do/statement", STATEMENT)
    with serve(program, file, 8) as serving:
        end = int(time.time()) + SECONDS_OF_TRIPLE
        ending = {"first": 0, "last": end, "limit": 0, "procedure": "balance", "set": 2, "user": 9}
        beginning = {**ending, "first": end + 1, "last": 99_999_999_999, "procedure": "statement"}
        for grant in (ending, beginning):
            require(body_of(asked(serving.port, message("carl", "/policy/grant", grant))), b'{"done":"grant"}', "grant")
        for _ in range(2):
            require(asked(serving.port, balance), BALANCE_REPLY, "before the end")
        require(body_of(asked(serving.port, statement)), NO_TRIPLE, "before the beginning")
        while (left := end + 1 - time.time()) > 0:
            time.sleep(left)
        for _ in range(2):
            require(body_of(asked(serving.port, balance)), NO_TRIPLE, "after the end")
        require(asked(serving.port, statement).startswith(b"HTTP/1.1 200 OK"), True, "after the beginning")
        serving.require_done()


def open_file_is_locked(program, file, serve=Serving):
    """While it serves, no other run has the file."""
    with serve(program, file, 1) as serving:
        require(run_to_end([program, "check", file]), (3, b"", b"file: not read\n"), "check beside it")
        require_served(serving)
        serving.require_done()


def memory_does_not_grow(program, file, serve=Serving):
    """10,000 connections one after another against ten."""
    with serve(program, file, 10_010) as serving:
        def ask(times):
            for _ in range(times):
                require_served(serving)
            return most_held(serving.run)

        few, many = ask(10), ask(9_990)
        print(f"10 connections: {few} kilobytes at most; 10,000: {many}", flush=True)
        if many - few > MOST_GROWTH:
            raise Wrong(f"10,000 connections took {many - few} kilobytes more than ten")


TRIALS = [
    curl_is_answered,
    wget_is_answered,
    python_is_answered,
    pieces_are_answered,
    reply_comes_before_the_next_message,
    cut_connection_ends_alone,
    reset_connection_ends_alone,
    silent_connection_is_let_go,
    old_connection_is_let_go,
    long_line_ends_alone,
    messages_are_counted,
    port_of_another_is_reported,
    other_address_is_refused,
    bank_goes_on,
    triples_begin_and_end,
    open_file_is_locked,
]
LONG = [unread_replies_end_alone, memory_does_not_grow]
BY_WAITS = silent_connection_is_let_go, old_connection_is_let_go
OF_SERVE_ALONE = *BY_WAITS, messages_are_counted, port_of_another_is_reported
NEEDED = {"curl_is_answered": ["curl"], "wget_is_answered": ["wget"]}
# What serves, beside the trials that are made of it.
SERVED = {
    Serving: TRIALS,
    Counter: [it for it in TRIALS if it not in OF_SERVE_ALONE],
}
LONG_SERVED = {Serving: LONG, Counter: [memory_does_not_grow]}


def name_of(trial, serve):
    """What a trial is reported as."""
    return trial.__name__ if serve is Serving else f"{trial.__name__} of counter"


def trials_of(is_long):
    """The trials that are made, each beside what serves."""
    return [(it, serve) for serve in SERVED for it in SERVED[serve] + (LONG_SERVED[serve] if is_long else [])]


def main():
    arguments = reader(__doc__)
    arguments.add_argument("--long", action="store_true")
    given = arguments.parse_args()

    def checks_of(room):
        banks = SampleBanks(given.program, room)
        for trial, serve in trials_of(given.long):
            make = lambda trial=trial, serve=serve: trial(given.program, banks.copy(), serve)
            yield Check(name_of(trial, serve), make, lacking(*NEEDED.get(trial.__name__, ())))

    return run_checks(given, checks_of, jobs=len(trials_of(given.long)), go_by_clock=True)
