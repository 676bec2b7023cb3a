"""Has many clients at once ask the built program `counter` over a bank in a file, and looks at what each gets.

    tools/faults/many [--only TEXT] [--list] [PROGRAM]

500 connections are idle, one sends byte by byte, twenty are busy, one reads none of its replies; a thousand are accepted at once,
and beyond that the one that was idle longest gives way. Busy clients post over several connections: every entry is there once,
each gets the reply to its own. The place is a port, a Unix socket or a socket that is handed over. An end by order answers what
has come, on a slow disk, too. What is late is tried on a clock that the test sets: a message that does not become whole, to the
second, and replies that are not taken. A last reply that the system does not hold arrives whole, however slowly it is read and
whatever is sent beyond it.

Each of these is a run of its own, over a bank of its own, one after another; who was late is tried once more at the end.
"""
import contextlib
import json
import os
import re
import shutil
import signal
import socket
import stat
import subprocess
import termios
import threading
import time

from checks import Check, Late, Wrong, reader, require, require_time, run_checks
from preload import preloaded
from replies import body_of, next_reply, parsed, replies_in
from sample_file import BADGES, ENDINGS, LISTS, SampleBanks, ended, message, require_sound, run_to_end, run_arguments
from serving import HOST, Counter, asked, bytes_at, connected, counter_arguments, listening, read_to_end, wait_until_taken
from simulation.machine import Machine

SECONDS = 240
BALANCE = message("tess", "/do/balance", {"account": 101})
BALANCE_REPLY = b'HTTP/1.1 200 OK\r\nContent-Type: application/json\r\nContent-Length: 17\r\n\r\n{"balance":50000}'
POST = message("tess", "/do/post", {"account": 101, "branch": 1, "delta": 1, "teller": 11})
STATEMENT = message("tess", "/do/statement", {"account": 101, "count": 1000, "start": 1})
# How a run ends whose place can't be bound.
BROKEN = (3, b"", b"stream: broken\n")
# So long a client may wait for a balance beside others, in seconds.
SOON = 1
# How long a message may be on its way, and a reply be waited for to be taken.
MOST_SECONDS = 30
IDLE = 500
BUSY = 20
MOST_CONNECTIONS = 1_000
POSTS = 50
# So many messages of a connection are answered in two visits.
OF_TWO_VISITS = 32
# What a clock that is set reads first, in seconds; how many bytes a socket of little room asks for, and how many are taken of it now and
# then; and how many lines the longest statement has, and how long its heading and one of them are.
CLOCK_STARTED = 1_000
LITTLE_ROOM, A_LITTLE = 4_096, 8_192
MOST_LINES, STATEMENT_HEADING, STATEMENT_LINE = 1_000, 55, 76
# A Unix socket holds some 200 kilobytes, and so two statements or three.
MORE_BY_UNIX = 7
LAST_STATEMENT = STATEMENT.replace(b"Host: bank\r\n", b"Host: bank\r\nConnection: close\r\n")


def reply_of(client):
    """The next reply of a connection, which stays open."""
    reply, rest = next_reply(lambda: client.recv(65536))
    require(rest, b"", "after a reply")
    return reply


def balance_of(client, what):
    """The reply to a balance on a connection, which has to come soon."""
    start = time.monotonic()
    client.sendall(BALANCE)
    reply = reply_of(client)
    require_time(time.monotonic() - start, 0, SOON, what)
    return reply


def require_soon(client, what):
    """Passes if a balance is answered soon on a connection."""
    require(balance_of(client, what), BALANCE_REPLY, what)


@contextlib.contextmanager
def held_up(counter):
    """Holds the program up, so that all that comes meanwhile is reported to it at once."""
    counter.run.send_signal(signal.SIGSTOP)
    os.waitid(os.P_PID, counter.run.pid, os.WSTOPPED)
    yield
    counter.run.send_signal(signal.SIGCONT)


def second_is_answered_beside_a_silent_one(program, file):
    """A connection that says nothing, one that stops inside a message, and one that is answered beside them."""
    with Counter(program, file) as counter, connected(counter.port), connected(counter.port) as half:
        half.sendall(BALANCE[:-1])
        with connected(counter.port) as client:
            for _ in range(3):
                require_soon(client, "a balance beside them")
        half.sendall(BALANCE[-1:])
        require(reply_of(half), BALANCE_REPLY, "the half message, once its last byte has come")
        counter.require_done()


def many_idle_ones_cost_nothing(program, file):
    """500 idle connections, one that sends byte by byte, and twenty busy ones."""
    with Counter(program, file) as counter, contextlib.ExitStack() as open_ones:
        idle = [open_ones.enter_context(connected(counter.port)) for _ in range(IDLE)]
        slow = open_ones.enter_context(connected(counter.port))
        busy = [open_ones.enter_context(connected(counter.port)) for _ in range(BUSY)]
        for byte in BALANCE:
            slow.sendall(bytes([byte]))
            for client in busy:
                client.sendall(BALANCE)
            for client in busy:
                require(reply_of(client), BALANCE_REPLY, "a busy one")
        require(reply_of(slow), BALANCE_REPLY, "byte by byte")
        for client in idle:
            require_soon(client, "an idle one, once it asks")
        counter.require_done()


def posts_of_many_are_one_list(program, file):
    """Busy clients post over twenty connections: each reply has an entry of its own, and the balance is that of all."""
    replies = []

    def post(port):
        with connected(port) as client:
            for _ in range(POSTS):
                client.sendall(POST)
                replies.append(body_of(reply_of(client)))

    with Counter(program, file) as counter:
        clients = [threading.Thread(target=post, args=(counter.port,)) for _ in range(BUSY)]
        for it in clients:
            it.start()
        for it in clients:
            it.join()
        wanted = {b'{"balance":%d,"branch":1,"entry":%d}' % (50_000 + n, n) for n in range(1, BUSY * POSTS + 1)}
        require(set(replies), wanted, "the replies to all posts")
        require(len(replies), len(wanted), "how many replies came")
        counter.require_done()
    require_sound(program, file)


def pipelined_ones_are_answered_in_order(program, file):
    """A client that sends many messages in one piece gets the replies to them in their order."""
    with Counter(program, file) as counter:
        got = asked(counter.port, POST * 100)
        entries = [int(it) for it in re.findall(rb'"entry":(\d+)', got)]
        require(entries, list(range(1, 101)), "entries in their order")
        counter.require_done()


def unread_replies_hold_up_nobody(program, file):
    """A client that asks for statements without end and reads none of them."""
    with Counter(program, file) as counter:
        asked(counter.port, POST * 1_000)
        with connected(counter.port) as greedy, connected(counter.port) as client:
            greedy.settimeout(1)
            with contextlib.suppress(TimeoutError):
                for _ in range(20_000):
                    greedy.sendall(STATEMENT)
            for _ in range(5):
                balance_of(client, "a balance beside one that reads nothing")
        counter.require_done()


def thousand_are_had_and_the_longest_idle_gives_way(program, file):
    """A thousand connections at once; then one more, for which the one that was idle longest gives way."""
    with Counter(program, file) as counter, contextlib.ExitStack() as open_ones:
        all_of_them = []
        for _ in range(MOST_CONNECTIONS):
            client = open_ones.enter_context(connected(counter.port))
            require_soon(client, "one of a thousand")
            all_of_them.append(client)
        # The first is no longer the one that was idle longest.
        require_soon(all_of_them[0], "the first, once more")
        client = open_ones.enter_context(connected(counter.port))
        require_soon(client, "one beyond a thousand")
        require(all_of_them[1].recv(1), b"", "the one that was idle longest")
        for client in (all_of_them[0], *all_of_them[2:10]):
            require_soon(client, "the others")
        asking, idle = all_of_them[10:12]
        with held_up(counter):
            asking.sendall(BALANCE)
            wait_until_taken(asking)
            client = open_ones.enter_context(connected(counter.port))
        require(reply_of(asking), BALANCE_REPLY, "the one that was idle longest until it asked")
        require_soon(client, "one more")
        require(idle.recv(1), b"", "the one that was idle longest then")
        counter.require_done()


def end_by_order_answers_what_has_come(program, file):
    """Messages that have come whole are answered, and what is half does nothing. Then no one is let in."""
    with Counter(program, file) as counter, connected(counter.port) as whole, connected(counter.port) as half:
        require_soon(whole, "a balance")
        require_soon(half, "another")
        with held_up(counter):
            whole.sendall(POST)
            half.sendall(POST[:-1])
            for it in (whole, half):
                wait_until_taken(it)
            counter.end_input()
        counter.require_done(SECONDS)
        require(body_of(reply_of(whole)), b'{"balance":50001,"branch":1,"entry":1}', "the post that was whole")
        require(read_to_end(half), b"", "the half one")
    require_sound(program, file)
    # The log was taken in: the file alone is the bank.
    alone = file + "-alone"
    shutil.copyfile(file, alone)
    require(body_of(ended(program, run_arguments(alone, 700), POST)), b'{"balance":50002,"branch":1,"entry":2}', "the next post")


def end_by_order_answers_what_has_come_on_a_slow_disk(program, file):
    """More posts than one visit answers, of some connections, the first visits of which take over a second together."""
    slow = {**os.environ, "LD_PRELOAD": preloaded("faults/slow_syncs.c", os.path.dirname(file))}
    with Counter(program, file, env=slow) as counter, contextlib.ExitStack() as open_ones:
        clients = [open_ones.enter_context(connected(counter.port)) for _ in range(4)]
        for it in clients:
            require_soon(it, "a balance")
        with held_up(counter):
            for it in clients:
                it.sendall(POST * OF_TWO_VISITS)
                wait_until_taken(it)
            counter.end_input()
        counter.require_done(SECONDS)
        entries = [int(entry) for it in clients for entry in re.findall(rb'"entry":(\d+)', read_to_end(it))]
        require(sorted(entries), list(range(1, len(clients) * OF_TWO_VISITS + 1)), "the entries of all posts")
    require_sound(program, file)


def disk_that_fails_is_reported_once(program, file):
    """A disk that fails at a post: from then on each request is refused, and standard error has one line."""
    failing = file + "-failing"
    env = {**os.environ, "FAILING": failing, "LD_PRELOAD": preloaded("faults/failing_syncs.c", os.path.dirname(file))}
    with Counter(program, file, env=env) as counter, connected(counter.port) as client:
        client.sendall(POST)
        require(body_of(reply_of(client)), b'{"balance":50001,"branch":1,"entry":1}', "a post before")
        with open(failing, "wb"):
            pass
        for fault in ("F3", "F4", "F4"):
            client.sendall(POST)
            require(json.loads(body_of(reply_of(client)))["fault"], fault, "a post after the disk has failed")
        os.remove(failing)
        counter.end_input()
        require(counter.ended(), (3, b"", b"disk: failed\nfile: not read\n"), "its end")
    require_sound(program, file)


def end_of_a_file_ends_nothing(program, file):
    """Standard input that is no pipe."""
    def start(port):
        words = [program, *counter_arguments(file, "--port", str(port))]
        return subprocess.Popen(words, stdin=subprocess.DEVNULL, stdout=subprocess.PIPE, stderr=subprocess.PIPE)

    port, ran, line = listening(start)
    try:
        require(line, b"listening %d\n" % port, "the first line")
        time.sleep(1.5)
        require(ran.poll(), None, "status")
        require(asked(port, BALANCE), BALANCE_REPLY, "a balance")
    finally:
        ran.kill()
        ran.communicate()


def bytes_of_the_input_end_nothing(program, file):
    """What comes at standard input ends nothing, before its end does."""
    with Counter(program, file) as counter:
        os.write(counter.run.stdin.fileno(), b"end\n")
        time.sleep(1.5)
        require(counter.run.poll(), None, "status")
        require(asked(counter.port, BALANCE), BALANCE_REPLY, "a balance")
        counter.require_done()


def place_is_one(program, file):
    """No place, and two of them."""
    for more in ("", "--port 8475 --inherited", "--port 8475 --socket x", "--socket x --inherited", "--port 0"):
        status, output, errors = run_to_end([program, "counter", file, "--badges", BADGES, *more.split()])
        require((status, output, bool(errors)), (2, b"", True), more)


def broken(program, file, *more, **how):
    """Passes if the place can't be bound, which is reported so."""
    require(run_to_end([program, *counter_arguments(file, *more)], **how), BROKEN, f"{more}")
    require_sound(program, file)


def port_of_another_is_reported(program, file):
    """A port that another program has."""
    with socket.socket() as other:
        other.bind((HOST, 0))
        other.listen()
        broken(program, file, "--port", str(other.getsockname()[1]))


def by_socket(path):
    """A client of a Unix socket."""
    client = socket.socket(socket.AF_UNIX)
    client.connect(path)
    client.settimeout(SECONDS)
    return client


def start_at(words, line, **how):
    """A run of the program, once it has said its first line."""
    ran = subprocess.Popen(words, stdin=subprocess.PIPE, stdout=subprocess.PIPE, stderr=subprocess.PIPE, **how)
    said = ran.stdout.readline()
    if said != line:
        ran.kill()
        raise Wrong(f"it said {said!r} first, and {ran.communicate()[1]!r}")
    return ran


def require_ended(ran):
    """Passes if a run ends well once its input ends."""
    output, errors = ran.communicate(timeout=SECONDS)
    require((ran.returncode, output, errors), (0, b"", b""), "its end")


def unix_socket_is_served(program, file):
    """A Unix socket, with the rights that the mask leaves; one that was left by a program that was killed; and what is no
    socket."""
    path = os.path.join(os.path.dirname(file), "counter.socket")
    words = [program, *counter_arguments(file, "--socket", path)]
    line = b"listening " + path.encode() + b"\n"
    ran = start_at(words, line, umask=0o077)
    require(stat.S_IMODE(os.stat(path).st_mode), 0o700, "rights")
    with by_socket(path) as client, by_socket(path) as other:
        require_soon(client, "a balance")
        require_soon(other, "another")
    require_ended(ran)
    require(os.path.exists(path), False, "the socket, after the end")
    ran = start_at(words, line)
    ran.kill()
    ran.communicate()
    require(os.path.exists(path), True, "the socket, after a kill")
    ran = start_at(words, line)
    with by_socket(path) as client:
        require_soon(client, "a balance at the socket that was replaced")
    require_ended(ran)
    with open(path, "wb") as kept:
        kept.write(b"kept")
    broken(program, file, "--socket", path)
    with open(path, "rb") as kept:
        require(kept.read(), b"kept", "a file in the way")
    os.remove(path)
    with socket.socket(socket.AF_UNIX) as other:
        other.bind(path)
        other.listen()
        broken(program, file, "--socket", path)
        with by_socket(path):
            require(os.path.exists(path), True, "the socket of another")
    os.remove(path)


def inherited_arguments(program, file, count=1, pid="$$"):
    """The arguments by which a shell hands its descriptor 3 over."""
    inner = " ".join(f"'{it}'" for it in [program, *counter_arguments(file, "--inherited")])
    return ["sh", "-c", f"LISTEN_FDS={count} LISTEN_PID={pid} exec {inner}"]


def with_descriptor(number):
    """How a run begins with a descriptor as its descriptor 3."""

    def hand_over():
        os.dup2(number, 3)
        # It may have been 3 already, and would be closed then.
        os.set_inheritable(3, True)

    return {"preexec_fn": hand_over, "close_fds": False}


def inherited_sockets_are_served(program, file):
    """A socket of TCP and a Unix socket that are handed over, the first connection to which waits already."""
    path = os.path.join(os.path.dirname(file), "handed.socket")
    for listener, address in ((socket.socket(), (HOST, 0)), (socket.socket(socket.AF_UNIX), path)):
        with listener:
            listener.bind(address)
            listener.listen()
            with socket.socket(listener.family) as first:
                first.connect(listener.getsockname())
                ran = start_at(inherited_arguments(program, file), b"listening inherited\n", **with_descriptor(listener.fileno()))
                require_soon(first, "the one that waited")
                with socket.socket(listener.family) as second:
                    second.connect(listener.getsockname())
                    require_soon(second, "the next")
                require_ended(ran)
    require(os.path.exists(path), True, "the socket of the supervisor, after the end")


def what_is_not_handed_over_is_refused(program, file):
    """No LISTEN_FDS, those of another process, and what is no listening socket."""
    with socket.socket() as listener:
        listener.bind((HOST, 0))
        for words, how in (
            ([program, *counter_arguments(file, "--inherited")], {}),
            (inherited_arguments(program, file, count=2), with_descriptor(listener.fileno())),
            (inherited_arguments(program, file, pid=1), with_descriptor(listener.fileno())),
            (inherited_arguments(program, file), with_descriptor(listener.fileno())),
            (inherited_arguments(program, file), with_descriptor(1)),
            (inherited_arguments(program, file), {}),
        ):
            require(run_to_end(words, **how), BROKEN, f"{words}")
            require_sound(program, file)


class Narrow:
    """A run of `counter` at a socket that is handed over, on a machine whose clock is set. The connections of TCP hold few bytes in the
    system; what is sent to a client has much room there, if that is said. A Unix socket holds as many as the system gives it. Beside
    the connections of a trial it has one of its own."""

    def __init__(self, program, file, has_room=False, is_unix=False):
        self.machine, self.is_unix = Machine(os.path.dirname(file)), is_unix
        self.set_clock(0)
        self.listener = socket.socket(socket.AF_UNIX if is_unix else socket.AF_INET)
        if not has_room:
            self.listener.setsockopt(socket.SOL_SOCKET, socket.SO_SNDBUF, LITTLE_ROOM)
        self.listener.bind(f"{file}-socket" if is_unix else (HOST, 0))
        self.listener.listen()
        how = {"env": self.machine.environment(None), **with_descriptor(self.listener.fileno())}
        self.ran = start_at(inherited_arguments(program, file), b"listening inherited\n", **how)
        self.witness = self.connected()

    def __enter__(self):
        return self

    def __exit__(self, *error):
        self.witness.close()
        self.listener.close()
        if error[0]:
            self.ran.kill()
            self.ran.communicate()
        else:
            require_ended(self.ran)

    def connected(self):
        """A client that the system holds few bytes for."""
        client = socket.socket(self.listener.family)
        client.setsockopt(socket.SOL_SOCKET, socket.SO_RCVBUF, LITTLE_ROOM)
        client.settimeout(SECONDS)
        client.connect(self.listener.getsockname())
        if not self.is_unix:
            client.setsockopt(socket.IPPROTO_TCP, socket.TCP_NODELAY, 1)
        return client

    def more(self):
        """How many statements are asked for before the last: with that they are more than the system holds."""
        return MORE_BY_UNIX if self.is_unix else 0

    def visit(self, *clients):
        """Waits until all that these have sent was seen, and who is late was let go: a second reply comes after the turn of the
        first."""
        for it in clients:
            wait_until_taken(it)
        for _ in range(2):
            self.witness.sendall(BALANCE)
            require(reply_of(self.witness)[:15], BALANCE_REPLY[:15], "a balance beside the others")

    def fill(self, client):
        """Waits until a turn of a client adds nothing to what it has to read, as the system takes no more for it."""
        held, before = 0, -1
        while held > before:
            self.visit()
            before, held = held, bytes_at(client, termios.FIONREAD)

    def set_clock(self, seconds):
        """Sets the clock to this many seconds after it was started."""
        self.machine.set(stopped=CLOCK_STARTED + seconds)

    def wait(self, seconds):
        """Moves the clock on to this many seconds after it was started, and waits as `visit` does."""
        self.set_clock(seconds)
        self.visit()


def make_long(program, file):
    """Makes the statement of a bank as long as one may be."""
    require(ended(program, run_arguments(file, 700), POST * MOST_LINES).count(b'"entry":'), MOST_LINES, "posts")


def is_open(client):
    """Whether nothing has come of a connection, and it has not ended."""
    client.setblocking(False)
    try:
        return client.recv(1) is None
    except BlockingIOError:
        return True
    except ConnectionError:
        return False
    finally:
        client.settimeout(SECONDS)


def require_open(clients, is_so, when):
    """Passes if each of these is open, or none is."""
    for name, client in clients.items():
        require(is_open(client), is_so, f"whether {name} is there {when}")


def half_message_is_let_go(program, file, is_unix=False):
    """A message that does not become whole, at once or byte by byte, is let go 30 seconds after its first byte, and who says
    nothing is not. One that was answered has 30 seconds for its next message."""
    with Narrow(program, file, is_unix=is_unix) as counter, contextlib.ExitStack() as open_ones:
        half, slow, next_one, silent = (open_ones.enter_context(counter.connected()) for _ in range(4))
        half.sendall(BALANCE[:-1])
        slow.sendall(BALANCE[:1])
        next_one.sendall(BALANCE[:-1])
        counter.visit(half, slow, next_one)
        for second in (10, 20):
            counter.wait(second)
            slow.sendall(BALANCE[second : second + 1])
        next_one.sendall(BALANCE[-1:] + BALANCE[:-1])
        require(reply_of(next_one), BALANCE_REPLY, "one that became whole")
        counter.visit(next_one)
        counter.wait(MOST_SECONDS - 1)
        require_open({"half a message": half, "one byte by byte": slow, "the next message": next_one}, True, "after 29 seconds")
        slow.sendall(BALANCE[MOST_SECONDS : MOST_SECONDS + 1])
        counter.visit(slow)
        counter.wait(MOST_SECONDS)
        require_open({"half a message": half, "one byte by byte": slow}, False, "after 30 seconds")
        counter.wait(20 + MOST_SECONDS - 1)
        require_open({"the next message": next_one}, True, "after 29 seconds of its own")
        counter.wait(20 + MOST_SECONDS)
        require_open({"the next message": next_one}, False, "after 30 seconds of its own")
        silent.sendall(BALANCE)
        require(reply_of(silent), BALANCE_REPLY, "one that said nothing until then")


def unread_replies_are_let_go(program, file, is_unix=False):
    """A client that takes nothing of its reply, and one that takes some now and then, are let go after 30 seconds."""
    make_long(program, file)
    with Narrow(program, file, is_unix=is_unix) as counter, contextlib.ExitStack() as open_ones:
        nothing, little = (open_ones.enter_context(counter.connected()) for _ in range(2))
        for it in (nothing, little):
            it.sendall(STATEMENT * (counter.more() + 1))
            require(it.recv(1, socket.MSG_PEEK), b"H", "the first byte of the reply")
        counter.visit()
        taken = 0
        for second in (10, 20, MOST_SECONDS - 1):
            counter.wait(second)
            while taken < A_LITTLE * second // 10:
                taken += len(little.recv(A_LITTLE))
            counter.visit()
        counter.wait(MOST_SECONDS)
        for name, client, count in (("nothing", nothing, 0), ("a little", little, taken)):
            client.settimeout(MOST_SECONDS)
            try:
                count += len(read_to_end(client))
            except TimeoutError:
                raise Late(f"one that took {name} was not let go after 30 seconds") from None
            if count >= (counter.more() + 1) * MOST_LINES * STATEMENT_LINE:
                raise Wrong(f"one that took {name} got all {count} bytes after 30 seconds")


def send_to(client, given):
    """Sends bytes as long as the connection stands."""
    with contextlib.suppress(ConnectionError):
        client.sendall(given)


def last_reply_arrives_whole(program, file, has_room=False, beyond=b"", is_unix=False):
    """A statement of more than the system holds, after which the connection ends. Its client reads none of it before the program
    has sent what the system takes, and then a little at a time."""
    make_long(program, file)
    with Narrow(program, file, has_room, is_unix) as counter, counter.connected() as client:
        sender = threading.Thread(target=send_to, args=(client, STATEMENT * counter.more() + LAST_STATEMENT + beyond))
        sender.start()
        require(client.recv(1, socket.MSG_PEEK), b"H", "the first byte of the reply")
        counter.fill(client)
        pieces = []
        with contextlib.suppress(ConnectionError):
            while piece := client.recv(A_LITTLE):
                pieces.append(piece)
        sender.join()
        replies, length = [parsed(it) for it in replies_in(b"".join(pieces))], STATEMENT_HEADING + MOST_LINES * STATEMENT_LINE
        require([len(it.body) for it in replies], [length] * (counter.more() + 1), "bytes of the replies")
        require([it.fields.get("Connection") for it in replies], [None] * counter.more() + ["close"], "the end of the connection")


def last_reply_arrives_whole_where_more_was_sent(program, file):
    """The same where the system takes all of it at once, and more than it holds was sent beyond the last message."""
    last_reply_arrives_whole(program, file, True, b"x" * 1_000_000)


def half_message_at_a_unix_socket_is_let_go(program, file):
    """The same at a Unix socket."""
    half_message_is_let_go(program, file, is_unix=True)


def unread_replies_at_a_unix_socket_are_let_go(program, file):
    """The same at a Unix socket, of several statements."""
    unread_replies_are_let_go(program, file, is_unix=True)


def last_reply_arrives_whole_at_a_unix_socket(program, file):
    """The same at a Unix socket, of several statements, and with more sent beyond the last message."""
    last_reply_arrives_whole(program, file, beyond=b"x" * 1_000_000, is_unix=True)


def socket_of_a_busy_one_stays(program, file):
    """A Unix socket whose owner is too busy to accept, as many wait to be accepted already."""
    path = os.path.join(os.path.dirname(file), "busy.socket")
    with socket.socket(socket.AF_UNIX) as busy, contextlib.ExitStack() as open_ones:
        busy.bind(path)
        busy.listen(0)
        kept, is_full = os.stat(path).st_ino, False
        while not is_full:
            client = open_ones.enter_context(socket.socket(socket.AF_UNIX))
            client.setblocking(False)
            try:
                client.connect(path)
            except BlockingIOError:
                is_full = True
        broken(program, file, "--socket", path)
        require(os.stat(path).st_ino, kept, "the socket of a busy one")


def rights_at_a_file_are_those_of_the_mask(program, file):
    """Of a bank's file and its log only its owner writes, and others read only if the mask lets them."""
    for mask, rights in ((0, 0o644), (0o027, 0o640), (0o077, 0o600)):
        made = f"{file}-{mask:o}"
        require(run_to_end([program, "init", made, LISTS, "--sums"], umask=mask), (0, b"made\n", b""), "its beginning")
        with Counter(program, made, umask=mask) as counter:
            asked(counter.port, message("tess", "/session"))
            found = [stat.S_IMODE(os.stat(made + it).st_mode) for it in ENDINGS]
            counter.require_done()
        require(found, [rights] * len(ENDINGS), f"rights with the mask {mask:o}")


TRIALS = [
    second_is_answered_beside_a_silent_one,
    many_idle_ones_cost_nothing,
    posts_of_many_are_one_list,
    pipelined_ones_are_answered_in_order,
    unread_replies_hold_up_nobody,
    thousand_are_had_and_the_longest_idle_gives_way,
    end_by_order_answers_what_has_come,
    end_by_order_answers_what_has_come_on_a_slow_disk,
    disk_that_fails_is_reported_once,
    end_of_a_file_ends_nothing,
    bytes_of_the_input_end_nothing,
    place_is_one,
    port_of_another_is_reported,
    unix_socket_is_served,
    inherited_sockets_are_served,
    what_is_not_handed_over_is_refused,
    half_message_is_let_go,
    unread_replies_are_let_go,
    last_reply_arrives_whole,
    last_reply_arrives_whole_where_more_was_sent,
    half_message_at_a_unix_socket_is_let_go,
    unread_replies_at_a_unix_socket_are_let_go,
    last_reply_arrives_whole_at_a_unix_socket,
    socket_of_a_busy_one_stays,
    rights_at_a_file_are_those_of_the_mask,
]


def main():
    given = reader(__doc__).parse_args()

    def checks_of(room):
        banks = SampleBanks(given.program, room)
        return [Check(it.__name__, lambda it=it: it(given.program, banks.copy())) for it in TRIALS]

    return run_checks(given, checks_of, go_by_clock=True)
