"""Kills the built program while it is at work on requests, and looks at what it left.

    tools/faults/kills [--times N] [--seed SEED] [PROGRAM]

Requests are drawn that the reference model carries out; it gives the replies. They are sent to copies of one bank by `run`, by a
client of `serve` and by one of `counter`. The program is killed by a signal that it can't hear, a moment after some were sent and
those before were answered. N is 20, SEED is 1 and PROGRAM is crates/bank_cli/out/bank_cli where they are left out. How many are
sent, when, and the moments are drawn by the seed, for each check by itself.

Posts, one at a time: two and a half times N, a fresh copy gets up to 100 posts and is killed. Then `check` has to print `books
hold`, twice, and the posts are there that were answered, and one more at most. The next one is answered with the next number.

A stream whose requests bear slips, some at a time: N times it is killed and started anew; then the client sends on from the first
that was not answered, each request with its slip. Each reply has to be the one that is due, also to a request that was carried
out before its reply was lost. In the end `check` has to print `books hold`, and the file has to hold the rows that one
run without a kill leaves: of `serve` and `counter` all but the moments of entries and of lines, as the clock gives these. Each
slip is there once, with its reply.

(A request that is denied takes no slip. So a client that sends several at a time may find one allowed when sending it again,
by what came after it; these streams have none.)

Each kill of posts and each stream is a check.
"""
import os
import random
import subprocess
import time
from functools import partial

from checks import Check, Wrong, reader, require, run_checks
from faults.earlier_files import Tables, difference_of, without_moments
from model.answers import answer, first_rule, is_stated
from model.bank import BADGES, PROCEDURES, TAKES_SLIP, Bank
from model.requests import DRAWN, Request, slips_of
from replies import body_of
from sample_file import SampleBanks, ended, require_sound, run_arguments
from serving import Counter, Serving, connected, read_to_end

TIMES = 20
# How many kills of posts there are for each kill of a stream, and how many posts at most before one.
KILLS_OF_POSTS = 2.5
MOST_POSTS = 100
# How many requests of a stream are sent for each kill, and after the last; at a time; and from the last answered to a kill.
REQUESTS_OF_KILL = 20
MOST_AT_A_TIME = 8
MOST_ANSWERED = 12
# At most how many seconds after some were sent the program is killed.
LONGEST_OF_POST, LONGEST = 0.002, 0.004
# How often each kind is drawn, of those that take a slip.
WEIGHTS = {**{it: 2 for it in PROCEDURES if it in TAKES_SLIP}, "post": 12, "transfer": 8, "correct": 20}
# Numbers of slips are those after the user's last, or one further on.
FURTHER = (1, 1, 1, 2, 1_000)
TESS, CENT = 7, {"account": 101, "branch": 1, "delta": 1, "teller": 11}


class ByRun:
    """A `run` over a file, which is sent messages on its standard input."""

    name = "run"

    def __init__(self, program, file):
        pipes = {"stdin": subprocess.PIPE, "stdout": subprocess.PIPE, "stderr": subprocess.DEVNULL}
        self.run = subprocess.Popen([program, *run_arguments(file, 700)], bufsize=0, **pipes)

    def send(self, given):
        """Sends bytes."""
        self.run.stdin.write(given)

    def piece(self):
        """The next piece of what is answered."""
        return os.read(self.run.stdout.fileno(), 4096)

    def kill(self):
        """Kills it, and returns what else was answered, and the status."""
        self.run.kill()
        return self.run.communicate()[0], self.run.returncode


class ByServe:
    """A `serve` over a file, which a client sends messages on one connection."""

    name = "serve"
    serving_of = Serving

    def __init__(self, program, file):
        self.serving = self.serving_of(program, file, 1_000_000)
        self.client = connected(self.serving.port)

    def send(self, given):
        """Sends bytes."""
        self.client.sendall(given)

    def piece(self):
        """The next piece of what is answered."""
        return self.client.recv(4096)

    def kill(self):
        """Kills it, and returns what else was answered, and the status."""
        self.serving.run.kill()
        self.serving.run.communicate()
        with self.client:
            return read_to_end(self.client), self.serving.run.returncode


class ByCounter(ByServe):
    """A `counter` over a file, likewise."""

    name = "counter"
    serving_of = Counter


class Sent:
    """A request as it is sent, and the reply that is due."""

    def __init__(self, request, reply):
        self.user = request.user
        self.slip = request.slip
        self.message = request.message()
        self.reply = reply
        self.body = body_of(reply)


def post_of_a_cent(bank, _rng):
    """A post of one cent, without a slip."""
    return Request(bank, "post", TESS, CENT)


def any_request(bank, rng):
    """An operation that writes, with a new slip of its user, as it is drawn first. Some use a release."""
    kind = rng.choices(list(WEIGHTS), list(WEIGHTS.values()))[0]
    users = [it for it in bank.users_of(kind) if it in BADGES]
    user, release = rng.choice(users), 0
    body = DRAWN[kind](bank, user, rng)
    given = [(key, leave.operation) for key, leave in bank.releases.items() if key not in bank.used]
    if given and rng.random() < 0.2:
        (user, release), operation = rng.choice(given)
        body = dict(operation)
        kind = body.pop("procedure")
    slip = max(slips_of(bank, user), default=0) + rng.choice(FURTHER)
    return Request(bank, kind, user, body, release, slip=slip)


def stream_of(draw, rng, length):
    """So many requests that are allowed one after the other."""
    bank, sent = Bank(), []
    while len(sent) < length:
        request = draw(bank, rng)
        if not is_stated(request) or first_rule(bank, request):
            continue
        bank, _, reply = answer(bank, request)
        sent.append(Sent(request, reply))
    return sent


def bytes_of(sent):
    """The bytes of requests."""
    return b"".join(it.message for it in sent)


def replies_to(sent):
    """The replies that are due to them."""
    return b"".join(it.reply for it in sent)


def require_answered(run, sent):
    """Sends requests, and passes if they get the replies that are due."""
    run.send(bytes_of(sent))
    due, got = replies_to(sent), b""
    while len(got) < len(due) and due.startswith(got):
        piece = run.piece()
        if not piece:
            break
        got += piece
    if got != due:
        run.kill()
        raise Wrong(f"it answered {got[-200:]!r}; due was {due[-200:]!r}")


def count_answered(sent, got):
    """How many requests were answered whole by these bytes, which are the beginning of the replies that are due."""
    if not replies_to(sent).startswith(got):
        raise Wrong(f"before the kill it answered {got[-200:]!r}; due was {replies_to(sent)[-200:]!r}")
    return next(count for count in range(len(sent), -1, -1) if len(replies_to(sent[:count])) <= len(got))


def in_pieces(sent, most, rng):
    """The same requests, some at a time."""
    at = 0
    while at < len(sent):
        piece = sent[at : at + rng.randint(1, most)]
        at += len(piece)
        yield piece


def send_until_killed(run, sent, answered, most, longest, rng):
    """Sends requests to a program, of which n are answered, kills it a moment after some more were sent, and returns how
    many were answered."""
    for piece in in_pieces(sent[:answered], most, rng):
        require_answered(run, piece)
    last = sent[answered : answered + rng.randint(1, most)]
    run.send(bytes_of(last))
    time.sleep(rng.random() * longest)
    got, status = run.kill()
    if status != -9:
        raise Wrong(f"it ended with status {status}")
    return answered + count_answered(last, got)


def count_done(file, sent, answered):
    """How many requests are done after those that were answered. They have to be the next ones, each with its slip."""
    slips = {(row[0], row[1]): row[-1] for row in Tables(file).rows["slips"]}
    done = {(it.user, it.slip): it.body for it in sent[: len(slips)]}
    if slips != done or len(slips) < answered:
        raise Wrong(f"{answered} were answered, and {len(slips)} slips are there, or others than those sent")
    return len(slips) - answered


def send_with_kills(by, program, file, sent, times, rng):
    """Sends a stream to a bank, killed n times, and returns how many requests were sent again though they were done."""
    at = again = 0
    for _ in range(times):
        at += send_until_killed(by(program, file), sent[at:], rng.randint(0, MOST_ANSWERED), MOST_AT_A_TIME, LONGEST, rng)
        again += count_done(file, sent, at)
    run = by(program, file)
    for piece in in_pieces(sent[at:], MOST_AT_A_TIME, rng):
        require_answered(run, piece)
    run.kill()
    count_done(file, sent, len(sent))
    return again


class Kills:
    """Kills of runs over copies of a bank, drawn by a seed: how many posts were there that were not answered is counted by what
    serves."""

    def __init__(self, given, room):
        self.program, self.times, self.seed = given.program, given.times, given.seed
        self.banks, self.unanswered = SampleBanks(given.program, room), dict.fromkeys((ByRun, ByServe, ByCounter), 0)
        self.posts = stream_of(post_of_a_cent, self.rng("posts"), MOST_POSTS + 2)

    def rng(self, name):
        """What draws for a check, whichever others are made."""
        return random.Random(f"{self.seed} {name}")

    def kill_posts(self, by, number):
        """Kills a run over a copy of the bank, and takes note of a post that is there and was not answered."""
        file, rng = self.banks.copy(), self.rng(f"{by.name} {number}")
        answered = send_until_killed(by(self.program, file), self.posts, rng.randint(0, MOST_POSTS), 1, LONGEST_OF_POST, rng)
        require_sound(self.program, file)
        require_sound(self.program, file)
        there = len(Tables(file).rows["entries"])
        if there not in (answered, answered + 1):
            raise Wrong(f"{answered} posts were answered, and {there} are there")
        require(ended(self.program, run_arguments(file, 700), self.posts[there].message), self.posts[there].reply, "the next post")
        self.unanswered[by] += there > answered

    def kill_stream(self, by):
        """Sends a stream with kills to a copy of the bank and without to another, and returns what is printed of them."""
        rng = self.rng(by.name)
        sent = stream_of(any_request, rng, (self.times + 1) * REQUESTS_OF_KILL)
        whole, file = self.banks.copy(), self.banks.copy()
        if ended(self.program, run_arguments(whole, 700), bytes_of(sent)) != replies_to(sent):
            raise Wrong("without a kill it answers otherwise than the model")
        again = send_with_kills(by, self.program, file, sent, self.times, rng)
        require_sound(self.program, file)
        tables = [Tables(it).rows for it in (file, whole)]
        difference = difference_of(*(map(without_moments, tables) if by is not ByRun else tables))
        if difference:
            raise Wrong(f"it is another bank than that of one run: {difference}")
        return f"{self.unanswered[by]} posts were there and not answered; {again} requests that had been done were sent again"

    def checks(self):
        """All kills, by each way to serve."""
        for by in self.unanswered:
            for number in range(1, int(self.times * KILLS_OF_POSTS) + 1):
                yield Check(f"{by.name}, kill {number} of posts", partial(self.kill_posts, by, number))
            yield Check(f"{by.name}, a stream with slips and {self.times} kills", partial(self.kill_stream, by))


def main():
    arguments = reader(__doc__)
    arguments.add_argument("--times", metavar="N", type=int, default=TIMES)
    arguments.add_argument("--seed", type=int, default=1)
    given = arguments.parse_args()
    return run_checks(given, lambda room: Kills(given, room).checks())
