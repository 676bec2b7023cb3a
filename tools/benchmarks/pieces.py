"""A message that `counter` is sent in pieces, each once the one before was read; and the instructions that it takes."""
import os
import socket
import subprocess

from benchmarks.counting import Count, Counter
from checks import Wrong, require
from replies import next_reply
from sample_file import BADGES
from serving import wait_until_taken

REPLY = b'HTTP/1.1 200 OK\r\nContent-Type: application/json\r\nContent-Length: 17\r\n\r\n{"balance":50000}'
SECONDS = 240


def filled_message(head_len: int, body_len: int) -> bytes:
    """A balance with a head and a body of these lengths."""
    body = b'{"account":101}'.ljust(body_len)
    start = b"POST /do/balance HTTP/1.1\r\nHost: bank\r\nBank-Badge: tess\r\nBank-Session: 1\r\nContent-Length: %d\r\n" % body_len
    fields = b"".join(b"X-%04d: %s\r\n" % (n, b"x" * 50) for n in range((head_len - len(start)) // 60 - 1))
    last = head_len - len(start) - len(fields) - len(b"X-Last: \r\n\r\n")
    return start + fields + b"X-Last: " + b"x" * last + b"\r\n\r\n" + body


def send_in_pieces(client: socket.socket, pieces: list[bytes]) -> None:
    """Sends pieces one by one, each once the one before was read."""
    for it in pieces:
        client.sendall(it)
        wait_until_taken(client, 0)


def take_reply(client: socket.socket) -> None:
    """Takes the reply to the balance."""
    require(next_reply(lambda: client.recv(65536)), (REPLY, b""), "a balance")


def talk(place: str, pieces: list[bytes]) -> None:
    """Sends these pieces, if there are any, and takes the reply."""
    with socket.socket(socket.AF_UNIX) as client:
        client.settimeout(SECONDS)
        client.connect(place)
        if pieces:
            send_in_pieces(client, pieces)
            take_reply(client)


def counted_serving(by: Counter, program: str, file: str, pieces: list[bytes]) -> int:
    """The instructions of a run of `counter` over a file that is sent one message in these pieces, or nothing."""
    folder = os.path.dirname(file)
    count, place = Count(by, folder), os.path.join(folder, "socket")
    words = [*count.words, program, "counter", file, "--badges", BADGES, "--socket", place, "--until-input-ends"]
    with subprocess.Popen(words, stdin=subprocess.PIPE, stdout=subprocess.PIPE, stderr=subprocess.DEVNULL) as ran:
        if not ran.stdout or not ran.stdin or not ran.stdout.readline().startswith(b"listening"):
            raise Wrong("counter did not listen")
        talk(place, pieces)
        ran.stdin.close()
        if ran.wait(SECONDS):
            raise Wrong(f"counter ended with status {ran.returncode}")
    return count.read()
