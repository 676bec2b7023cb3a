"""The teller's page over the sample bank, at ports of 127.0.0.1: one port per badge, with neither certificates nor nginx."""
import contextlib
import functools
import http.client
import http.server
import os
import re
import socket
import subprocess
import tempfile
import threading

from repository import TOP
from serving import HOST, is_free

# The first port that is tried, if no other is given, and the last that any process can have.
FIRST_PORT, LAST_PORT = 8480, 65_535
SAMPLE, PAGE = os.path.join(TOP, "sample"), os.path.join(TOP, "desk", "page")
BADGES = os.path.join(SAMPLE, "badges.csv")
# The paths that the front passes on to the bank, and the fields beside the badge.
OF_THE_BANK = re.compile(r"/(session|end|policy|(do|policy)/[a-z-]+)")
FIELDS = ("Bank-Session", "Bank-Slip", "Bank-Release")
MOST_BYTES, JSON = 1024, "application/json"
# What to type first. (desk/test does what it says.)
FIRST_STEPS = """
At the page of tess sign in with branch 1 and drawer 11. Put the drawer on first, with a count such as 400.00: no drawer of this
bank is on yet, while `tools/try sample` begins with the drawers 11 and 12 on. Then post to account 101. Ctrl-C ends the bank.
"""


class Desk(http.server.SimpleHTTPRequestHandler):
    """The teller's page of one badge, and its way to the bank, as branch/front has it."""

    protocol_version = "HTTP/1.1"
    # A connection ends if what is awaited on it does not come within these seconds.
    timeout = 20
    extensions_map = {**http.server.SimpleHTTPRequestHandler.extensions_map, ".js": "text/javascript", ".svg": "image/svg+xml"}

    def __init__(self, *given, badge: str, bank: str, **how):
        self.badge, self.bank = badge, bank
        super().__init__(*given, **how)

    def log_message(self, *_):
        """Nothing is logged."""

    def end_headers(self):
        self.send_header("Cache-Control", "no-store")
        super().end_headers()

    def reply(self, status: int, body: bytes, kind: str = JSON) -> None:
        """Sends a reply, with its Content-Type."""
        self.send_response(status)
        self.send_header("Content-Type", kind)
        self.send_header("Content-Length", str(len(body)))
        self.end_headers()
        self.wfile.write(body)

    def is_of_this_page(self) -> bool:
        """Whether the request is of this port's own page, or of no browser."""
        host, port = self.headers["Host"], self.connection.getsockname()[1]
        return (
            host in (f"{HOST}:{port}", f"localhost:{port}")
            and self.headers["Origin"] in (None, f"http://{host}")
            and self.headers["Sec-Fetch-Site"] in (None, "none", "same-origin")
        )

    def do_GET(self):
        if OF_THE_BANK.fullmatch(self.path):
            self.pass_on(b"")
        elif not self.is_of_this_page():
            self.reply(403, b'{"front":"other site"}')
        elif self.path == "/who":
            self.reply(200, b'{"badge":"%b"}' % self.badge.encode())
        else:
            super().do_GET()

    def do_POST(self):
        length = self.headers["Content-Length"] or "0"
        if not length.isdigit() or int(length) > MOST_BYTES:
            self.close_connection = True
            self.reply(413, b'{"fault":"M3"}')
        else:
            self.pass_on(self.rfile.read(int(length)))

    def pass_on(self, body: bytes) -> None:
        """Passes a request on to the bank, with the badge of this port, and its reply back."""
        if not self.is_of_this_page():
            return self.reply(403, b'{"front":"other site"}')
        if self.headers["Desk-Badge"] not in (None, self.badge):
            return self.reply(412, b'{"front":"other badge"}')
        if not OF_THE_BANK.fullmatch(self.path):
            return self.reply(404, b'{"fault":"M5"}')
        fields = {name: self.headers[name] for name in FIELDS if self.headers[name]}
        try:
            return self.reply(*self.replied(body, {**fields, "Bank-Badge": self.badge, "Connection": "close"}))
        except (OSError, http.client.HTTPException):
            return self.reply(502, b'{"front":"no reply"}')

    def replied(self, body: bytes, fields: dict[str, str]) -> tuple[int, bytes, str]:
        """The status of the bank's reply, its body, and its Content-Type."""
        with contextlib.closing(http.client.HTTPConnection("bank")) as asked:
            asked.sock = socket.socket(socket.AF_UNIX)
            asked.sock.connect(self.bank)
            asked.request(self.command, self.path, body, fields)
            got = asked.getresponse()
            return got.status, got.read(), got.getheader("Content-Type", JSON)


def open_desks(bank: str, first_port: int) -> list[http.server.ThreadingHTTPServer]:
    """Opens a port for each badge of the sample, from the first on that nobody has, and prints the address of each page."""
    with open(BADGES, encoding="utf-8") as file:
        badges = [line.partition(",")[0] for line in file.read().splitlines()[1:]]
    desks = []
    for badge, port in zip(badges, filter(is_free, range(first_port, LAST_PORT + 1))):
        how = functools.partial(Desk, badge=badge, bank=bank, directory=PAGE)
        desks.append(http.server.ThreadingHTTPServer((HOST, port), how))
        print(f"http://{HOST}:{port}/ {badge}", flush=True)
    return desks


def serve_page(program: str, first_port: int) -> int:
    """Serves the page over a new sample bank, until this process is ended, and returns the program's exit status if it ends."""
    with tempfile.TemporaryDirectory(prefix="tespiorvu-page-") as room:
        bank, place = os.path.join(room, "bank"), os.path.join(room, "socket")
        made = subprocess.run([program, "init", bank, SAMPLE, "--sums"], stdout=subprocess.DEVNULL, check=False).returncode
        if made:
            return made
        words = [program, "counter", bank, "--badges", BADGES, "--socket", place, "--until-input-ends"]
        # (an interrupt at the keyboard is for this process, which then ends the program in order)
        with subprocess.Popen(words, stdin=subprocess.PIPE, stdout=subprocess.PIPE, start_new_session=True) as served:
            assert served.stdin and served.stdout
            try:
                if served.stdout.readline():
                    for desk in open_desks(place, first_port):
                        threading.Thread(target=desk.serve_forever, daemon=True).start()
                    print(FIRST_STEPS, end="", flush=True)
                    served.wait()
            finally:
                served.stdin.close()
    return served.returncode
