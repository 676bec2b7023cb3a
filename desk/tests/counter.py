"""A counter to test the page at: a branch over the sample bank, and a relay that shows its front the certificate of the card that is
in, which a browser without a screen can't be made to choose."""
import contextlib
import functools
import http.client
import http.server
import shutil
import sqlite3
import threading
import time
from pathlib import Path

from branch.tests.branches import NAMES, NO_RATE, PATIENCE, Branch, Client
from checks import wait_until

DESK = Path(__file__).resolve().parent.parent

BADGES = ["olga", "carl", "cora", "tess", "tom", "sue"]
# Read at the start, as the unprivileged user whom the tests become may have no right to read this folder.
SAMPLE = {it.name: it.read_bytes() for it in (DESK.parent / "sample").glob("*.csv")}
UNIT = {f"/unit/{it.name}": it.read_bytes() for it in (DESK / "unit").iterdir()}
TYPES = {".html": "text/html; charset=utf-8", ".js": "text/javascript; charset=utf-8"}
# What belongs to one connection, and what a browser would keep for this host.
OWN_FIELDS = {"connection", "content-length", "host", "keep-alive", "strict-transport-security", "transfer-encoding"}

# The names by which a browser reaches a relay, of the same site as those of a branch: the bank's, and that of the office's pages.
OWN_NAMES = "bank.localhost", "office.bank.localhost"
# The front ends a connection on which nobody asked for some minutes, so after this many seconds another is made.
OLD = 60


class Cut(Exception):
    """Raised by a hook of the relay: the browser's connection ends without a reply."""


class Served(Branch):
    """A branch, without its bank at first, in front of which are relays, each for a browser."""

    def __init__(self, files, name, count, changes=()):
        self.relays = [Relay(self, files) for _ in range(count)]
        super().__init__(files, name, changes, bank=False)

    def sql(self, query, *values):
        """What the bank's file has. It is locked while it is served, so a copy is read, with its log."""
        copy = self.folder / "copy"
        shutil.rmtree(copy, ignore_errors=True)
        copy.mkdir()
        for name, found in self.file_and_log().items():
            (copy / name).write_bytes(found)
        with contextlib.closing(sqlite3.connect(copy / "bank")) as found:
            return found.execute(query, values).fetchall()

    def file_and_log(self):
        """Both as they were at one moment: they are read until they are the same twice, as the bank may write meanwhile."""
        def read():
            now = {}
            for path in (self.file, self.file.with_name("bank-wal")):
                with contextlib.suppress(FileNotFoundError):
                    now[path.name] = path.read_bytes()
            return now

        return wait_until(lambda: (found := read()) == read() and found, PATIENCE, "the bank's file stands still")

    def one(self, query, *values):
        return self.sql(query, *values)[0][0]

    def close(self):
        for relay in self.relays:
            relay.shutdown()
        super().close()


class Counter(Served):
    """A branch over the sample bank, with a certificate for each of its badges, and a relay; another is for a second browser."""

    def __init__(self, files):
        files.certificates("begin", "localhost")
        for badge in BADGES:
            files.certificates("teller", badge)
        super().__init__(files, "counter", 2, NO_RATE[2:])  # the page is loaded as often as nobody loads it
        self.relay, self.other = self.relays
        shutil.rmtree(self.folder / "lists")
        (self.folder / "lists").mkdir()
        for name, text in SAMPLE.items():
            (self.folder / "lists" / name).write_bytes(text)
        self.run_bank("init", self.file, self.folder / "lists", "--sums", says="made\n")
        self.keep()


class Relay(http.server.ThreadingHTTPServer):
    """Passes each request on to the front, over TLS, with the certificate of the card that is in.

    `before(path, body)` is called before a request is passed on, `after(path, status)` once its reply is there. Either may return
    a reply in place of the front's: status, type and bytes; then `before` keeps the request from it. `swaps` has texts of files
    that are exchanged on their way, by path: (old, new). `seconds_ahead` is by how much the front's clock is ahead of the
    browser's.
    """
    daemon_threads = True
    request_queue_size = 128

    def __init__(self, counter, files):
        super().__init__(("127.0.0.1", 0), Handler)
        self.counter, self.card = counter, "tess"
        self.names = [f"{it}:{self.server_port}" for it in OWN_NAMES]
        self.url, self.office_url = (f"http://{it}" for it in self.names)
        self.context = functools.lru_cache(maxsize=None)(files.context)
        self.swaps, self.passed = {}, []
        self.calm()
        threading.Thread(target=self.serve_forever, daemon=True).start()

    def calm(self):
        """No more hooks."""
        self.before = self.after = lambda *_: None
        self.seconds_ahead = 0

    def translated(self, value, is_from_front):
        """A field of a request or reply: the browser has the relay's addresses in it, and the front its own."""
        pairs = [(f"http://{own}", url) for own, url in zip(self.names, (self.counter.url, self.counter.office_url))]
        for own, url in pairs:
            value = value.replace(*((url, own) if is_from_front else (own, url)))
        return value

    def handle_error(self, request, client_address):
        """A browser that is killed, or leaves early, is no error."""


class Handler(http.server.BaseHTTPRequestHandler):
    protocol_version = "HTTP/1.1"
    front, card, name, asked_at = None, None, None, 0

    def do_GET(self):
        path = self.path.partition("?")[0]
        if path in UNIT:
            return self.say(200, [("Content-Type", TYPES[Path(path).suffix]), ("Cache-Control", "no-store")], UNIT[path])
        self.pass_on(path)

    def do_POST(self):
        self.pass_on(self.path)

    def say(self, status, fields, text):
        self.send_response_only(status)
        for name, value in fields:
            self.send_header(name, value)
        self.send_header("Content-Length", str(len(text)))
        self.end_headers()
        self.wfile.write(text)

    def pass_on(self, path):
        relay = self.server
        body = self.rfile.read(int(self.headers.get("Content-Length") or 0))
        try:
            if self.command == "POST":
                relay.passed.append((relay.card, path, body.decode()))
            changed = relay.before(path, body)
            if not changed:
                status, fields, text = self.asked(body)
                changed = relay.after(path, status)
        except Cut:
            self.close_connection = True
            return
        if changed:
            status, kind, text = changed
            fields = [("Content-Type", kind), ("Cache-Control", "no-store"), ("Date", self.date_time_string())]
        if relay.seconds_ahead:
            date = self.date_time_string(time.time() + relay.seconds_ahead)
            fields = [(name, date if name.lower() == "date" else value) for name, value in fields]
        old, new = relay.swaps.get(path, (b"", b""))
        self.say(status, fields, text.replace(old, new) if old else text)

    def asked(self, body):
        """The front's reply, on a connection that shows the card which is in."""
        is_old = time.monotonic() - self.asked_at > OLD
        self.asked_at = time.monotonic()
        name = NAMES[self.server.names.index(self.headers["Host"])]
        if (self.card, self.name) != (self.server.card, name) or self.front is None or is_old:
            self.card, self.name = self.server.card, name
            self.front = Client(self.server.context(self.card), 0, self.server.counter.port, name, "127.0.0.1")
        fields = {name: self.server.translated(value, False) for name, value in self.headers.items() if name.lower() not in OWN_FIELDS}
        try:
            self.front.request(self.command, self.path, body if self.command == "POST" else None, fields)
            reply = self.front.getresponse()
            text = reply.read()
        except (OSError, http.client.HTTPException) as error:
            self.front = None
            raise Cut from error
        given = [(name, self.server.translated(value, True)) for name, value in reply.getheaders() if name.lower() not in OWN_FIELDS]
        return reply.status, given, text

    def log_message(self, *_):
        pass
