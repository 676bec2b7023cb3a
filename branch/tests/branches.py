"""A branch in a temporary folder, from nothing: certificates, a bank that is started again when it ends, the front, and clients."""
import collections
import contextlib
import http.client
import json
import os
import re
import resource
import shutil
import signal
import socket
import sqlite3
import ssl
import subprocess
import tempfile
import threading
import time
from collections.abc import Callable
from pathlib import Path
from typing import NamedTuple

from branch.tests.commands import ended, lacking, ran, run
from checks import Late, Wrong, require, wait_until
from model.bank import PROCEDURES
from serving import free_port

HERE = Path(__file__).resolve().parent.parent

TELLERS = ["amy", "ben", "cai", "dot", "eli", "fay"]
# An officer, two certifiers and a supervisor, by their badges; the tellers are users 7 to 12.
OTHERS = {"olga": 1, "carl": 2, "cora": 3, "sue": 13}
USERS = {**OTHERS, **{badge: 7 + i for i, badge in enumerate(TELLERS)}}
# The columns that hold no moment, so that two runs can be compared row by row.
COLUMNS = {
    "accounts": "*", "branches": "*", "tellers": "*", "users": "*", "slip_counts": "*", "proofs": "*", "releases": "*",
    "slips": "user_no, slip, form, member1, member2, member3, member4, CAST(reply AS TEXT)",
    "entries": "branch, number, account, turn, teller, delta, day, user_no, form, partner, undoes, balance_after",
    "lines": "branch, number, place, amount, form, day, user_no",
}
# Debian has nginx where only root looks.
PATH = os.environ.get("PATH", "/usr/bin:/bin") + ":/usr/sbin:/sbin"
PACKAGES = {"nginx": "nginx-light", "openssl": "openssl", "curl": "curl", "rsync": "rsync"}
NOBODY = 65534
# For how many seconds a test waits for what has to come: a busy machine takes its time.
PATIENCE = 60
# The status of a curl whose time is over.
CURL_LATE = 28
# Changes of the front's settings that lift its limits per certificate.
NO_RATE = [("limit_req zone=by_certificate burst=40 nodelay;", ""), ("limit_conn open_by_certificate 20;", ""),
           ("limit_req zone=files_by_certificate burst=400 nodelay;", "")]
# The names of a branch: the bank's, and that of the office's pages.
NAMES = "localhost", "office.localhost"
AT_THE_BANK = re.compile(r"/office/(api/|runs\b)")
# What begins a certificate of a new key, or a request for one.
NEW_KEY = ("openssl", "req", "-new", "-newkey", "ec", "-pkeyopt", "ec_paramgen_curve:P-256", "-nodes")
# What the package has of this folder, beside the units.
COMMANDS = ("certificates", "evidence", "check-file", "forward", "bank-fetch")
SHARED = ("VERIFY.txt", "parts")
# The pipes of the trail, in the order in which they are handed over.
PIPES = ("audit", "refused", "policy")


def missing():
    """What a branch lacks on this machine, each with the package of Debian that has it."""
    echo = re.search(r"^load_module (\S+);", (HERE / "front/nginx.conf").read_text(), re.MULTILINE)[1]
    return lacking(PACKAGES, PATH) + ([] if os.path.exists(echo) else [f"{echo} (package libnginx-mod-http-echo)"])


def is_page_of_office(path):
    """Whether a path is of the office's pages, which have a name of their own."""
    return path.startswith("/office/") and not AT_THE_BANK.match(path)


def write_lists(folder):
    """The opening lists of a branch with six tellers, each with a drawer of their own."""
    folder.mkdir()

    def put(name, heading, records):
        lines = [heading, *(",".join(map(str, record)) for record in records)]
        (folder / f"{name}.csv").write_text("\n".join(lines) + "\n")

    count = len(TELLERS)
    put("accounts", "account,home,balance,floor", [(101 + i, 1, 50000, 0) for i in range(count)])
    put("branches", "branch,balance,cash", [(1, 50000 * count, 1000000)])
    put("tellers", "teller,branch,balance", [(11 + i, 1, 50000) for i in range(count)])
    put("users", "user,name,officer", [(number, badge.capitalize(), int(badge == "olga")) for badge, number in USERS.items()])
    put("badges", "badge,user", USERS.items())
    put("certifiers", "user,procedure", [(user, name) for user in (2, 3) for name in PROCEDURES])
    put("sets", "set,kind,low,high", [
        (1, "account", 101, 100 + count), (1, "teller", 11, 10 + count), (1, "branch", 1, 1), (1, "history", 1, 1),
        (1, "drawer", 11, 10 + count), (1, "vault", 1, 1), (2, "account", 101, 100 + count)])
    put("relations", "procedure,set,by", [(name, 2 if name == "accounts" else 1, 2) for name in PROCEDURES])
    limits = {"post": 999999, "transfer": 999999, "drawer-on": 100000, "drawer-off": 0, "balance": 0, "statement": 0}
    put("triples", "user,procedure,set,limit", [
        *((USERS[badge], name, 1, limit) for badge in TELLERS for name, limit in limits.items()),
        *((USERS[badge], "accounts", 2, 0) for badge in TELLERS),
        (13, "proof", 1, 0), (13, "close-day", 1, 0)])


class Staff(NamedTuple):
    """Who works at a bank: the badges of its tellers, the user of each badge, and what writes its opening lists into a new folder."""

    tellers: list[str]
    users: dict[str, int]
    write_lists: Callable[[Path], None]


SIX = Staff(TELLERS, USERS, write_lists)


def become_nobody():
    os.setgroups([])
    os.setgid(NOBODY)
    os.setuid(NOBODY)


def self_signed(file, subject, *more):
    """Makes a certificate that nobody else has signed, of this file without an ending, and its key."""
    run(*NEW_KEY, "-x509", "-subj", subject, *more, "-keyout", f"{file}.key", "-out", f"{file}.pem")


class Files:
    """What a branch needs of this folder and the program, in a temporary folder of an unprivileged user, who this process becomes
    where it is root's. They are copied before, as that user may have no right to read this folder."""

    def __init__(self, program, staff=SIX):
        self.staff = staff
        os.environ["PATH"] = PATH
        # As the front's unit: it has 8,192 connections, and a login often 1,024 files.
        with contextlib.suppress(ValueError): # where no more are allowed
            resource.setrlimit(resource.RLIMIT_NOFILE, (16384, resource.getrlimit(resource.RLIMIT_NOFILE)[1]))
        self.top = Path(tempfile.mkdtemp(prefix="branch-"))
        self.folders = collections.Counter()
        self.lock = threading.Lock() # of what the front reads of the certificates, while a command writes it anew
        shutil.copy(program, self.top / "bank_cli")
        for name in COMMANDS:
            shutil.copy(HERE / name, self.top)
        for folder in ("front", "two-machines", "units"):
            shutil.copytree(HERE / folder, self.top / folder)
        for page in ("BRANCH.md", "PEOPLE.md"):
            shutil.copy(HERE.parent / "docs" / page, self.top)
        for folder, name in (("desk/page", "page"), ("sample", "sample")):
            shutil.copytree(HERE.parent / folder, self.top / name)
        self.share = self.top / "share" # what the package has in /usr/share/tespiorvu
        shutil.copytree(HERE.parent / "programs", self.share, ignore=shutil.ignore_patterns("__pycache__"))
        for name in SHARED:
            shutil.copy(HERE / name, self.share)
        if os.geteuid() == 0:
            for folder, _, names in os.walk(self.top):
                for path in (folder, *(os.path.join(folder, name) for name in names)):
                    os.chown(path, NOBODY, NOBODY)
            become_nobody()
        os.environ["HOME"] = str(self.top)

    def folder(self, name):
        """The path of a folder that is not there yet, with this name or with a number after it."""
        with self.lock:
            path = self.top / f"{name}{self.folders[name] + 1 if self.folders[name] else ''}"
            self.folders[name] += 1
        return path

    def make_certificates(self):
        self.certificates("begin", "localhost")
        for badge in [*self.staff.users, "lost", "unlisted"]:
            self.certificates("teller", badge)

    def certificates(self, command, *arguments):
        with self.lock:
            run(self.top / "certificates", command, self.top / "ca", *arguments)

    def serial(self, name):
        """The serial number of a teller's certificate."""
        said = run("openssl", "x509", "-noout", "-serial", "-in", self.top / f"ca/tellers/{name}.pem")
        return said.strip().partition("=")[2]

    def certificate_until(self, badge, end):
        """A certificate of a badge that ends at that time, in seconds since 1970: its files, without an ending."""
        files, settings = self.top / f"{badge}-until", self.top / "ca/authority/openssl.cnf"
        last = time.strftime("%Y%m%d%H%M%SZ", time.gmtime(end))
        with self.lock:
            run(*NEW_KEY, "-config", settings, "-subj", f"/OU=Tellers/CN={badge}", "-keyout", f"{files}.key",
                "-out", f"{files}.request")
            run("openssl", "ca", "-batch", "-notext", "-config", settings, "-extensions", "teller", "-enddate", last,
                "-in", f"{files}.request", "-out", f"{files}.pem")
        self.certificates("renew")
        return files

    def context(self, who, protocols=()):
        """The same, of this branch."""
        context = context_of(self.top / "ca", who)
        if protocols:
            context.set_alpn_protocols(protocols)
        return context


def context_of(authority, who):
    """What a client needs for TLS that shows the certificate of a badge, and knows the front by an authority."""
    context = ssl.create_default_context(cafile=authority / "front/authority.pem")
    context.load_cert_chain(authority / f"tellers/{who}.pem", authority / f"tellers/{who}.key")
    return context


class Client(http.client.HTTPSConnection):
    """A teller who keeps one connection to a front, and makes another where that was ended. The front is at an address, if
    not at that of its name; `reached_within` is for how many seconds a connection may take, if fewer than a reply."""

    def __init__(self, context, session, port=443, host="localhost", address=None, seconds=90, reached_within=None):
        super().__init__(host, port, timeout=seconds, context=context)
        self.context, self.session = context, session
        self.address, self.reached_within = address or host, reached_within or seconds

    def connect(self):
        bare = socket.create_connection((self.address, self.port), self.reached_within)
        bare.setsockopt(socket.IPPROTO_TCP, socket.TCP_NODELAY, 1)
        bare.settimeout(self.timeout)
        self.sock = self.context.wrap_socket(bare, server_hostname=self.host)

    def ask(self, path, body=None, slip=None, pause=0.0):
        """The status and the body of the reply; the status is 0 where none came. The request's body is sent `pause` seconds after
        its head."""
        text = b"" if body is None else json.dumps(body).encode()
        slips = {"Bank-Slip": str(slip)} if slip else {}
        try:
            self.putrequest("POST", path)
            for name, value in {"Bank-Session": str(self.session), **slips, "Content-Length": str(len(text))}.items():
                self.putheader(name, value)
            self.endheaders()
            time.sleep(pause)
            self.send(text)
            reply = self.getresponse()
            return reply.status, reply.read().decode()
        except (OSError, http.client.HTTPException):
            self.close()
            return 0, ""


class Machine:
    """A folder that has a machine's places, which BANK_ROOT names to the programs that run over it. Its stubs are found
    first: an order to systemd does nothing, and a user's command is carried out as who is there."""

    def __init__(self, files, name):
        self.files, self.folder = files, files.folder(name)
        self.bank, self.copies, self.seals = (self.folder / f"var/lib/bank{it}" for it in ("", "-copies", "-seals"))
        self.trail, self.badges = self.folder / "var/log/bank-front", self.folder / "etc/bank-badges.csv"
        self.stubs = self.folder / "stubs"
        for it in (self.bank, self.copies, self.seals, self.trail, self.badges.parent, self.stubs):
            it.mkdir(parents=True)
        for place, it in (("lib/tespiorvu", files.top / "units"), ("share/tespiorvu", files.share), ("bin", files.top)):
            (self.folder / "usr" / place).parent.mkdir(parents=True, exist_ok=True)
            (self.folder / "usr" / place).symlink_to(it)
        self.stub("systemctl", "")
        self.stub("runuser", 'shift 3\nexec "$@"')

    def put(self, place, text, mode=0o600):
        """A file with a text."""
        file = self.folder / place
        file.parent.mkdir(parents=True, exist_ok=True)
        file.write_text(text)
        file.chmod(mode)
        return file

    def stub(self, name, text):
        """What is carried out in place of a program."""
        return self.put(f"stubs/{name}", f"#!/bin/sh\n{text}\n", 0o700)

    def environment(self, **more):
        """The environment of a program that runs over this machine."""
        path = f"{self.stubs}:{self.files.top}:{PATH}"
        return {"PATH": path, "BANK_ROOT": str(self.folder), "PYTHONDONTWRITEBYTECODE": "1", **more}

    def run(self, program, *given, **more):
        """Runs one of this folder's programs over this machine, in a login that keeps nothing from others."""
        program = next(it for it in (self.files.share / program, self.files.top / program) if it.is_file())
        return subprocess.run([program, *given], env=self.environment(**more), umask=0, timeout=10 * PATIENCE,
                              stdin=subprocess.DEVNULL, capture_output=True, text=True, check=False)

    def status(self, program, *given, **more):
        """The exit status of such a run, and what it says."""
        ran = self.run(program, *given, **more)
        return ran.returncode, ran.stdout + ran.stderr

    def said(self, program, *given, **more):
        """What one prints, which has to succeed."""
        ran = self.run(program, *given, **more)
        require((ran.returncode, ran.stderr), (0, ""), f"{program} {given}")
        return ran.stdout


class Branch:
    """A front and a bank. The bank is started again when it ends, over the same listening socket, as systemd does it.

    `changes` are pairs of texts in the front's settings, old and new; without `bank` there is neither a bank nor its socket; the
    socket is one of TCP where that is asked for; the bank's file is in `room`, where one is given; of refused requests a file
    has `most` bytes.
    """

    def __init__(self, files, name, changes=(), bank=True, tcp=False, room=None, most=8_000_000):
        self.files, self.is_tcp = files, tcp
        self.machine = Machine(files, name)
        self.folder, self.log = self.machine.folder, self.machine.trail
        # Opened here and handed to the front, as systemd does it: nobody else gets its port meanwhile.
        door = socket.create_server(("127.0.0.1", 0), backlog=1024)
        door.setblocking(False)
        self.port, self.bank_port = door.getsockname()[1], free_port() if tcp else None
        self.url, self.office_url = (f"https://{name}:{self.port}" for name in NAMES)
        self.sessions = {}
        self.kept, self.bank, self.socket, self.starts, self.ends = False, None, None, 0, []
        if room:
            self.machine.bank.rmdir()
            self.machine.bank.symlink_to(room)
        self.file = self.machine.bank / "bank"
        self.machine.badges.symlink_to(self.folder / "lists/badges.csv")
        (self.folder / "run/trail").mkdir(parents=True)
        self.pipes = [self.pipe(it) for it in PIPES]
        self.most = most
        self.socket_path = self.folder / "run/bank.socket"
        self.write_settings([*changes, ("unix:/run/bank.socket", f"127.0.0.1:{self.bank_port}" if tcp else f"unix:{self.socket_path}")])
        self.nginx = ["nginx", "-p", self.folder, "-c", self.folder / "etc/nginx.conf", "-e", self.log / "error.log"]
        status, said = ran(*self.nginx, "-t")
        # (how many files a login may open is nothing of the settings)
        warned = [line for line in said.splitlines() if "[warn]" in line and "open file resource limit" not in line]
        require((status, warned), (0, []), f"nginx -t said {said!r}")
        with door:
            self.front = subprocess.Popen([*self.nginx, "-g", "daemon off;"], stdin=subprocess.DEVNULL,
                                          stderr=subprocess.DEVNULL, pass_fds=[door.fileno()],
                                          env={**os.environ, "NGINX": f"{door.fileno()};"})
        self.keep_trail()
        self.await_front()
        self.files.staff.write_lists(self.folder / "lists")
        if bank:
            self.run_bank("init", self.file, self.folder / "lists", "--sums", says="made\n")
            self.keep()
            for badge in self.files.staff.tellers:
                self.begin(badge)

    def write_settings(self, changes):
        """The front's settings, with the folders and ports of this branch."""
        etc = self.folder / "etc"
        with self.files.lock:
            for folder in ("ca/front", "front"):
                shutil.copytree(self.files.top / folder, etc, dirs_exist_ok=True)
        shutil.copytree(self.files.top / "page", self.folder / "page")
        (etc / "origins.map").write_text(f'"{self.url}" own;\n')
        swaps = [*changes, ("/etc/bank-front", str(etc)), ("/usr/share/tespiorvu/page", str(self.folder / "page")),
                 ("error_log stderr", f"error_log {self.log}/error.log"), ("/run/bank-trail", str(self.folder / "run/trail")),
                 ("/run/bank-front", str(self.folder / "run")), ("0.0.0.0:443", f"127.0.0.1:{self.port}")]
        for file in etc.rglob("*.conf"):
            text = file.read_text()
            for old, new in swaps:
                text = text.replace(old, new)
            file.write_text(text)

    def await_front(self):
        """Waits until the front speaks TLS: its socket is open before it has started."""
        context = ssl.create_default_context(cafile=self.files.top / "ca/front/authority.pem")
        try:
            with socket.create_connection(("127.0.0.1", self.port), PATIENCE) as bare:
                context.wrap_socket(bare, server_hostname="localhost").close()
        except TimeoutError as error:
            raise Late(f"the front does not answer: {error}") from error
        except OSError as error:
            raise Wrong(f"the front does not answer: {error}") from error

    def run_bank(self, *arguments, says=""):
        require(ran(self.files.top / "bank_cli", *arguments), (0, says), f"bank_cli {arguments[0]}")

    # ---- the trail, as systemd keeps it

    def pipe(self, name):
        """Makes a pipe of the trail, and opens it, so that it stays open while who keeps the trail starts anew."""
        path = self.folder / "run/trail" / name
        os.mkfifo(path, 0o600)
        return os.open(path, os.O_RDWR)

    def keep_trail(self):
        """Starts who keeps the trail, and hands the pipes over as descriptors 3 and up."""
        hand_over = 'exec 3<>"$1" 4<>"$2" 5<>"$3" && exec "$0" "$4" "$5"'
        pipes = [self.folder / "run/trail" / it for it in PIPES]
        words = ["sh", "-c", hand_over, self.files.top / "units/keep-trail", *pipes, self.log, str(self.most)]
        with open(self.log / "trail-errors", "a", encoding="utf-8") as errors:
            self.trail = subprocess.Popen(words, env={"PATH": PATH, "LISTEN_FDS": str(len(PIPES))}, stdin=subprocess.DEVNULL, stderr=errors)

    def end_trail(self):
        """Ends who keeps the trail, by order, once what came is kept."""
        self.trail.send_signal(signal.SIGTERM)
        self.trail.wait()

    # ---- the bank, as systemd keeps it

    def listen(self):
        """Opens the bank's listening socket, which stays open while the bank starts anew."""
        self.socket = socket.socket(socket.AF_INET if self.is_tcp else socket.AF_UNIX)
        self.socket.setsockopt(socket.SOL_SOCKET, socket.SO_REUSEADDR, 1)
        self.socket.bind(("127.0.0.1", self.bank_port) if self.is_tcp else str(self.socket_path))
        self.socket.listen(4096)

    def stop_listening(self):
        if self.socket:
            self.socket.close()
            self.socket_path.unlink(missing_ok=True)
        self.socket = None

    def start_bank(self):
        """Starts the bank, and hands the listening socket to it as its descriptor 3."""
        hand_over = 'exec 3<&0 </dev/null; export LISTEN_PID=$$; exec "$0"'
        environment = self.machine.environment(RUNTIME_DIRECTORY=str(self.folder / "run"), LISTEN_FDS="1")
        return subprocess.Popen(["sh", "-c", hand_over, self.files.top / "units/serve-bank"], env=environment,
                                stdin=self.socket, stdout=subprocess.PIPE, stderr=subprocess.DEVNULL, start_new_session=True)

    def keep(self):
        self.kept = True
        self.listen()
        started = threading.Event()
        self.keeper = threading.Thread(target=self._keep, args=(started,), daemon=True)
        self.keeper.start()
        wait_until(started.is_set, PATIENCE, "the bank has said that it listens")

    def _keep(self, started):
        while self.kept:
            self.bank = self.start_bank()
            if self.bank.stdout.readline() == b"listening inherited\n":
                self.starts += 1
                started.set()
            self.ends.append(self.bank.wait())
            self.bank.stdout.close()
            if self.ends[-1] != 0:
                self.end_input() # systemd ends all that it has started
            if self.kept:
                time.sleep(0.2)

    def end_bank(self):
        """Ends the bank for good, with all that was started for it, and its listening socket."""
        self.kept = False
        while self.keeper.is_alive(): # it may be starting another
            with contextlib.suppress(ProcessLookupError):
                os.killpg(self.bank.pid, signal.SIGKILL)
            self.keeper.join(0.2)
        self.stop_listening()

    def signal_bank(self, how):
        with contextlib.suppress(ProcessLookupError):
            self.bank.send_signal(how)

    def end_input(self):
        """Ends who holds the bank's standard input open."""
        with contextlib.suppress(OSError, ValueError):
            os.kill(int((self.folder / "run/holder").read_text()), signal.SIGTERM)

    def restart_by_order(self):
        """Ends the bank, and waits until it is there again, as `systemctl restart bank` does it."""
        before = self.starts
        given = {"MAINPID": str(self.bank.pid), "RUNTIME_DIRECTORY": str(self.folder / "run")}
        require(self.machine.status("units/end-bank", **given), (0, ""), "an end by order")
        wait_until(lambda: self.starts != before, PATIENCE, "the bank has started again")

    # ---- asking by curl

    def curl(self, who, *more, version="--http1.1"):
        """The arguments of a curl that shows the certificate of a badge."""
        ca = self.files.top / "ca"
        shown = ["--cert", ca / f"tellers/{who}.pem", "--key", ca / f"tellers/{who}.key"] if who else []
        return ["curl", "-sS", version, "--max-time", "90", "--cacert", ca / "front/authority.pem", *shown, *more]

    def ask(self, who, path, body=None, fields=(), version="--http1.1", more=()):
        """The status and the body of the reply; the status is 0 where none came."""
        if isinstance(body, dict):
            body = json.dumps(body)
        command = self.curl(who, "-w", "\n%{http_code}", *more, version=version)
        if who in self.sessions:
            command += ["-H", f"Bank-Session: {self.sessions[who]}"]
        for field in fields:
            command += ["-H", field]
        given = ["--data-binary", "@-"] if body is not None else []
        asked = ended(*command, *given, f"{self.url_of(path)}{path}", input=body)
        if asked.returncode == CURL_LATE:
            raise Late(f"{path}: no reply in time")
        text, _, status = asked.stdout.rpartition("\n")
        return int(status), text

    def url_of(self, path):
        """Where a path is answered: the office's pages have a name of their own."""
        return self.office_url if is_page_of_office(path) else self.url

    def begin(self, who, drawer=True):
        """Opens a session for a badge; a teller puts their drawer on, too."""
        status, text = self.ask(who, "/session", "")
        require(status, 200, f"session of {who}: {text}")
        self.sessions[who] = json.loads(text)["session"]
        tellers = self.files.staff.tellers
        if drawer and who in tellers:
            status, text = self.ask(who, "/do/drawer-on", {"branch": 1, "cash": 1000, "teller": 11 + tellers.index(who)})
            require(status, 200, f"drawer of {who}: {text}")

    def post_of(self, who, delta=1, account=None):
        """The body of a post at a teller's own drawer."""
        i = self.files.staff.tellers.index(who)
        return {"account": account or 101 + i, "branch": 1, "delta": delta, "teller": 11 + i}

    def client(self, who):
        """A teller of this branch who keeps a connection."""
        return Client(self.files.context(who), self.sessions[who], self.port)

    # ---- asking by bytes

    @contextlib.contextmanager
    def connected(self, who, protocols=()):
        """A connection by TLS with the certificate of a badge."""
        with socket.create_connection(("127.0.0.1", self.port), PATIENCE) as bare:
            with self.files.context(who, protocols).wrap_socket(bare, server_hostname="localhost") as client:
                yield client

    def exchanged(self, who, given, is_whole=lambda got: False):
        """What comes back for these bytes until the front ends the connection, or, once that is whole, sends nothing more."""
        got = b""
        with self.connected(who) as client, contextlib.suppress(OSError):
            client.settimeout(PATIENCE)
            client.sendall(given)
            try:
                while piece := client.recv(65536):
                    got += piece
                    client.settimeout(0.7 if is_whole(got) else PATIENCE)
            except TimeoutError as error:
                if not is_whole(got):
                    raise Late(f"within {PATIENCE} seconds {got!r} came") from error
        return got

    def received(self, client, is_whole):
        """What comes on a connection until that is whole, in however many pieces."""
        got = b""
        while not is_whole(got):
            piece = client.recv(4096)
            require(piece != b"", True, f"the connection stands, after {got!r}")
            got += piece
        return got

    # ---- looking

    def rows(self):
        """All rows of the bank's file without their moments, once its log is taken in and its books are checked."""
        self.run_bank("run", self.file, "--badges", self.folder / "lists/badges.csv", "--moment", "0")
        self.run_bank("check", self.file, says="books hold\n")
        with contextlib.closing(sqlite3.connect(f"file:{self.file}?mode=ro", uri=True)) as found:
            return {table: found.execute(f"SELECT {columns} FROM {table} ORDER BY 1, 2").fetchall()
                    for table, columns in COLUMNS.items()}

    def audit(self, name="audit"):
        """The lines of the audit trail, or of another file beside it, without one that is being written."""
        path = self.log / f"{name}.log"
        return [json.loads(line) for line in path.read_bytes().split(b"\n")[:-1]] if path.exists() else []

    def workers(self):
        """The processes of the front that serve clients, without those that only end what they have begun."""
        found = set()
        for pid in Path(f"/proc/{self.front.pid}/task/{self.front.pid}/children").read_text().split():
            with contextlib.suppress(FileNotFoundError, ProcessLookupError): # it has ended
                if b"worker process\0" in Path(f"/proc/{pid}/cmdline").read_bytes():
                    found.add(pid)
        return found

    def take(self, *names):
        """Has the front read these of its files anew, as the authority has them now."""
        for it in names:
            shutil.copy(self.files.top / "ca/front" / it, self.folder / "etc")
        self.reload()

    def reload(self):
        """Has the front read its settings anew, and waits until no worker of the earlier ones serves."""
        before = self.workers()
        self.front.send_signal(signal.SIGHUP)
        wait_until(lambda: self.workers() and not self.workers() & before, PATIENCE, "the front has other workers")
        time.sleep(0.2)

    def close(self):
        if self.kept:
            self.end_bank()
        self.stop_listening()
        self.front.send_signal(signal.SIGTERM)
        self.front.wait()
        self.end_trail()
        while self.pipes:
            os.close(self.pipes.pop())
