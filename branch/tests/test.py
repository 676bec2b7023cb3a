"""Starts branches from nothing in a temporary folder, as an unprivileged user, and looks at what clients of all kinds get.

    branch/test [--list] [--only TEXT] [PROGRAM [NAME]]

With NAME only the checks whose names hold it are made. They need nginx with its echo module, curl and openssl, which
tools/packages installs; where one of these is not there they are skipped. What was late is tried once more at the end, on a
branch of its own.
"""
import contextlib
import datetime
import encodings.idna  # noqa: F401 - loaded while the files of Python may be read
import functools
import http.client
import itertools
import json
import os
import random
import re
import resource
import shutil
import signal
import socket
import sqlite3
import ssl
import subprocess
import sys
import threading
import time
from concurrent.futures import ThreadPoolExecutor
from pathlib import Path

from branch.tests.branches import NO_RATE, PATH, PATIENCE, PIPES, TELLERS, USERS, Branch, Files, Machine, missing
from branch.tests.branches import self_signed
from branch.tests.commands import printed, ran, run, said_of
from branch.tests.gathered import gathered_and_brought_up, only_files_are_gathered, years_by_content
from branch.tests.people import people_come_and_go
from checks import Check, Late, Wrong, is_chosen, only_of, reader, require, require_time, run_named, wait_until
from branch.tests.evidence_checks import CHECKS as EVIDENCE_CHECKS
from branch.tests.month import Month
from branch.tests.night_checks import CHECKS as NIGHT_CHECKS
from branch.tests.pair_checks import CHECKS as PAIR_CHECKS
from branch.tests.policy_checks import CHECKS as POLICY_CHECKS
from branch.tests.rights_checks import CHECKS as RIGHTS_CHECKS
from model.bank import PROCEDURES, TAKES_SLIP
from replies import statuses_in
from branch.tests.seal_checks import CHECKS as SEAL_CHECKS

CERTIFICATE = (403, '{"front":"certificate"}')
MONTHS = "Jan Feb Mar Apr May Jun Jul Aug Sep Oct Nov Dec".split()
OFFICER = (403, '{"name":"officer","rule":17}')
# The fields by which a browser restricts a page.
RESTRICTING = ("Strict-Transport-Security: ", "Content-Security-Policy: ", "X-Content-Type-Options: ",
               "Referrer-Policy: ", "Cache-Control: ", "Cross-Origin-Resource-Policy: ", "Permissions-Policy: ",
               "Cross-Origin-Opener-Policy: same-origin\n")
# How many connections a client without a certificate holds.
HELD = 2_100
FLOOD_SECONDS = 10
# How many seconds a teller lets pass before the next post, below the rate that the front lets in.
BETWEEN_POSTS = 0.1
# What reads the key of the seals, to sign the seals and the night that is gathered.
SIGNING = "bank-seal.service", "bank-gather.service"


def head(path, *fields, method="POST"):
    return "\r\n".join([f"{method} {path} HTTP/1.1", "Host: localhost", *fields, "", ""]).encode()


def audited(branch, is_wanted, count, name="audit"):
    """The lines of the audit trail, or of another file beside it, that are wanted, once there are `count`: a request gets its line
    some time after its reply."""
    found = lambda: [line for line in branch.audit(name) if is_wanted(line)]
    return wait_until(lambda: len(it := found()) >= count and it, PATIENCE, f"{count} lines of {name}", 0.05)


def six_tellers_at_once(branch):
    """Each has one connection, on which they post twenty times."""
    def work(who):
        body = branch.folder / f"{who}.json"
        body.write_text(json.dumps(branch.post_of(who)))
        command = branch.curl(who, "-w", " %{http_code} %{num_connects}\n", "-H", f"Bank-Session: {branch.sessions[who]}",
                              "--data-binary", f"@{body}", *[f"{branch.url}/do/post"] * 20)
        return run(*command).splitlines()

    with ThreadPoolExecutor(6) as pool:
        for who, lines in zip(TELLERS, pool.map(work, TELLERS)):
            require([line.split()[1:] for line in lines], [["200", "1"]] + [["200", "0"]] * 19, f"statuses, connections of {who}")
            require(json.loads(lines[-1].split()[0])["balance"], 50020, f"balance of {who}")


def forged_badges(branch):
    """Whatever badge comes, the asker is whom the certificate names. Olga, an officer, could suspend Ben; Amy can't."""
    forgeries = [["Bank-Badge: olga"], ["bank-badge: olga"], ["BANK-BADGE: olga"], ["Bank_Badge: olga"], ["Bank-Badge;"],
                 ["Bank-Badge: olga", "Bank-Badge: olga"], ["Bank-Badge: amy", "Bank-Badge: olga"], ["bank_badge: olga", "Bank-Badge:olga"],
                 ["X-Forwarded-User: olga", "X-SSL-Client-Serial: " + branch.files.serial("olga"), "Connection: Bank-Badge"]]
    for version in ("--http1.0", "--http1.1"):
        for fields in forgeries:
            require(branch.ask("amy", "/policy/suspend", {"user": USERS["ben"]}, fields, version), OFFICER, f"{version} {fields}")
    for line in ("Bank-Badge : olga", "Bank-Badge\t: olga", " Bank-Badge: olga", "X: y\r\n Bank-Badge: olga", "X: y\rBank-Badge: olga",
                 "X: y\nBank-Badge: olga", "Bank-Badge\x00: olga", "Bank-Badge: olga\x00", "Bank\xadBadge: olga"):
        given = head("/policy/suspend", line, f"Bank-Session: {branch.sessions['amy']}", "Content-Length: 10", "Connection: close")
        got = branch.exchanged("amy", given + b'{"user":8}')
        if statuses_in(got) not in ([400], [403]) or b'{"done"' in got:
            raise Wrong(f"{line!r}: {got!r}")
    require(branch.ask("ben", "/do/balance", {"account": 102})[0], 200, "Ben is not suspended")


def certificates_refused(branch):
    """No certificate, one of another authority, the server's own, and one that no badge has get nothing, not even the page."""
    ca = branch.files.top / "ca"
    other = branch.folder / "other"
    self_signed(other, "/OU=Tellers/CN=amy")
    (branch.folder / "etc/badges.map").write_text(re.sub(r'.*"unlisted";\n', "", (branch.folder / "etc/badges.map").read_text()))
    branch.reload()
    for what, shown in (("none", []), ("other authority", ["--cert", f"{other}.pem", "--key", f"{other}.key"]),
                        ("server's", ["--cert", ca / "front/server.pem", "--key", ca / "front/server.key"]),
                        ("unlisted", ["--cert", ca / "tellers/unlisted.pem", "--key", ca / "tellers/unlisted.key"])):
        for path, body in (("/do/balance", {"account": 101}), ("/session", ""), ("/", None)):
            require(branch.ask(None, path, body, ["Bank-Badge: amy"], more=shown), CERTIFICATE, f"{what} {path}")
        is_told_in_words(branch, shown)


def is_told_in_words(branch, shown, who=None):
    """A browser that shows a certificate which is refused gets a page in plain words, in four languages."""
    status, text = branch.ask(who, "/", None, ["Accept: text/html,application/xhtml+xml,*/*;q=0.8"], more=shown)
    wanted = "<h1>This certificate is not accepted", "see whoever makes", "Dieses Zertifikat", "Este certificado", "Ce certificat"
    require((status, [it for it in wanted if it not in text]), (403, []), f"in a browser: {text!r}")


def certificate_that_has_ended(files):
    """A certificate that ends while its connection stands is shown anew within the time that one connection may last, and refused.
    Here that time is short; the settings that are shipped have minutes."""
    shipped = (files.top / "front/nginx.conf").read_text()
    require("keepalive_time 5m;" in shipped, True, "the time of a connection in the settings that are shipped")
    end = time.time() + 30
    shown = files.certificate_until("amy", end)
    with contextlib.closing(Branch(files, "ended", [("keepalive_time 5m", "keepalive_time 1s")], bank=False)) as branch:
        context = ssl.create_default_context(cafile=files.top / "ca/front/authority.pem")
        context.load_cert_chain(f"{shown}.pem", f"{shown}.key")
        client = http.client.HTTPSConnection("localhost", branch.port, timeout=PATIENCE, context=context)
        asked, is_kept = 0, True
        while is_kept: # each on the one connection, until the front ends that
            client.request("GET", "/who")
            reply = client.getresponse()
            found, is_kept = json.loads(reply.read()), reply.getheader("Connection") != "close"
            require((reply.status, found.get("badge")), (200, "amy"), "while it is valid, or the connection stands")
            asked += 1
            require(time.time() < end + PATIENCE, True, f"the front ends the connection, after {asked} requests")
            time.sleep(0.1)
        require("ends" in found, True, "when it ends is said")
        time.sleep(max(0.0, end + 1 - time.time()))
        given = ["--cert", f"{shown}.pem", "--key", f"{shown}.key"]
        require(branch.ask(None, "/who", None, [], "--http1.1", given), CERTIFICATE, "once it has ended")
        is_told_in_words(branch, given)


def certificates_that_end(branch):
    """What ends within a month is named: here nothing, then the certificates of two badges, and the server's."""
    folder = branch.folder / "ending"
    shutil.copytree(branch.files.top / "ca/front", folder)
    named = lambda: ran(branch.files.top / "units/check-certificates", folder)
    require(named(), (0, ""), "certificates that were made today")
    days = [datetime.date.today() + datetime.timedelta(it) for it in (20, 40)]
    (folder / "last-days").write_text(f"2026-01-31 amy\n{days[0]} ben\n{days[1]} cem\n")
    require(named(), (1, f"amy ends on 2026-01-31\nben ends on {days[0]}\n"), "certificates that end")
    self_signed(folder / "server", "/CN=x", "-days", "10")
    (folder / "last-days").write_text("")
    status, said = named()
    require((status, said.startswith("server.pem ends on "), said.count("\n")), (1, True, 1), said)


def revoked_while_connected(branch):
    """A connection that stands when its certificate is revoked gets nothing more, and no other can be made."""
    with branch.connected("lost") as client:
        ask = head("/session", "Content-Length: 0")
        client.sendall(ask)
        # Before, of the bank, which has no such user.
        branch.received(client, lambda got: got.endswith(b'{"name":"identity","rule":1}'))
        branch.files.certificates("revoke", branch.files.serial("lost"))
        branch.take("revoked.pem", "badges.map")
        got = b""
        with contextlib.suppress(ConnectionError, ssl.SSLError):
            client.sendall(ask)
            got = client.recv(4096)
        require(got, b"", "on the old connection")
    require(branch.ask("lost", "/session", ""), CERTIFICATE, "on a new one")
    is_told_in_words(branch, (), "lost")
    require(branch.ask("amy", "/do/balance", {"account": 101})[0], 200, "another")


def each_list_refuses_the_revoked(branch):
    """The front's list of revoked certificates refuses one that the map of badges still has, and the map one that the list lacks."""
    lists = ("revoked.pem", "badges.map")
    for name in lists:
        branch.files.certificates("teller", "lost")
        branch.take(*lists)
        require(branch.ask("lost", "/session", ""), (403, '{"name":"identity","rule":1}'), "of the bank, before")
        branch.files.certificates("revoke", branch.files.serial("lost"))
        branch.take(name)
        require(branch.ask("lost", "/session", ""), CERTIFICATE, f"by {name} alone")
    branch.take(*lists)


def sizes(branch):
    """What the bank would refuse for its size the front refuses by the bank's fault."""
    for more in ((), ("-H", "Transfer-Encoding: chunked")):
        body = json.dumps(branch.post_of("amy", 0))
        require(branch.ask("amy", "/do/post", body.ljust(1024), more=more)[0], 200, f"1,024 bytes {more}")
        require(branch.ask("amy", "/do/post", body.ljust(1025), more=more), (413, '{"fault":"M3"}'), f"1,025 bytes {more}")
    require(branch.ask("amy", "/do/post", "x", ["X: " + "x" * 9000]), (431, '{"fault":"M2"}'), "head")
    require(branch.ask("amy", "/do/post", "x", [f"X{i}: {'x' * 900}" for i in range(10)]), (431, '{"fault":"M2"}'), "fields")
    require(branch.ask("amy", "/do/post" + "x" * 9000, "x"), (431, '{"fault":"M2"}'), "path")
    got = branch.exchanged("amy", head("/do/post", "Content-Length: 99999999999999999999999999"))
    require(statuses_in(got)[:1] in ([400], [413]), True, f"length: {got!r}")
    for version, field, wanted in (("1.1", "Transfer-Encoding: gzip", (b" 501 ", b'{"fault":"M4"}')), ("3.0", "X: y", (b" 400 ", b'{"fault":"M1"}'))):
        got = branch.exchanged("amy", head("/do/post", field).replace(b"HTTP/1.1", f"HTTP/{version}".encode()))
        require([it for it in wanted if it not in got], [], f"HTTP/{version} with {field}: {got!r}")


def versions(branch):
    """HTTP/1.0 and 1.1, chunked bodies, and clients that wait for 100 Continue."""
    for version in ("--http1.0", "--http1.1"):
        for fields in ((), ("Expect: 100-continue",), ("Transfer-Encoding: chunked",)):
            if version == "--http1.0" and "chunked" in "".join(fields):
                continue
            status, text = branch.ask("ben", "/do/post", branch.post_of("ben", 0), fields, version)
            require((status, '"branch":1' in text), (200, True), f"{version} {fields}: {text}")
    body = json.dumps(branch.post_of("ben", 0)).encode()
    with branch.connected("ben") as client:
        fields = [f"Bank-Session: {branch.sessions['ben']}", f"Content-Length: {len(body)}", "Expect: 100-continue"]
        client.sendall(head("/do/post", *fields))
        require(statuses_in(branch.received(client, lambda got: got.endswith(b"\r\n\r\n"))), [100], "asked to go on")
        client.sendall(body)
        require(statuses_in(branch.received(client, lambda got: got.endswith(b"}"))), [200], "then")
    for path in ("/do/post?x=1", "/do/%70ost", "/do/x/../post", "/do/post/"):
        require(branch.ask("ben", path, branch.post_of("ben"), more=["--path-as-is"]), (404, '{"fault":"M5"}'), path)


def pipelined(branch):
    """Three requests at once are answered one after another."""
    session = f"Bank-Session: {branch.sessions['cai']}"
    body = json.dumps(branch.post_of("cai")).encode()
    one = head("/do/post", session, f"Content-Length: {len(body)}") + body
    got = branch.exchanged("cai", one * 3, lambda got: len(re.findall(rb'"entry"', got)) == 3)
    require(statuses_in(got), [200] * 3, "statuses")
    balances = [int(balance) for balance in re.findall(rb'"balance":(\d+)', got)]
    require([balance - balances[0] for balance in balances], [0, 1, 2], "balances")


def smuggled(branch):
    """No request is taken for another user's: hidden in each of Amy is a post at Dot's drawer in Dot's session, as Dot."""
    is_post_of_dot = lambda line: line["badge"] == "dot" and line["path"] == "/do/post"
    seen = lambda: (branch.ask("dot", "/do/balance", {"account": 104})[1], sum(map(is_post_of_dot, branch.audit())))
    body = json.dumps(branch.post_of("dot", 777)).encode()
    hidden = head("/do/post", "Bank-Badge: dot", f"Bank-Session: {branch.sessions['dot']}", f"Content-Length: {len(body)}") + body
    chunk = b"%x\r\n%s\r\n0\r\n\r\n" % (len(hidden), hidden)
    length = len(hidden)
    attempts = {
        "CL.TE": (["Content-Length: %d" % (length + 5), "Transfer-Encoding: chunked"], b"0\r\n\r\n" + hidden),
        "TE.CL": (["Transfer-Encoding: chunked", "Content-Length: 4"], chunk),
        "two lengths": (["Content-Length: 0", f"Content-Length: {length}"], hidden),
        "two equal lengths": (["Content-Length: 0", "Content-Length: 0"], hidden),
        "lengths in a list": ([f"Content-Length: 0, {length}"], hidden),
        "length with a plus": ([f"Content-Length: +{length}"], hidden),
        "length in hex": ([f"Content-Length: 0x{length:x}"], hidden),
        "negative length": (["Content-Length: -1"], hidden),
        "space before the colon": ([f"Content-Length : {length}"], hidden),
        "folded field": (["X: y", f" Content-Length: {length}"], hidden),
        "folded coding": (["Transfer-Encoding:", " chunked"], b"0\r\n\r\n" + hidden),
        "bare LF": ([f"X: y\nContent-Length: {length}"], hidden),
        "bare CR": ([f"X: y\rContent-Length: {length}"], hidden),
        "NUL in a value": ([f"X: y\x00\r\nContent-Length: {length}"], hidden),
        "NUL in a name": (["X\x00: y", f"Content-Length: {length}"], hidden),
        "two codings": (["Transfer-Encoding: chunked", "Transfer-Encoding: identity"], b"0\r\n\r\n" + hidden),
        "coding with a tab": (["Transfer-Encoding:\tchunked", f"Content-Length: {length + 5}"], b"0\r\n\r\n" + hidden),
        "coding xchunked": (["Transfer-Encoding: xchunked", "Content-Length: 4"], chunk),
        "former coding": (["Transfer-Encoding: identity", "Content-Length: 0"], hidden),
        "chunk too long": (["Transfer-Encoding: chunked"], b"ffffffffffffffff1\r\n" + hidden),
        "chunk with LF": (["Transfer-Encoding: chunked"], b"0\n\n" + hidden),
        "field split in the session": (["Bank-Session: 1\r\nBank-Badge: dot"], hidden),
        "length of a GET": (["Content-Length: 5"], b"GET /" + hidden),
    }
    _, posts = seen()
    require(statuses_in(branch.exchanged("dot", hidden, statuses_in)), [200], "what is hidden is good where Dot sends it")
    audited(branch, is_post_of_dot, posts + 1)
    before = seen()
    for what, (fields, rest) in attempts.items():
        got = branch.exchanged("amy", head("/do/balance", *fields) + rest, statuses_in)
        if not statuses_in(got) or b'"balance"' in got:
            raise Wrong(f"{what}: {got!r}")
        require(branch.ask("eli", "/do/balance", {"account": 105})[0], 200, f"the next after {what}")
    for fields in (["Transfer-Encoding: chunked"], ["Connection: close, Bank-Badge"], [r"Bank-Session: 1\r\nBank-Badge: dot"]):
        branch.ask("amy", "/do/balance", {"account": 101}, fields)
    require(seen(), before, "balance, and lines of Dot in the audit trail")


def http2_is_not_offered(branch):
    """A client that would speak HTTP/2 is offered HTTP/1.1, and one that speaks it all the same is refused."""
    with branch.connected("amy", ["h2", "http/1.1"]) as client:
        require(client.selected_alpn_protocol(), "http/1.1", "what is chosen of both")
    preface = b"PRI * HTTP/2.0\r\n\r\nSM\r\n\r\n" + bytes(9)
    with branch.connected("amy") as client:
        client.sendall(preface)
        got = branch.received(client, lambda got: b"\r\n" in got)
    require(got[:13], b"HTTP/1.1 400 ", "its first bytes")


def slow_clients(branch):
    """Seventy that send little, slowly, or read nothing hold nobody up."""
    def ten_posts():
        begun = time.monotonic()
        for _ in range(10):
            require(branch.ask("eli", "/do/post", branch.post_of("eli"))[0], 200, "another")
        return time.monotonic() - begun
    body = b'{"account":101,"start":1,"count":1000}'
    listing = head("/do/statement", f"Bank-Session: {branch.sessions['dot']}", f"Content-Length: {len(body)}") + body
    def ten_beside():
        with contextlib.ExitStack() as held:
            for i in range(20):
                bare = held.enter_context(socket.create_connection(("127.0.0.1", branch.port)))
                bare.sendall(b"\x16\x03\x01")
                client = held.enter_context(branch.connected("fay"))
                client.sendall(b"POST /do/post HTTP/1.1\r\nHost: loc")
                client = held.enter_context(branch.connected("fay"))
                client.sendall(head("/do/post", "Content-Length: 500") + b"{")
                if i < 10:
                    client = held.enter_context(branch.connected("dot"))
                    client.sendall(listing)
            return ten_posts()
    alone, beside = ten_posts(), ten_beside()
    require_time(beside, 0, 8 + 2 * alone, "what is beside them")
    begun = time.monotonic()
    with branch.connected("fay") as client:
        client.sendall(b"POST /do/post HTTP/1.1\r\nHost: loc")
        client.recv(10)
    require_time(time.monotonic() - begun, 9, 25, "what cuts off one that sends half a head")


def other_sites(branch):
    """A page of another site does nothing by the certificate that the browser shows."""
    foreign = (403, '{"front":"other site"}')
    own = f"Origin: {branch.url}"
    for fields, wanted in ((["Origin: https://evil.example"], foreign), (["Origin: null"], foreign), ([f"{own}0"], foreign),
                           (["Sec-Fetch-Site: cross-site"], foreign), (["Sec-Fetch-Site: same-site", own], foreign),
                           (["Sec-Fetch-Site: cross-site", own], foreign), ([own], None), (["Sec-Fetch-Site: none"], None),
                           (["Sec-Fetch-Site: same-origin", own], None), (["Sec-Fetch-Site: same-origin"], None)):
        found = branch.ask("fay", "/do/balance", {"account": 106}, fields)
        require(found if wanted else found[0], wanted or 200, str(fields))


def who_asks(branch):
    """The front says whose certificate is shown; what a page sends that was opened with another badge is refused."""
    other = (412, '{"front":"other badge"}')
    ends = datetime.date.today() + datetime.timedelta(395)
    for version in ("--http1.0", "--http1.1"):
        status, text = branch.ask("amy", "/who", None, ["Bank-Badge: olga"], version)
        found = json.loads(text)
        require((status, found["badge"], sorted(found)), (200, "amy", ["badge", "ends"]), f"who {version}")
        month, day, clock, year, zone = found["ends"].split()
        date = datetime.date(int(year), 1 + MONTHS.index(month), int(day))
        require((zone, abs((date - ends).days) <= 1, clock.count(":")), ("GMT", True, 2), f"when the certificate ends: {text}")
        for named, wanted in (("amy", 200), ("ben", other), ("Amy", other), ("am", other), ("amyy", other), ("amy ben", other), (".*", other)):
            found = branch.ask("amy", "/do/balance", {"account": 101}, [f"Desk-Badge: {named}"], version)
            require(found[0] if wanted == 200 else found, wanted, f"{named} {version}")
    require(branch.ask(None, "/who"), CERTIFICATE, "without a certificate")
    require(branch.ask("amy", "/who", ""), (404, '{"fault":"M5"}'), "by POST")
    for path, body in (("/who", None), ("/session", "")):
        found = branch.ask("amy", path, body, ["Sec-Fetch-Site: cross-site"])
        require(found, (403, '{"front":"other site"}'), f"{path} for a page of another site")
    require(branch.ask("amy", "/session", "", ["Desk-Badge: ben"]), other, "a session by a page of Ben's")
    require(branch.ask("amy", "/do/balance", {"account": 101})[0], 200, "Amy's session is still open")


def page_and_fields(branch):
    """The page, its type, and the fields that restrict a browser; nothing else of the front's files."""
    shown = run(*branch.curl("amy", "-i", f"{branch.url}/"))
    require([it for it in ("HTTP/1.1 200", "Content-Type: text/html", "<title>") if it not in shown], [], shown)
    for who, path in (("amy", "/do/balance"), ("amy", "/"), ("amy", "/nothing"), ("amy", "/who"), ("amy", "/desk.css"), (None, "/"),
                      (None, "/session"), ("amy", "/office/")):
        shown = run(*branch.curl(who, "-i", f"{branch.url}{path}"))
        require([it for it in RESTRICTING if f"\n{it}" not in shown], [], f"fields that {path} lacks by {who}")
        require("Server: nginx/" in shown, False, "version of the server")
    for path in ("/../badges.map", "/..%2fbadges.map", "/%2e%2e/server.key", "/wait_1", "/badges.map"):
        require(branch.ask("amy", path, more=["--path-as-is"])[0] in (400, 404), True, path)
    require(branch.ask("amy", "/index.html", "x"), (404, '{"fault":"M5"}'), "POST to the page")
    require(branch.ask("amy", "/office/api/here"), (503, '{"front":"no office"}'), "no office")
    for least in ("1.0", "1.1"):
        require(ran(*branch.curl("amy", "--tls-max", least, branch.url))[0] != 0, True, f"TLS {least}")


def audit(branch):
    """Each request has its line, with who asked for what, when, and what came of it, and without its body."""
    fields, before = ["Bank-Slip: 4711"], time.time()
    require(branch.ask("eli", "/do/post", branch.post_of("eli", 4242), fields)[0], 200, "post")
    require(branch.ask("eli", "/do/post", branch.post_of("eli", 4243), fields)[0], 409, "the slip for another")
    path, forged = '/do/post"}{"badge":"olga"', 'Bank-Slip: 1","badge":"olga'
    branch.exchanged("eli", head(path, forged, "Content-Length: 0", "Connection: close"))
    require(audited(branch, lambda line: line["path"] == path, 1)[0]["slip"], "", "a slip that is none")
    found, lines = audited(branch, lambda line: line["slip"] == "4711", 2), branch.audit()
    wanted = {"certificate": branch.files.serial("eli"), "subject": "CN=eli,OU=Tellers", "verified": "SUCCESS", "badge": "eli",
              "session": str(branch.sessions["eli"]), "method": "POST", "path": "/do/post", "status": "200", "bank": "200"}
    require({name: found[0][name] for name in wanted}, wanted, "the line")
    require([line["status"] for line in found], ["200", "409"], "statuses")
    require(before - 1 < found[0]["ended"] - found[0]["seconds"] <= found[0]["ended"] < time.time() + 1, True, "moments")
    require(re.fullmatch(r"\d{4}-\d\d-\d\dT\d\d:\d\d:\d\d[+Z].*", found[0]["time"]) is not None, True, "time")
    require([line for line in lines if line["badge"] == "olga" and line["certificate"] != branch.files.serial("olga")], [], "a forged line")
    text = (branch.log / "audit.log").read_text()
    require(("delta" in text, "balance\":" in text), (False, False), "bodies in it")


def fields_as_the_bank_takes_them(branch):
    """Fields of a request stand in its line as the bank takes them or not at all, and of its path the beginning, so that no line is
    long; each is text."""
    long = head("/" + '"' * 3000, f"Bank-Slip: {'7' * 3000}", "Bank-Session: 0777", "Bank-Release: 5x", "Connection: close", method="GET")
    branch.exchanged("dot", long)
    line = audited(branch, lambda line: line["path"].startswith('/""'), 1)[0]
    require([line[it] for it in ("path", "slip", "session", "release")], ["/" + '"' * 99, "", "", ""], "long fields")
    branch.exchanged("dot", head("/caf\xe9", "Connection: close", method="GET").decode().encode("latin-1"))
    require(audited(branch, lambda line: line["path"] == "/caf", 1)[0]["badge"], "dot", "a path that is no text")
    longest = max(map(len, (branch.log / "audit.log").read_bytes().split(b"\n")))
    require(longest < 1024, True, f"the longest line has {longest} bytes")


def log_of_the_policy(branch):
    """Each command of the policy has a line in a file of its own, with who gave it, its body, and what came of it."""
    branch.begin("olga")
    given = [('{"user":21,"name":"Zo\\u0065","officer":false}', (), 200), ('{"user":21,\n"name":"Zed",  "officer":false}', (), 409),
             (json.dumps({"user": 22, "name": "Yan", "officer": False}), ["Transfer-Encoding: chunked"], 200), ("{".ljust(1024), (), 422)]
    for body, fields, status in given:
        require(branch.ask("olga", "/policy/enrol", body, fields)[0], status, body)
    found = audited(branch, lambda line: line["path"] == "/policy/enrol", len(given), "policy")
    require([(it["body"], it["badge"], it["status"]) for it in found], [(body, "olga", str(status)) for body, _, status in given], "lines")
    require(found[0]["session"], str(branch.sessions["olga"]), "the session")
    chunks = b"".join(b"1;%s\r\n%c\r\n" % (b"x" * 300, it) for it in json.dumps({"user": 23, "name": "X", "officer": False}).encode())
    fields = [f"Bank-Session: {branch.sessions['olga']}", "Transfer-Encoding: chunked", "Connection: close"]
    got = branch.exchanged("olga", head("/policy/enrol", *fields) + chunks + b"0\r\n\r\n")
    require(statuses_in(got), [413], f"a body that no line could have: {got!r}")
    branch.ask(None, "/policy/enrol", given[0][0])
    require(branch.ask("amy", "/policy/suspend", {"user": 13}), OFFICER, "by Amy")
    found = audited(branch, lambda line: line["body"] == '{"user": 13}', 1, "policy")
    require((found[0]["badge"], found[0]["status"]), ("amy", "403"), "her line")
    require([it for it in branch.audit("policy") if not it["badge"]], [], "lines without a badge")


def books_hold(branch):
    """After all of that the bank's books hold."""
    branch.close()
    branch.rows()


def retrying(branch, who, slip, body):
    """Sends a request with a slip again until it is answered: the status, the body, and the statuses that were no answer."""
    missed, end = [], time.monotonic() + 3 * PATIENCE
    while time.monotonic() < end:
        status, text = 0, ""
        with contextlib.suppress(Late):
            status, text = branch.ask(who, "/do/post", body, [f"Bank-Slip: {slip}"])
        if status not in (0, 429, 502, 503, 504):
            return status, text, missed
        missed += [status] if status != 429 else []
        time.sleep(0.1)
    raise Late(f"slip {slip} is not answered")


@contextlib.contextmanager
def disturbed(branch, disturb, most, pause=0.6):
    """Meanwhile the bank is disturbed, within `pause` seconds after each of its starts, at most `most` times."""
    done, begun = threading.Event(), time.monotonic()

    def work():
        chance, starts, times = random.Random(7), 0, 0
        while not done.wait(0.01) and times != most:
            require_time(time.monotonic() - begun, 0, 10 * PATIENCE, f"what starts the bank {most} times, of which {starts} were,")
            if branch.starts > starts:
                starts = branch.starts
                done.wait(chance.uniform(0.1, pause))
                disturb()
                times += 1

    with ThreadPoolExecutor(1) as pool:
        disturbing = pool.submit(work)
        try:
            yield disturbing
        finally:
            done.set()
        disturbing.result()


def two_hundred(files, name, how):
    """Two hundred posts of Amy, one after another; meanwhile the bank gets a signal, or is ended after each 17. Its rows, and a
    report."""
    with contextlib.closing(Branch(files, f"restart-{name}")) as branch:
        missed, longest = [], 0
        with disturbed(branch, lambda: branch.signal_bank(how), 30) if how else contextlib.nullcontext():
            for i in range(1, 201):
                if name == "count" and i % 17 == 0:
                    branch.end_input()
                begun = time.monotonic()
                status, text, misses = retrying(branch, "amy", i, branch.post_of("amy", 1000 + i, 101 + i % 6))
                longest = max(longest, time.monotonic() - begun)
                missed += misses
                require(status, 200, f"post {i}: {text}")
        held = [line for line in branch.audit() if line["slip"] and " : " in line["bank"]]
        branch.end_bank()
        report = f"{branch.starts} starts, {len(held)} held, {len(missed)} not answered, the longest took {longest:.1f} s"
        return branch.rows(), report


def restarts(files):
    """However often the bank ends in the midst of two hundred posts with slips, the file has the rows of one that did not."""
    cases = {"undisturbed": None, "kill": signal.SIGKILL, "term": signal.SIGTERM, "count": None}
    with ThreadPoolExecutor(4) as pool:
        found = dict(zip(cases, pool.map(lambda name: two_hundred(files, name, cases[name]), cases)))
    wanted, _ = found["undisturbed"]
    require((len(wanted["entries"]), len(wanted["slips"])), (200, 200), "entries and slips")
    for name, (rows, _) in found.items():
        for table, lines in rows.items():
            require(lines, wanted[table], f"{name}, rows of {table}")
    return "".join(f"\n    {name}: {report}" for name, (_, report) in found.items())


def restarts_of_six(files):
    """Six tellers at once, 34 posts with slips each, and the bank killed meanwhile: each post acts once."""
    with contextlib.closing(Branch(files, "restart-six")) as branch:

        def work(who):
            return [retrying(branch, who, i, branch.post_of(who, 1000 + i)) for i in range(1, 35)]

        with disturbed(branch, lambda: branch.signal_bank(signal.SIGKILL), 30), ThreadPoolExecutor(6) as pool:
            replies = [reply for found in pool.map(work, TELLERS) for reply in found]
    found = sorted((row[7], row[5]) for row in branch.rows()["entries"])
    require(found, [(USERS[who], 1000 + i) for who in TELLERS for i in range(1, 35)], "users and amounts of the entries")
    require({status for status, *_ in replies}, {200}, "statuses")
    return f"\n    {branch.starts} starts, {sum(len(missed) for *_, missed in replies)} not answered"


class Copies(Month):
    """A month's bank, and its copies, by the scripts of the units."""

    def unit(self, name):
        """The status of one of the scripts."""
        return self.run(f"units/{name}").returncode

    def names(self, is_checked):
        """The names of the copies that were checked, or of the others."""
        return sorted(it.name for it in self.copies.iterdir() if it.name.endswith("-checked") == is_checked)

    def post_and_kill(self):
        """Has a post acknowledged, and kills the bank."""
        words = [self.files.top / "bank_cli", "run", self.file, "--badges", self.lists / "badges.csv", "--moment", "0"]
        with subprocess.Popen(words, stdin=subprocess.PIPE, stdout=subprocess.PIPE, bufsize=0) as ran:
            got = b""
            for count, asked in enumerate([*self.opening("amy"), self.post("amy", 5)], 1):
                ran.stdin.write(self.bytes_of(asked))
                while got.count(b"}") < count and (piece := ran.stdout.read(4096)):
                    got += piece
            ran.kill()
        require(got.endswith(b'{"balance":50005,"branch":1,"entry":1}'), True, f"the post is acknowledged: {got!r}")


def copies_of_a_killed_bank(files):
    """A copy of a bank that was killed has what was acknowledged, in the file alone once that is checked, and is nobody else's. A
    copy that is damaged is not named checked. Of those that were checked the newest 30 stay, of the others the newest three."""
    copies = Copies(files, "copies")
    copies.post_and_kill()
    require(copies.unit("keep-copy"), 0, "keep-copy")
    require((copies.names(True), len(copies.names(False))), ([], 1), "copies before the check")
    require(copies.unit("check-copy"), 0, "check-copy")
    (name,), others = copies.names(True), copies.names(False)
    require(others, [], "copies that were not checked")
    kept = copies.copies / name
    require(sorted(it.name for it in kept.iterdir()), ["bank", "bank.sha256"], "what a checked copy has")
    with contextlib.closing(sqlite3.connect(f"file:{kept}/bank?mode=ro&immutable=1", uri=True)) as found:
        require(found.execute("SELECT delta FROM entries").fetchall(), [(5,)], "the acknowledged post in the copy's file alone")
    run("sha256sum", "--check", "--quiet", "bank.sha256", cwd=kept)
    for it in (kept, *kept.iterdir()):
        require(it.stat().st_mode & 0o077, 0, f"rights of others at {it.name}")
    copies_that_stay(copies, name)


def copies_that_stay(copies, checked):
    """Goes through where of many copies those stay that have to."""
    older = [f"2020{it:04}T000000.000000000Z-checked" for it in range(101, 141)]
    for it in older:
        shutil.copytree(copies.copies / checked, copies.copies / it)
    for _ in range(5):
        require(copies.unit("keep-copy"), 0, "keep-copy")
    require(len(copies.names(False)), 3, "copies that were not checked")
    require(copies.unit("check-copy"), 0, "check-copy of the newest")
    require((copies.names(True)[:-1], copies.names(False)), ([*older[-28:], checked], []), "copies that stay")


def damaged_copies(files):
    """A copy that is damaged, as it is made or as its log is taken in, is not named checked; then the next good one is."""
    copies = Copies(files, "damaged")
    copies.post_and_kill()
    damaging = f"""{files.top}/bank_cli "$@" || exit
if [ "$1" = run ]; then printf damage | dd of="$2" bs=1 seek=2000 conv=notrunc status=none; fi"""
    for what in ("copy", "log"):
        require(copies.unit("keep-copy"), 0, "keep-copy")
        name = copies.names(False)[-1]
        if what == "copy":
            os.truncate(copies.copies / name / "bank", 2048)
        else:
            copies.stub("bank_cli", damaging)
        require(copies.unit("check-copy") != 0, True, f"check-copy refuses a damaged {what}")
        require(copies.names(True), [], "copies that are named checked")
    (copies.stubs / "bank_cli").unlink()
    require([copies.unit(it) for it in ("keep-copy", "check-copy")], [0, 0], "a good copy")
    require((len(copies.names(True)), copies.names(False)), (1, []), "copies in the end")


def copies_of_other_hours(files):
    """A copy of a later hour is not taken for the newest, and one of two hours ago not for that of this start."""
    copies = Copies(files, "hours")
    for hours in (2, -2):
        require(copies.unit("keep-copy"), 0, "keep-copy")
        (name,) = copies.names(False)
        moment = datetime.datetime.now(datetime.timezone.utc) + datetime.timedelta(hours=hours)
        other = f"{moment:%Y%m%dT%H%M%S}.000000000Z"
        (copies.copies / name).rename(copies.copies / other)
        require((copies.unit("check-copy"), copies.names(True), copies.names(False)), (1, [], [other]), f"a copy {hours} hours on")
        shutil.rmtree(copies.copies / other)


def copies_are_on_the_disk_before_they_are_named(files):
    """A copy gets its name, and that of one that was checked, once all of it is on the disk."""
    copies = Copies(files, "order")
    for it in ("sync", "mv"):
        copies.stub(it, f'echo "{it} $*" >>$BANK_ROOT/called\nPATH={PATH} exec {it} "$@"')
    for script in ("keep-copy", "check-copy"):
        called = copies.put("called", "")
        require(copies.unit(script), 0, script)
        name = (copies.names(False) or copies.names(True))[0].removesuffix("-checked")
        copy = "begun" if script == "keep-copy" else name
        found = [" ".join(it.split()[:3]) for it in called.read_text().splitlines()]
        require(found, [f"sync -f {copy}", f"mv -T {copy}"], f"what {script} calls")


def held(branch, context):
    """Connections without a certificate that began a handshake, or, with a context for TLS, a request; in either case no more comes."""
    for _ in range(HELD):
        bare = socket.create_connection(("127.0.0.1", branch.port), PATIENCE)
        if context:
            bare = context.wrap_socket(bare, server_hostname="localhost")
        bare.sendall(b"GET / HTTP/1.1\r\nHost: x" if context else b"\x16\x03\x01")
        yield bare


def held_connections(files):
    """While a client without a certificate holds 2,100 connections a teller is answered, on new connections and on the one that
    stands. (Here the front waits longer for the rest of a head, so that all are held at once however slow this machine is.)"""
    changes, notes = [("client_header_timeout 10s", "client_header_timeout 600s")], []
    with contextlib.closing(Branch(files, "held", changes)) as branch:
        client = branch.client("amy")
        balance = lambda: client.ask("/do/balance", {"account": 101})[0]
        for what, context in (("handshakes", None), ("heads", ssl.create_default_context(cafile=files.top / "ca/front/authority.pem"))):
            require(balance(), 200, "before")
            standing = client.sock
            with contextlib.ExitStack() as all_held:
                found = [all_held.enter_context(it) for it in held(branch, context)]
                require([branch.ask("ben", "/do/balance", {"account": 102})[0] for _ in range(10)], [200] * 10, f"new ones beside {what}")
                require((balance(), client.sock is standing), (200, True), f"the one that stands beside {what}")
                require(sum(map(has_ended, found)), 0, f"{what} that the front ended")
                notes.append(f"{what} {memory_of(branch)} kB")
        return "the front's worker beside them: " + ", ".join(notes)


def has_ended(client):
    """Whether the front has ended a connection on which it says nothing."""
    client.setblocking(False)
    try:
        return client.recv(1) == b""
    except (BlockingIOError, ssl.SSLWantReadError):
        return False
    except OSError:
        return True


def memory_of(branch):
    """How many kilobytes the front's worker holds."""
    (pid,) = branch.workers()
    return int(re.search(r"^VmRSS:\s+(\d+) kB", Path(f"/proc/{pid}/status").read_text(), re.MULTILINE)[1])


def flooding(branch, is_over):
    """Sends requests without a certificate as fast as the front takes them, with long paths and fields, until that is over."""
    context = ssl.create_default_context(cafile=branch.files.top / "ca/front/authority.pem")
    one = head("/" + '"' * 3000, f"Bank-Slip: {chr(34) * 3000}", f"Bank-Session: {'7' * 900}", method="GET")
    count = 0
    while not is_over():
        with contextlib.suppress(OSError), socket.create_connection(("127.0.0.1", branch.port), PATIENCE) as bare:
            with context.wrap_socket(bare, server_hostname="localhost") as client:
                client.sendall(one * 20)
                while client.recv(65536):
                    count += 1
    return count


def flood_without_a_certificate(files):
    """Ten seconds of requests without a certificate: the audit trail has the tellers' lines, all of them and no others, and the file
    of refused requests has its bound."""
    most = 20_000
    with contextlib.closing(Branch(files, "flood", most=most)) as branch:
        cut = branch.log / "refused.log.1"
        wait_until(lambda: len(branch.audit()) == 2 * len(TELLERS), PATIENCE, "the lines of the sessions")
        begun, slips = time.monotonic(), 0
        is_over = lambda: time.monotonic() > begun + FLOOD_SECONDS and (cut.exists() or time.monotonic() > begun + FLOOD_SECONDS + PATIENCE)
        with ThreadPoolExecutor(4) as pool:
            floods = [pool.submit(flooding, branch, is_over) for _ in range(4)]
            while not all(it.done() for it in floods):
                slips += 1
                require(branch.ask("amy", "/do/post", branch.post_of("amy"), [f"Bank-Slip: {slips}"])[0], 200, f"post {slips}")
                time.sleep(BETWEEN_POSTS)
            count = sum(it.result() for it in floods)
        audited(branch, lambda line: line["slip"] == str(slips), 1)
        found = branch.audit()[2 * len(TELLERS):]
        require([(it["badge"], it["slip"]) for it in found], [("amy", str(it)) for it in range(1, slips + 1)], "lines after the sessions'")
        require(cut.exists(), True, f"the refused requests have passed their bound, after {count}")
        size = sum(os.path.getsize(it) for it in branch.log.glob("refused.log*"))
        require(size <= 2 * (most + 70_000), True, f"of refused requests there are {size} bytes")
        return f"{count} requests without a certificate, {slips} posts"


def trail_without_room(files):
    """Lines for which there is no room are a number in the trail, once there is some, and stand in the journal, and no line is torn."""
    with contextlib.closing(Branch(files, "no-room")) as branch:
        wait_until(lambda: len(branch.audit()) == 2 * len(TELLERS), PATIENCE, "the lines of the sessions")
        size, pid = os.path.getsize(branch.log / "audit.log"), branch.trail.pid
        hard = resource.prlimit(pid, resource.RLIMIT_FSIZE)[1]
        resource.prlimit(pid, resource.RLIMIT_FSIZE, (size + 1300, hard))
        post = lambda slip: require(branch.ask("amy", "/do/post", branch.post_of("amy"), [f"Bank-Slip: {slip}"])[0], 200, "a post")
        for slip in range(1, 7):
            post(slip)
        said = branch.log / "trail-errors"
        journal = lambda: [json.loads(it)["slip"] for it in said.read_text().splitlines() if it.startswith("{")]
        wait_until(lambda: "6" in journal(), PATIENCE, "the last line is in the journal")
        resource.prlimit(pid, resource.RLIMIT_FSIZE, (hard, hard))
        post(7)
        audited(branch, lambda line: line.get("slip") == "7", 1)
        found = branch.audit()[2 * len(TELLERS):]
        kept = [it["slip"] for it in found if "slip" in it]
        require(([it["lost"] for it in found if "lost" in it], found[-2].get("lost")), ([len(journal())] * 1, len(journal())), "lines lost")
        require(sorted(kept + journal()), [str(it) for it in range(1, 8)], "each line is in one of both")
        require(0 < len(kept) < 7, True, f"lines that had room: {kept}")


def trail_starts_anew(files):
    """While nobody keeps the trail its lines wait, and who keeps it then has them all."""
    with contextlib.closing(Branch(files, "trail")) as branch:
        for slip in range(1, 31):
            if slip in (10, 20):
                branch.end_trail()
            require(branch.ask("amy", "/do/post", branch.post_of("amy"), [f"Bank-Slip: {slip}"])[0], 200, "a post")
            if slip in (15, 25):
                branch.keep_trail()
        found = audited(branch, lambda line: line["slip"], 30)
        require([it["slip"] for it in found], [str(it) for it in range(1, 31)], "lines")


def torn_lines(files):
    """One torn line, as a full disk or a power cut leaves it, hides no entry from bank-audit, which says how many there are."""
    with contextlib.closing(Branch(files, "torn")) as branch:
        for slip in range(1, 6):
            require(branch.ask("amy", "/do/post", branch.post_of("amy", 100 + slip), [f"Bank-Slip: {slip}"])[0], 200, "a post")
        audited(branch, lambda line: line["slip"], 5)
    branch.rows()
    room = branch.folder / "audit"
    room.mkdir()
    shutil.copy(branch.file, room / "bank")
    shutil.copy(branch.folder / "lists/badges.csv", room)
    lines = (branch.log / "audit.log").read_text().splitlines()
    torn = [it[:180] if '"slip":"2"' in it else it for it in lines]
    missed = ["no line explains entry 1 2 of user 7", "more than were asked for: /do/post of user 7 are 5 and requests 4", "lines that are no JSON 1"]
    for given, explained, more in ((lines, [1, 2, 3, 4, 5], []), (torn, [1, 3, 4, 5], missed),
                                   ([*lines, '{"time":"x","lost":3}'], [1, 2, 3, 4, 5], ["lines that had no room 3"])):
        (room / "audit.log").write_text("\n".join(given) + "\n")
        _, said = printed(files.share / "audit", "--entries", "bank", "badges.csv", "audit.log", cwd=room)
        require([int(it.split()[2]) for it in said if it.startswith("entry ")], explained, "entries that are explained")
        require([it for it in said if not it.startswith("entry ")], more, "what else is said")


def room_again(files):
    """A bank whose disk was full is started anew once there is room, at most once in ten minutes; one whose disk failed while there was
    room is not."""
    machine = Machine(files, "disk")
    for name, text in (("systemctl", 'case $1 in show) cat run ;; *) echo "$*" >>orders ;; esac'), ("journalctl", "cat said"), ("df", "echo Avail; cat room")):
        machine.stub(name, f"cd $BANK_ROOT\n{text}")
    notes, orders = machine.folder / "notes", machine.put("orders", "")
    notes.mkdir()

    def look(run, has_failed, room):
        """A look at a bank of this run: whether it failed, and how often the bank was started anew by then."""
        for name, text in (("run", run), ("said", "disk: failed\n" if has_failed else ""), ("room", f"{room}\n")):
            machine.put(name, text)
        status = machine.run("units/check-disk", RUNTIME_DIRECTORY=str(notes), LEAST="64").returncode
        given = orders.read_text().splitlines()
        require(set(given) <= {"restart bank.service"}, True, f"orders: {given}")
        return status, len(given)

    require([look("a", False, 900), look("a", True, 900), look("a", True, 900)], [(0, 0), (1, 0), (1, 0)], "a disk that failed while there was room")
    require([look("b", False, 9), look("b", True, 3), look("b", True, 63)], [(0, 0), (1, 0), (1, 0)], "a full disk")
    require([look("b", True, 64), look("c", False, 900)], [(0, 1), (0, 1)], "room again")
    require([look("c", True, 3), look("c", True, 900)], [(1, 1), (1, 1)], "again within ten minutes")
    os.utime(notes / "restarted", (time.time() - 700,) * 2)
    require([look("c", True, 900), look("d", True, 900)], [(0, 2), (1, 2)], "ten minutes later, and the next that failed while there was room")


def settings_of(unit):
    """The settings of a unit, each with its values."""
    found = {}
    for name, value in re.findall(r"^(\w+)=(.*)$", unit.read_text(), re.MULTILINE):
        found.setdefault(name, []).append(value)
    return found


def units_are_the_banks_alone(files):
    """The front alone opens the bank's socket, and what the bank's user makes is theirs alone."""
    units = files.top / "units"
    opened = settings_of(units / "bank.socket")
    require((opened["SocketMode"], opened["SocketGroup"]), (["0660"], ["bank-front"]), "the bank's socket")
    made = [it for it in sorted(units.glob("*.service")) if "bank" in settings_of(it).get("User", [])]
    require([it.name for it in made], ["bank-copy.service", "bank.service"], "what runs as the bank's user")
    trail = settings_of(units / "bank-trail.service")
    require((trail["User"], trail["UMask"], trail["LogsDirectoryMode"]), (["bank-trail"], ["0077"], ["0700"]), "what keeps the trail")
    require([settings_of(units / "bank-trail.socket")[it] for it in ("SocketMode", "ListenFIFO")],
            [["0600"], [f"/run/bank-trail/{it}" for it in PIPES]], "the trail's pipes")
    for it in units.glob("*.service"):
        found = settings_of(it)
        reads = it.name == "bank-seal.service" or "CAP_DAC" in "".join(found.get("CapabilityBoundingSet", ["CAP_DAC"]))
        is_out = "-/etc/bank-seal" in " ".join(found["InaccessiblePaths"]).split() if "InaccessiblePaths" in found else False
        require(reads and not is_out, it.name in SIGNING, f"whether {it.name} reads the key of the seals")
    front = settings_of(units / "bank-front.service")
    most = int(re.search(r"worker_connections (\d+);", (files.top / "front/nginx.conf").read_text())[1])
    require((int(front["LimitNOFILE"][0]), "LogsDirectory" in front), (2 * most, False), "what the front may open, and that it has no files")
    for it in made:
        found = settings_of(it)
        rights = [found.get("UMask"), *([found["StateDirectoryMode"]] if "StateDirectory" in found else [])]
        require(rights, [["0077"], ["0700"]][: len(rights)], f"rights of what {it.name} makes")


def clock_set_back(files):
    """A start by a clock that is earlier than the bank's last write says so, once, and no other start does."""
    machine = Machine(files, "clock")
    machine.stub("bank_cli", "")
    bank, said = machine.put("var/lib/bank/bank", "", 0o644), machine.folder / "said"
    given = machine.environment(RUNTIME_DIRECTORY=str(machine.folder))
    for ahead, due in ((0, ""), (2 * 86_400, "the clock is earlier than the bank's last write\n")):
        written = time.time() + ahead
        os.utime(bank, (written, written))
        with open(said, "w", encoding="utf-8") as errors:
            subprocess.run([files.top / "units/serve-bank"], env=given, stderr=errors, check=True, timeout=PATIENCE)
        os.kill(int((machine.folder / "holder").read_text()), signal.SIGTERM)
        require(bank.stat().st_mode & 0o777, 0o600, "the rights at the bank's file")
        require(said.read_text(), due, f"what a start says with a last write {ahead} seconds ahead")


def posts_without_slips(branch, per_second, is_done, replied):
    """Six tellers post without slips, each on a kept connection and `per_second` at most, one body in three some time after
    its head, until all is done: a list of amount, status and body. After each reply `replied` is called."""
    def work(who):
        client, found, chance = branch.client(who), [], random.Random(who)
        while not is_done() or len(found) < 20:
            begun = time.monotonic()
            amount = len(found) + 1
            pause = chance.uniform(0, 0.5) if amount % 3 == 0 else 0
            found.append((amount, *client.ask("/do/post", branch.post_of(who, amount), pause=pause)))
            replied()
            time.sleep(max(0.0, 1 / per_second - (time.monotonic() - begun)))
        client.close()
        return found

    with ThreadPoolExecutor(6) as pool:
        return [it for found in pool.map(work, TELLERS) for it in found]


def posts_meanwhile(branch, name):
    """Such posts, while the bank is ended twenty times: by order; by count, which is after each 23 replies; or by a kill."""
    if name == "count":
        replies = itertools.count(1) # each teller's thread takes the next in one step
        replied = lambda: next(replies) % 23 or branch.end_input()
        return posts_without_slips(branch, 1000, lambda: branch.starts > 20, replied)
    disturb = {"order": branch.restart_by_order, "kill": lambda: branch.signal_bank(signal.SIGKILL)}[name]
    with disturbed(branch, disturb, 20, 1.5) as disturbing:
        return posts_without_slips(branch, 15, disturbing.done, lambda: None)


def without_slips(files):
    """Six tellers without slips: ends by order and by count lose and refuse nothing, and kills only what was under way."""
    def run(name):
        with contextlib.closing(Branch(files, f"without-{name}", changes=NO_RATE if name == "count" else ())) as branch:
            replies = posts_meanwhile(branch, name)
            ends = branch.ends[:20]
            branch.end_bank()
            return branch.starts, ends, replies, branch.rows()["entries"]

    most = {"order": 0, "count": 0, "kill": 20 * len(TELLERS)}
    reports = []
    with ThreadPoolExecutor(3) as pool:
        for name, (starts, ends, replies, entries) in zip(most, pool.map(run, most)):
            acknowledged = {json.loads(text)["entry"]: amount for amount, status, text in replies if status == 200}
            lost = [status for _, status, _ in replies if status != 200]
            reports.append(f"\n    {name}: {starts} starts, {len(replies)} posts, {len(lost)} not acknowledged")
            require(ends, [-signal.SIGKILL if name == "kill" else 0] * 20, f"{name}: statuses of the bank")
            require(set(lost) <= {0, 502}, True, f"{name}: statuses {set(lost)}")
            require(len(lost) <= most[name], True, f"{name}: {len(lost)} not acknowledged")
            amounts = {row[1]: row[5] for row in entries if row[1] in acknowledged}
            require(amounts, acknowledged, f"{name}: entries of what was acknowledged")
            require(len(entries) <= len(replies), True, f"{name}: no post acted twice")
    return "".join(reports)


def bank_down(files):
    """A bank that is down for three seconds, its socket too, is waited for; where it stays down, the reply is 502 after half a
    minute, and nothing was done."""
    with contextlib.closing(Branch(files, "down")) as branch:
        branch.end_bank()
        with ThreadPoolExecutor(3) as pool:
            asked = [pool.submit(branch.ask, who, "/do/post", branch.post_of(who, 5)) for who in ("amy", "ben", "cai")]
            time.sleep(3)
            require([each.done() for each in asked], [False] * 3, "answered while it is down")
            branch.keep()
            require([each.result()[0] for each in asked], [200] * 3, "answered then, without slips")
        branch.end_bank()
        begun = time.monotonic()
        require(branch.ask("amy", "/do/post", branch.post_of("amy")), (502, '{"front":"no reply"}'), "it stays down")
        require_time(time.monotonic() - begun, 25, 80, "the reply")
        require(len(branch.rows()["entries"]), 3, "entries")


def bank_silent(files):
    """A bank that is silent for a minute: 504, and perhaps it was done. Sent again with its slip it acts once."""
    with contextlib.closing(Branch(files, "silent")) as branch:
        branch.bank.send_signal(signal.SIGSTOP)
        ask = ("amy", "/do/post", branch.post_of("amy", 5), ["Bank-Slip: 1"])
        begun = time.monotonic()
        require(branch.ask(*ask), (504, '{"front":"no reply in time"}'), "while it is silent")
        require_time(time.monotonic() - begun, 55, 90, "the reply")
        branch.bank.send_signal(signal.SIGCONT)
        require([branch.ask(*ask) for _ in range(2)], [(200, '{"balance":50005,"branch":1,"entry":1}')] * 2, "again")
        branch.end_bank()
        require(len(branch.rows()["entries"]), 1, "entries")


def asked_at_once(branch, asked, refused):
    """The statuses that Amy gets who asks `asked` times at once. The bank is stopped meanwhile, so that they are there at once
    however slow it is, and goes on once `refused` got 429."""
    body = branch.folder / "ask.json"
    body.write_text('{"account":101}')
    more = ["-H", f"Bank-Session: {branch.sessions['amy']}", "--data-binary", f"@{body}", "--parallel", "--parallel-max", str(asked)]
    command = branch.curl("amy", "-w", " %{http_code}\n", *more, "--parallel-immediate", *[f"{branch.url}/do/balance"] * asked)
    branch.signal_bank(signal.SIGSTOP)
    with subprocess.Popen(command, stdout=subprocess.PIPE, stderr=subprocess.DEVNULL, text=True) as ran:
        audited(branch, lambda line: line["status"] == "429", refused, "refused")
        branch.signal_bank(signal.SIGCONT)
        found = re.findall(r" (\d{3})$", ran.communicate()[0], re.MULTILINE)
    require((len(found), set(found)), (asked, {"200", "429"}), "replies")
    return found


def rate(files):
    """Of a hundred requests 40 are let in, and more at the rate; the others get 429. Nobody else is held up. As they come on a
    connection each, which takes its time, the rate here is one in two seconds; the settings that are shipped have 20 per second."""
    shipped = "zone=by_certificate:1m rate=20r/s;"
    require(shipped in (files.top / "front/nginx.conf").read_text(), True, "the rate of a certificate in the settings that are shipped")
    changes = [*NO_RATE[1:], (shipped, shipped.replace("20r/s", "30r/m"))]
    with contextlib.closing(Branch(files, "rate", changes)) as branch:
        begun = time.monotonic()
        count = asked_at_once(branch, 100, 1).count("200")
        most = 42 + 0.5 * (time.monotonic() - begun)
        require(38 <= count <= most, True, f"{count} are let in, and {most:.0f} at most")
        require(branch.ask("ben", "/do/balance", {"account": 102})[0], 200, "another")
        wait_until(lambda: branch.ask("amy", "/do/balance", {"account": 101})[0] == 200, PATIENCE, "one more is let in", 0.5)


def open_at_once(files):
    """Of thirty requests 20 are open at once; the others get 429."""
    with contextlib.closing(Branch(files, "open")) as branch:
        require(asked_at_once(branch, 30, 10).count("200"), 20, "let in")


def taken(listener, done, requests):
    """Takes each request at the socket and ends its connection without a reply, until `done` is set."""
    listener.settimeout(0.1)
    while not done.is_set():
        with contextlib.suppress(TimeoutError):
            client, _ = listener.accept()
            with client:
                client.settimeout(PATIENCE)
                request = b""
                while not request.endswith(b"}") and (piece := client.recv(65536)): # each has a body
                    request += piece
                requests.append(request)


def bank_that_takes_and_dies(files):
    """A bank that takes a request, and ends before its reply, gets it again only where that does no harm."""
    done, requests = threading.Event(), []
    # By path and slip: how often it may be taken.
    cases = {(f"/do/{it}", ""): 1 if it in TAKES_SLIP else 9 for it in PROCEDURES}
    cases |= {("/policy/grant", ""): 1, ("/policy/grant", "8"): 1, ("/end", ""): 1, ("/do/post", "x8"): 1, ("/do/post", "8"): 9,
              ("/session", ""): 9}

    def ask(path, slip):
        return branch.ask("amy", path, json.dumps({"case": f"{path} {slip}"}), [f"Bank-Slip: {slip}"] if slip else [])

    with contextlib.closing(Branch(files, "eater", bank=False)) as branch:
        # The first try finds nobody, so the front waits; the next ones are taken.
        with ThreadPoolExecutor(len(cases) + 1) as pool, contextlib.ExitStack() as at_end:
            at_end.callback(done.set)
            begun = time.monotonic()
            asked = {case: pool.submit(ask, *case) for case in cases}
            time.sleep(0.35)
            branch.listen()
            late = time.monotonic() - begun
            pool.submit(taken, branch.socket, done, requests)
            replies = {case: each.result() for case, each in asked.items()}
        require(replies, dict.fromkeys(cases, (502, '{"front":"no reply"}')), "replies")
        # After two seconds tries at 2, 4, 8, 16 and 30 seconds are left; on a busy machine it may be later.
        least = 4 if late < 2 else 2
        for case, most in cases.items():
            times = sum(json.dumps({"case": " ".join(case)}).encode() in each for each in requests)
            require(min(least, most) <= times <= most, True, f"{case} was taken {times} times")


# Checks that share one branch, in this order; beside them those that make branches of their own: the busy ones one after another, so
# those of nights, and all at once those that wait most of their time.
ON_ONE = [six_tellers_at_once, forged_badges, certificates_refused, certificates_that_end, revoked_while_connected,
          each_list_refuses_the_revoked, sizes, versions, pipelined, smuggled, http2_is_not_offered, slow_clients, other_sites, who_asks,
          page_and_fields, audit, fields_as_the_bank_takes_them, log_of_the_policy]
BUSY = [copies_of_a_killed_bank, damaged_copies, copies_of_other_hours, copies_are_on_the_disk_before_they_are_named,
        units_are_the_banks_alone, clock_set_back, room_again, trail_without_room, trail_starts_anew, torn_lines,
        flood_without_a_certificate, held_connections, restarts, restarts_of_six, without_slips, years_by_content,
        gathered_and_brought_up, only_files_are_gathered, people_come_and_go]
NIGHTS = [*NIGHT_CHECKS, *PAIR_CHECKS, *SEAL_CHECKS, *POLICY_CHECKS, *RIGHTS_CHECKS, *EVIDENCE_CHECKS]
WAITING = [certificate_that_has_ended, bank_silent, bank_down, bank_that_takes_and_dies, rate, open_at_once]


def make_alone(check, files):
    """Makes a check that shares a branch over one of its own. (The certificate that the first try revoked is made anew.)"""
    files.certificates("teller", "lost")
    with contextlib.closing(Branch(files, check.__name__)) as branch:
        return check(branch)


def lanes_of(files, only):
    """The checks that are asked for, in lanes that are made beside one another."""
    shared = functools.cache(lambda: Branch(files, "branch"))
    chosen = lambda checks: [it for it in checks if is_chosen(it.__name__, only)]
    on_one = [Check(it.__name__, lambda it=it: it(shared()), again=lambda it=it: make_alone(it, files)) for it in chosen(ON_ONE)]
    if on_one or chosen([books_hold]):
        on_one.append(Check(books_hold.__name__, lambda: books_hold(shared())))
    alone = lambda checks: [Check(it.__name__, functools.partial(it, files)) for it in chosen(checks)]
    return [it for it in (on_one, alone(BUSY), alone(NIGHTS), *(alone([it]) for it in WAITING)) if it]


def main():
    given, lacks = reader(__doc__, has_name=True).parse_args(), said_of(missing())
    only = only_of(given)

    def make(report):
        files = Files(given.program)
        try:
            files.make_certificates()
            report.make_lanes(lanes_of(files, only))
        finally:
            shutil.rmtree(files.top, ignore_errors=True)

    return run_named(given, [it._replace(lacks=lacks) for lane in lanes_of(None, only) for it in lane], make)


if __name__ == "__main__":
    sys.exit(main())
