"""The power switch, at 10.0.0.254 in the office's network: it turns a machine off or on, and says whether it has power."""
import http.server
import threading
import time
from typing import NamedTuple

from branch.tests.pair.machines import Machine, say

ADDRESS = ("10.0.0.254", 80)


class Order(NamedTuple):
    """An order that a machine gave to the switch, and when."""

    moment: float
    what: str
    name: str
    by: str


class Switch:
    """The power switch of some machines, which keeps what it was asked for."""

    def __init__(self, machines: dict[str, Machine]) -> None:
        self.machines, self.orders = machines, list[Order]()
        # Machines that it says are off, and that have power still: a fault that can be planted.
        self.is_false, self.said_off = False, set[str]()
        switch = self

        class Handler(http.server.BaseHTTPRequestHandler):
            """Replies with `on` or `off` to /on/NAME, /off/NAME and /status/NAME."""

            def do_GET(self) -> None:
                """One order."""
                _, what, name = self.path.split("/")
                if name not in switch.machines:
                    self.send_error(404)
                    return
                reply = switch.carry_out(what, name, self.client_address[0])
                self.send_response(200)
                self.end_headers()
                self.wfile.write(reply)

            def log_message(self, *_: object) -> None:
                """Nothing is logged."""
        server = http.server.ThreadingHTTPServer(ADDRESS, Handler)
        threading.Thread(target=server.serve_forever, daemon=True).start()

    def carry_out(self, what: str, name: str, by: str) -> bytes:
        """Turns a machine on or off, if that is asked, and returns what it is."""
        machine = self.machines[name]
        if what in ("on", "off"):
            self.orders.append(Order(time.monotonic(), what, name, by))
            say(f"the switch turns {name} {what}, for {by}")
            if not self.is_false:
                getattr(machine, what)()
            elif what == "off":
                self.said_off.add(name)
        return b"on\n" if machine.is_on() and name not in self.said_off else b"off\n"

    def turned_off(self, since: float) -> list[Order]:
        """The orders to turn a machine off from a moment on."""
        return [it for it in self.orders if it.moment >= since and it.what == "off"]
