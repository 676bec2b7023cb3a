"""The networks of the trial, as bridges of a namespace: of the office, where tellers, the power switch and both machines are; of the
disks, from one machine to the other; and one that is never cut, by which the trial looks at each machine."""
import contextlib
from collections.abc import Iterable

from checks import Wrong
from branch.tests.commands import run

NETWORKS = ("office", "disks", "trial")


def build(names: Iterable[str]) -> None:
    """Makes the bridges, and each machine's plugs."""
    run("ip", "link", "set", "lo", "up")
    for number, network in enumerate(NETWORKS):
        run("ip", "link", "add", network, "type", "bridge")
        run("ip", "link", "set", network, "gso_max_segs", "1", "up") # larger frames are lost on the way in
        if network != "disks":
            run("ip", "address", "add", f"10.0.{number}.254/24", "dev", network)
        for name in names:
            run("ip", "tuntap", "add", f"{name}-{network}", "mode", "tap")
            plug(network, name, True)


def plug(network: str, name: str, is_in: bool) -> None:
    """Puts a machine's plug into a network, or takes it out."""
    run("ip", "link", "set", f"{name}-{network}", *(("master", network, "up") if is_in else ("nomaster",)))


def apart(network: str, names: Iterable[str], is_apart: bool) -> None:
    """Whether machines reach all others of a network, but not each other."""
    for name in names:
        run("ip", "link", "set", f"{name}-{network}", "type", "bridge_slave", "isolated", "on" if is_apart else "off")


def mend(names: Iterable[str]) -> None:
    """All plugs are in, and everybody reaches everybody."""
    for network in NETWORKS:
        for name in names:
            plug(network, name, True)
        with contextlib.suppress(Wrong):
            apart(network, names, False)
