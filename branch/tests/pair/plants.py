"""Faults that are planted in a pair, each of which the trial has to find."""
from typing import NamedTuple


class Plant(NamedTuple):
    """A fault: what is done on each machine to plant it, the rounds that are to find it, the way to run a pair that it is a fault of,
    and whether the power switch says that a machine is off that is not."""

    name: str
    lines: tuple[str, ...]
    rounds: tuple[str, ...]
    way: str = "watch"
    has_false_switch: bool = False


LIBRARY = "/usr/lib/tespiorvu"
PLANTS = {it.name: it for it in (
    # A write is acknowledged before the other machine has it, 200 milliseconds away. DRBD refuses that beside its fencing, so
    # that goes, too.
    Plant("protocol-a",
          ("sed -i 's/protocol C;/protocol A;/; s/resource-and-stonith/resource-only/' /etc/drbd.d/bank.res && drbdadm adjust bank",
           "sed -i '/^DM_DISABLE/i modprobe sch_netem; tc qdisc add dev vec1 root netem delay 200ms' /usr/local/sbin/at-start",
           "modprobe sch_netem && tc qdisc add dev vec1 root netem delay 200ms"),
          ("power of the one that serves",)),
    # Fencing says that the other machine is off, and has not asked.
    Plant("always-off",
          ("printf '#!/bin/sh\\n' >/etc/bank-switch",),
          ("cut from each other",)),
    # The watch does not wait until this disk is known to be the newest, nor does the start ask for it.
    Plant("no-wait",
          (f"sed -i 's, ds:UpToDate/,,' {LIBRARY}/stand-by {LIBRARY}/serve-branch",),
          ("power of both, the old disk first",)),
    # A management board says that its machine is off, and it is not.
    Plant("false-board", (), ("a machine that hangs",), "pacemaker", has_false_switch=True),
    # What keeps the night where the branch is does not stand in Pacemaker's books.
    Plant("no-constraint",
          ("crm_resource -r night --locate; cibadmin -D -X '<rsc_colocation id=\"night-at-branch\"/>'; "
           "cibadmin -D -X '<rsc_order id=\"branch-before-night\"/>'; true",),
          ("planned move",), "pacemaker"),
    # A bank may start where the disk of both is not, and there is a file.
    Plant("no-assertion",
          ("rm -f /etc/systemd/system/bank.service.d/two-machines.conf; systemctl daemon-reload",
           "mountpoint -q /var/lib/bank || { mkdir -p /var/lib/bank && chown bank: /var/lib/bank && runuser -u bank -- bank_cli init "
           "/var/lib/bank/bank /srv/brought/lists; }"),
          ("a bank started where the branch stands by",), "pacemaker"),
)}
