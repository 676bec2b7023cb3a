"""What a process with the rights of an office's unit can reach; run by office/in-systemd in place of the service."""
import os
import socket

FOLDERS = ("/var/lib/bank", "/var/lib/bank-copies", "/etc/bank-front", "/var/log/bank-front", "/var/lib/bank-office-runs")
SOCKETS = ("/run/bank.socket", "/run/bank-office-approvals.socket")
KEY = "/etc/bank-office/office.key"


def tried(what: str, act: object) -> None:
    """Says whether an act was refused."""
    assert callable(act)
    try:
        act()
    except OSError:
        print("refused", what, flush=True)
    else:
        print("REACHED", what, flush=True)


def main() -> None:
    """Tries the sockets of the bank and of approvals, the bank's files and those of runs, the key by which runs act, and the copies
    for writing."""
    for place in SOCKETS:
        tried(place, lambda: socket.socket(socket.AF_UNIX).connect(place))
    tried(KEY, lambda: open(KEY))
    for folder in (*FOLDERS, "/run/dbus"):
        tried(folder, lambda: os.listdir(folder))
    tried("the list of badges", lambda: open("/etc/bank-badges.csv"))
    tried("writing a copy", lambda: open("/var/lib/bank-office-copies/present", "r+"))
    tried("writing a saved copy", lambda: open("/var/lib/bank-office/policy-log/saved/probe", "x"))
    tried("the front", lambda: socket.create_connection(("127.0.0.1", 443), 5))
    print("copies", os.listdir("/var/lib/bank-office-copies"), flush=True)


main()
