"""Accepts what the next check of a copy finds to differ from the copy before: after a restore, or once one knows why. As root. The
package has it as bank-accept.

    bank-accept [--by NAME] REASON

The next check says so once, with who and why and what differs; both stay with the copy, and the seal of the day bears them. NAME is
who accepts; if it is not given, it is who called sudo. A later word before the check replaces it.
"""
import argparse
import json
import os
import time

from ..files import become, write_whole
from ..places import COPIES

FILE = COPIES / "accept"
USER = "bank"


def main() -> int:
    """Writes who accepts, when and why."""
    reader = argparse.ArgumentParser(prog="bank-accept", description=__doc__, formatter_class=argparse.RawDescriptionHelpFormatter)
    reader.add_argument("--by", metavar="NAME", default=os.environ.get("SUDO_USER"), help="who accepts, if not who called sudo")
    reader.add_argument("reason", metavar="REASON")
    given = reader.parse_args()
    if not given.by or not given.reason.strip():
        reader.error("who accepts, and why, has to be said: --by NAME REASON")
    become(USER)
    said = {"moment": int(time.time()), "by": given.by, "reason": given.reason}
    write_whole(FILE, json.dumps(said) + "\n", 0o600)
    print("the next check accepts what differs")
    return 0
