"""Where a machine has what is a branch's and its office's.

At work BANK_ROOT is not set. For a test it names a folder that has a tree of its own for all of these places.
"""
import os
from pathlib import Path

ROOT = Path(os.environ.get("BANK_ROOT") or "/")
BANK, COPIES, SEALS = (ROOT / "var/lib" / it for it in ("bank", "bank-copies", "bank-seals"))
OFFICE_COPIES, OFFICE_TRAIL, OFFICE_MORNING = (ROOT / "var/lib" / f"bank-office-{it}" for it in ("copies", "trail", "morning"))
LOGS, BADGES = ROOT / "var/log/bank-front", ROOT / "etc/bank-badges.csv"
