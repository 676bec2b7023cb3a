"""The opening lists of a pair: six tellers, and what the office needs to pay interest."""
from pathlib import Path

from branch.tests import branches
from branch.tests.branches import TELLERS

# The office's badge, its user, drawer, and what pays; accounts that get interest, and the opening balance of each.
BADGE, USER, DRAWER, PAYS, PAID, OPENING = "office", 14, 90, 900, range(201, 401), 50_000
LISTS: dict[str, list[tuple[object, ...]]] = {
    "accounts": [*((it, 1, OPENING, 0) for it in PAID), (PAYS, 1, 0, -99_999_999)],
    "tellers": [(DRAWER, 1, OPENING * len(PAID))],
    "users": [(USER, "Office", 0)],
    "badges": [(BADGE, USER)],
    "sets": [(3, "account", PAID[0], PAYS), (3, "teller", DRAWER, DRAWER), (3, "branch", 1, 1), (3, "history", 1, 1),
             (3, "drawer", DRAWER, DRAWER), (3, "vault", 1, 1)],
    "relations": [(name, 3, 2) for name in ("transfer", "drawer-on", "drawer-off")],
    "triples": [(USER, "transfer", 3, 999_999), (USER, "drawer-on", 3, 0), (USER, "drawer-off", 3, 0)],
}


def write_lists(folder: Path) -> None:
    """The lists of six tellers, and what the office's runs need."""
    branches.write_lists(folder)
    for name, rows in LISTS.items():
        with open(folder / f"{name}.csv", "a", encoding="ascii") as file:
            file.writelines(",".join(map(str, row)) + "\n" for row in rows)
    count = OPENING * (len(TELLERS) + len(PAID))
    (folder / "branches.csv").write_text(f"branch,balance,cash\n1,{count},1000000\n")
