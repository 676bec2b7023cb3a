"""The opening lists of the office's day: two branches, fifty accounts, an account that pays interest, and people of all kinds."""
from collections.abc import Iterable
from pathlib import Path

from model.bank import OF_SUPERVISORS_ALONE, OF_TELLERS, PROCEDURES

USERS = {"olga": 1, "carl": 2, "cora": 3, "amy": 7, "ben": 8, "cai": 9, "sue": 13, "sam": 14, "kim": 15, "office": 50}
# The tellers of branch 1, at tellers 11 and 12; Cai is at teller 21 of branch 2, the service at 90 of branch 1.
TELLERS = ["amy", "ben"]
ACCOUNTS = range(101, 151)
PAYS = 900
OPENING, RICH = 50_000, 5_000_000
LIMIT, HIGHEST = 100_000, 999_999


def write_lists(folder: Path) -> None:
    """Writes all eight lists, and the badges."""
    folder.mkdir()

    def put(name: str, heading: str, records: Iterable[Iterable[object]]) -> None:
        lines = [heading, *(",".join(map(str, record)) for record in records)]
        (folder / f"{name}.csv").write_text("\n".join(lines) + "\n")

    local = [(it, 1, RICH if it == 150 else OPENING, 0) for it in ACCOUNTS]
    away = [(it, 2, OPENING, 0) for it in (201, 202, 203)]
    put("accounts", "account,home,balance,floor", [*local, *away, (PAYS, 1, 0, -999_999_999)])
    sums = sum(it[2] for it in local), sum(it[2] for it in away)
    put("branches", "branch,balance,cash", [(1, sums[0], 1_000_000), (2, sums[1], 1_000_000)])
    put("tellers", "teller,branch,balance", [(11, 1, sums[0]), (12, 1, 0), (21, 2, sums[1]), (90, 1, 0)])
    put("users", "user,name,officer", [(number, badge.capitalize(), int(badge == "olga")) for badge, number in USERS.items()])
    put("badges", "badge,user", USERS.items())
    put("certifiers", "user,procedure", [(user, name) for user in (2, 3) for name in PROCEDURES])
    put("sets", "set,kind,low,high", [
        *((1, kind, 1, 999) for kind in ("account", "teller", "branch", "history", "drawer", "vault")),
        (2, "account", 101, 199), (2, "account", 900, 900), (2, "teller", 11, 90), (2, "branch", 1, 1), (2, "history", 1, 1), (2, "drawer", 11, 90),
        (2, "vault", 1, 1), (3, "account", 101, 199)])  # fmt: skip
    relations = [(name, number) for number in (1, 2) for name in PROCEDURES if name != "accounts"]
    relations += [("accounts", 1), ("accounts", 3)]
    put("relations", "procedure,set,by", [(name, number, 2) for name, number in relations])
    # Here tellers open accounts, but with no overdraft.
    work = {it: LIMIT for it in OF_TELLERS if it != "accounts"} | {"new-account": 0}
    lead = {it: HIGHEST for it in OF_SUPERVISORS_ALONE if it != "new-account"} | {"statement": 0}
    runs = {"transfer": 999_999, "drawer-on": 0, "drawer-off": 0}
    put("triples", "user,procedure,set,limit", [
        *((USERS[badge], name, 1 if badge == "cai" else 2, limit) for badge in ("amy", "cai") for name, limit in work.items()),
        *((USERS["ben"], name, 2, HIGHEST if limit == LIMIT else limit) for name, limit in work.items()),
        *((USERS[badge], "accounts", 3, 0) for badge in TELLERS),
        *((USERS[badge], name, 1, limit) for badge in ("sue", "sam") for name, limit in lead.items()),
        *((USERS["office"], name, 2, limit) for name, limit in runs.items())])  # fmt: skip
