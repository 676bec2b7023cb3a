"""Whether the bank would let the office's own badge carry out a run, by the newest copy, before two persons approve it."""
from ..policy import Operation, amount_of, may, touched
from .copies import Copy
from .interest import Transfer
from .languages import Sentence, Term
from .settings import Scheme
from .store import Refused, now


def require_teller(copy: Copy, scheme: Scheme) -> None:
    """Refuses a teller that is not of the branch."""
    found = copy.row("SELECT branch FROM tellers WHERE teller = ?", scheme.teller)
    if found is None or found["branch"] != scheme.branch:
        where = Sentence("is of branch {branch}", branch=found["branch"]) if found else Sentence("is of no branch")
        raise Refused("[[{kind}]] of branch {branch}: teller {teller} {where}; write a spare drawer of this branch",
                      kind=scheme.kind, branch=scheme.branch, teller=scheme.teller, where=where)  # fmt: skip


def require_account(copy: Copy, scheme: Scheme) -> None:
    """Refuses an account of the other side that is not there."""
    if copy.row("SELECT 1 FROM accounts WHERE account = ?", scheme.account) is None:
        raise Refused("[[{kind}]] of branch {branch}: there is no account {account}",
                      kind=scheme.kind, branch=scheme.branch, account=scheme.account)  # fmt: skip


def require_triple(copy: Copy, badge: str, user: int, operation: Operation) -> None:
    """Refuses what the user may not do."""
    procedure, items = operation["procedure"], touched(operation)
    if not may(copy.policy, user, procedure, items, now(), amount_of(operation)):
        numbers = (Sentence("{kind} {number}", kind=Term(it.name.lower()), number=number) for it, number in items)
        raise Refused("User {user} of the badge {badge} has no triple for {procedure} on {numbers}: a certifier grants it",
                      user=user, badge=badge, procedure=Term(procedure), numbers=tuple(numbers))  # fmt: skip


def require_rights(copy: Copy, badge: str, user: int, schemes: list[Scheme], transfers: list[Transfer]) -> None:
    """Refuses a run that the bank would refuse as a whole: by its teller, its account, or the rights of the office's badge."""
    for scheme in schemes:
        require_teller(copy, scheme)
        require_account(copy, scheme)
    branch, teller = schemes[0].branch, schemes[0].teller
    largest = max(transfers, key=lambda it: it.amount)
    numbers = {"amount": largest.amount, "source": largest.source, "target": largest.target}
    for name in ("drawer-on", "drawer-off", "transfer"):
        more = numbers if name == "transfer" else {"cash": 0}
        require_triple(copy, badge, user, {"procedure": name, "branch": branch, "teller": teller, **more})
