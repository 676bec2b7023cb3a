"""What must not meet in one hand: pairs of procedures and of offices, by settings.toml, and who has both of one."""
from collections.abc import Iterable, Mapping

from ..procedures import NAMES, PROCEDURES

from .copies import Copies, Copy
from .languages import Term
from .settings import OFFICES, Settings
from .store import Refused

assert not set(PROCEDURES) & set(OFFICES)


def has_of(copy: Copy, settings: Settings, user: int, badges: Iterable[str]) -> set[str]:
    """What a user has: the procedures of their triples, and their offices, as an officer, a certifier, a keeper, an approver."""
    found = {NAMES[it[0]] for it in copy.rows("SELECT DISTINCT procedure FROM grants WHERE user_no = ?", user)}
    own = set(badges)
    offices = {
        "officer": copy.row("SELECT 1 FROM users WHERE user_no = ? AND officer = 1", user) is not None,
        "certifier": copy.row("SELECT 1 FROM certifiers WHERE user_no = ?", user) is not None,
        "keeper": not own.isdisjoint(settings.keepers),
        "approver": not own.isdisjoint(settings.approvers),
    }
    return found | {name for name, has in offices.items() if has}


def pairs_of(settings: Settings, has: set[str]) -> list[tuple[str, str]]:
    """The pairs that meet in what somebody has."""
    return [pair for pair in settings.apart if has.issuperset(pair)]


def own_badges(badges: Mapping[str, int], user: int) -> list[str]:
    """The badges of a user."""
    return [badge for badge, number in badges.items() if number == user]


def pairs_by_user(copy: Copy, settings: Settings, badges: Mapping[str, int]) -> list[tuple[int, str, str]]:
    """Every pair that meets, with whose hand it is."""
    found = list[tuple[int, str, str]]()
    for (user,) in copy.rows("SELECT user_no FROM users ORDER BY user_no"):
        found += [(user, *pair) for pair in pairs_of(settings, has_of(copy, settings, user, own_badges(badges, user)))]
    return found


def require_apart(settings: Settings, approvers: Iterable[str]) -> None:
    """Refuses approvers of whom one has, by the newest copy, what must not meet in one hand."""
    copies = Copies(settings.copies)
    if not settings.apart or not copies.has_present():
        return
    badges = copies.badges()
    with copies.present() as copy:
        for badge in sorted(set(approvers) & set(badges)):
            has = has_of(copy, settings, badges[badge], own_badges(badges, badges[badge]))
            for one, other in pairs_of(settings, has):
                raise Refused("{badge} approves runs, and has {one} and {other}, which settings.toml keeps apart",
                              badge=badge, one=Term(one), other=Term(other))  # fmt: skip
