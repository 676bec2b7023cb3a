"""What must not meet in one hand, and who has it all the same, with the reason."""
from collections.abc import Iterator, Mapping

# As the office's settings have it, of which these are the pairs of operations.
APART = (
    ("post", "release"),
    ("transfer", "release"),
    ("correct", "release"),
    ("drawer-on", "close-day"),
    ("new-account", "transfer"),
)


def meeting(has: Mapping[str, set[str]], apart: tuple[tuple[str, str], ...]) -> Iterator[tuple[str, str, str]]:
    """The badges that may do both of a pair, with the pair."""
    for badge, procedures in has.items():
        for one, other in apart:
            if {one, other} <= procedures:
                yield badge, one, other
