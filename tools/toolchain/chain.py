"""The minutes of a build: those kept of each crate, the longest chain of crates, and how many minutes are left."""
import os

from repository import BENCHES, TOP

KEPT = os.path.join(TOP, "tools", "toolchain", "crate_minutes.txt")
# So many minutes at the kept pace are added to those of a build, so that its first crates do not set its pace alone.
STEADY_MINUTES = 2


def minutes_of(text):
    """The minutes of each crate, by a text that has a line for each."""
    lines = [line.partition("#")[0].split() for line in text.split("\n")]
    return {line[0]: float(line[1]) for line in lines if line}


def kept_minutes():
    """The minutes that are kept of each crate."""
    with open(KEPT, encoding="utf-8") as file:
        return minutes_of(file.read())


def proved_crates(uses):
    """The crates whose minutes are kept: all but those of tests and benchmarks."""
    return [it for it in uses if not it.startswith("test_") and it not in BENCHES]


def minutes_to_top(uses, minutes, crates):
    """The minutes of the longest chain from each of these crates up to one that none of them uses."""
    found = {}

    def visit(crate):
        if crate not in found:
            above = [visit(it) for it in crates if crate in uses[it]]
            found[crate] = minutes[crate] + max(above, default=0)
        return found[crate]

    for crate in crates:
        visit(crate)
    return found


def longest_chain(uses, minutes, crates):
    """The crates of the longest chain, each after the one that it uses."""
    left = minutes_to_top(uses, minutes, crates)
    chain, found = [], list(crates)
    while found:
        chain.append(max(found, key=left.get))
        found = [it for it in crates if chain[-1] in uses[it]]
    return chain


def ends(uses, minutes, crates, processors):
    """The minute at which each of these crates is due, as rt ci proves them: one on each processor, each once those that it
    uses are proved, and first those with the longest chain above them."""
    left, running, due, now = minutes_to_top(uses, minutes, crates), {}, {}, 0.0
    while len(due) < len(crates):
        waiting = [it for it in crates if it not in running and it not in due]
        ready = [it for it in waiting if all(used in due for used in uses[it] if used in left)]
        for crate in sorted(ready, key=left.get, reverse=True)[: processors - len(running)]:
            running[crate] = now + minutes[crate]
        now = min(running.values())
        for crate in [it for it, end in running.items() if end == now]:
            due[crate] = running.pop(crate)
    return due


def minutes_left(uses, minutes, took, began, processors):
    """How many minutes of a build of crates are left, by the minutes that are kept of each, those that each proved one took,
    if it was proved in this build, and those since each other one began. The pace of those is taken to go on."""
    anew = {it: own for it, own in took.items() if own is not None}
    pace = (sum(anew.values()) + STEADY_MINUTES) / (sum(minutes[it] for it in anew) + STEADY_MINUTES)
    left = {it: max(kept - began.get(it, 0) / pace, 0) for it, kept in minutes.items() if it not in took}
    return pace * max(ends(uses, left, list(left), processors).values(), default=0)
