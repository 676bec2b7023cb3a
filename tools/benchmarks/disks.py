"""Takes posts per second by how long a sync of the disk takes.

    tools/benchmarks/disks [--syncs MICROSECONDS ..] [--clients N ..] [--posts N] [PROGRAM]

PROGRAM is crates/bank_cli/out/bank_cli if it is left out. `counter` serves a sample bank in memory's own file system, /dev/shm, where
a sync takes nothing, and a library that the loader puts before the C library (faults/slow_syncs.c) has each take so long. Each client
sends its next post once the reply before has come. A line for each length has the posts per second for each number of clients; the last
one is of the disk of TMPDIR, as it is. A sync over a pair of machines takes the longer one of both disks, and the way there and back.
"""
import os
import tempfile

from benchmarks.peers import rate
from checks import Wrong, reader
from preload import preloaded
from repository import are_built
from sample_file import copy_bank, make_sample
from serving import Counter

SYNCS, CLIENTS, POSTS = (0, 100, 1_000, 5_000, 10_000), (1, 6, 50), 500


def rates(program: str, sample: str, folder: str, clients: tuple[int, ...], posts: int, library: str = "") -> str:
    """Posts per second by each number of clients, over copies of a bank in a folder."""
    env = {**os.environ, "LD_PRELOAD": library} if library else None
    found = []
    for count in clients:
        copy_bank(sample, os.path.join(folder, "bank"))
        with Counter(program, os.path.join(folder, "bank"), env=env) as serving:
            found.append(rate(serving.port, count, posts))
            serving.require_done()
    return ", ".join(f"{it:.0f}" for it in found)


def measure(program: str, syncs: tuple[int, ...], clients: tuple[int, ...], posts: int) -> None:
    """Prints a line for each length of a sync, and one for the disk."""
    with tempfile.TemporaryDirectory(prefix="bank-disks-") as disk, tempfile.TemporaryDirectory(prefix="bank-disks-", dir="/dev/shm") as memory:
        sample = os.path.join(memory, "sample")
        make_sample(program, sample)
        print(f"posts per second of {', '.join(map(str, clients))} clients")
        for length in syncs:
            library = preloaded("faults/slow_syncs.c", memory, f"-DMICROSECONDS={length}") if length else ""
            print(f"a sync of {length} microseconds: {rates(program, sample, memory, clients, posts, library)}", flush=True)
        print(f"the disk of {tempfile.gettempdir()}: {rates(program, sample, disk, clients, posts)}", flush=True)


def main() -> int:
    arguments = reader(__doc__, has_checks=False)
    arguments.add_argument("--syncs", type=int, nargs="+", default=SYNCS)
    arguments.add_argument("--clients", type=int, nargs="+", default=CLIENTS)
    arguments.add_argument("--posts", type=int, default=POSTS)
    given = arguments.parse_args()
    if not are_built(given.program):
        return 1
    try:
        measure(given.program, tuple(given.syncs), tuple(given.clients), given.posts)
    except Wrong as wrong:
        print(f"FAILED {wrong}")
        return 1
    return 0
