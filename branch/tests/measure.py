"""Measures posts per second, and how long one takes, through the front and without it.

    branch/measure [PROGRAM [POSTS]]

A line of the output is a bank made anew, and that many posts
(2,000) of clients at once by ab: the posts per second; the milliseconds that half of them, and 99 of 100, took at most, and the
longest; and for how many milliseconds the processor worked for the bank and for the front on each. The front's limit of requests
per certificate is lifted.

Of six clients, three rounds of the bank alone and of the front with kept connections take turns, and the best of each counts: the
front has to reach 0.8 of the posts per second of the bank alone, and else the exit status is 1. It needs what branch/test needs,
and ab of Debian's apache2-utils.
"""
import encodings.idna  # noqa: F401 - loaded while the files of Python may be read
import json
import re
import shutil
import sys
from pathlib import Path

from branch.tests.branches import NO_RATE, Branch, Files, missing
from branch.tests.commands import lacking, run
from checks import reader, require

LEAST = 0.8
ROUNDS = 3


def worked(pid):
    """The seconds for which the processor has worked for a process."""
    return int(Path(f"/proc/{pid}/schedstat").read_text().split()[0]) / 1e9


def posting(branch, clients, posts, through_front, kept):
    """The arguments of an ab that sends that many posts of Amy."""
    body = branch.folder / "post.json"
    body.write_text(json.dumps(branch.post_of("amy")))
    both = branch.folder / "amy.both"
    both.write_bytes(b"".join((branch.files.top / f"ca/tellers/amy.{end}").read_bytes() for end in ("pem", "key")))
    command = ["ab", "-q", "-n", str(posts), "-c", str(clients), "-s", "200", "-p", body, "-T", "application/json",
               "-e", branch.folder / "times.csv", "-H", f"Bank-Session: {branch.sessions['amy']}"]
    if through_front:
        return [*command, *(["-k"] if kept else []), "-E", both, f"https://127.0.0.1:{branch.port}/do/post"]
    return [*command, "-H", "Bank-Badge: amy", "-H", "Connection: close", f"http://127.0.0.1:{branch.bank_port}/do/post"]


def measured(files, name, clients, posts, through_front=True, kept=True):
    """Prints the line of one bank, and returns its posts per second."""
    branch = Branch(files, name.replace(" ", "-").replace(",", "") + f"-{clients}", changes=NO_RATE, tcp=not through_front)
    try:
        command = posting(branch, clients, posts, through_front, kept)
        pids = {"bank": branch.bank.pid, "front": branch.workers().pop()}
        before = {who: worked(pid) for who, pid in pids.items()}
        said = run(*command, timeout=400)
        spent = {who: (worked(pid) - before[who]) / posts * 1000 for who, pid in pids.items()}
        require(re.findall(r"Non-2xx responses: +(\d+)", said), [], "posts that failed")
        rate = float(re.search(r"Requests per second: +([\d.]+)", said)[1])
        longest = re.search(r"100% +(\d+)", said)[1]
        times = dict(line.split(",") for line in (branch.folder / "times.csv").read_text().splitlines()[1:])
        most = "".join(f" {float(times[it]):8.2f}" for it in ("50", "99"))
        print(f"{name:32} {clients:7} {rate:8.0f}{most} {longest:>7} {spent['bank']:7.3f} {spent['front']:7.3f}", flush=True)
        return rate
    finally:
        branch.close()
        shutil.rmtree(branch.folder)


def main():
    arguments = reader(__doc__, has_checks=False)
    arguments.add_argument("posts", metavar="POSTS", nargs="?", type=int, default=2_000)
    given = arguments.parse_args()
    lacks = missing() + lacking({"ab": "apache2-utils"})
    if lacks:
        sys.exit(f"measure: there is no {', no '.join(lacks)}")
    files, posts = Files(given.program), max(given.posts, 100)
    try:
        files.make_certificates()
        print(f"{'':32} {'clients':>7} {'per s':>8} {'ms: half':>8} {'99 %':>8} {'longest':>7} {'bank':>7} {'front':>7}")
        alone, front = [], []
        for _ in range(ROUNDS):
            alone.append(measured(files, "bank alone, a connection each", 6, posts, through_front=False))
            front.append(measured(files, "front, kept connections", 6, posts))
        for clients in (1, 50):
            measured(files, "bank alone, a connection each", clients, posts, through_front=False)
            measured(files, "front, kept connections", clients, posts)
        for clients in (1, 6, 50):
            measured(files, "front, a connection each", clients, posts, kept=False)
    finally:
        shutil.rmtree(files.top, ignore_errors=True)
    ratio = max(front) / max(alone)
    print(f"six clients: {ratio:.2f} of the bank alone, and at least {LEAST} is wanted")
    return 0 if ratio >= LEAST else 1


if __name__ == "__main__":
    sys.exit(main())
