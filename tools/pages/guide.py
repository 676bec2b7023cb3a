"""Runs the lines of docs/GUIDE.md as they stand, and compares what they write with what follows them.

    tools/pages/guide [PROGRAM]

The lines are those of the blocks marked `sh`, which one shell carries out one after another, in a folder that begins like a clone
in which the program is built. What they write, to standard error too, has to be the block that follows, or nothing where none
does before the next lines. They need bash and curl; where there is no sqlite3, what Python has stands in for it.

Each block of lines is a check.
"""
import difflib
import os
import re
import shutil
import signal
import socket
import subprocess
import tempfile

from checks import Report, reader, refuse
from repository import BANK_PROGRAM, TOP

GUIDE = os.path.join(TOP, "docs", "GUIDE.md")
SECONDS = 600
BLOCK = re.compile(r"^```(\w*)\n(.*?)^```$", re.M | re.S)
END = "-- the end of block"
# What carries out `sqlite3 [-readonly] FILE SQL` where there is no such program.
SQLITE = """#!/usr/bin/env python3
import sqlite3, sys
*options, file, text = sys.argv[1:]
with sqlite3.connect(f"file:{file}" + "?mode=ro" * ("-readonly" in options), uri=True) as found:
    for row in found.execute(text):
        print(*row, sep="|")
found.close()
"""


def blocks_in(page):
    """The blocks of lines of a page, each with what has to be written."""
    found = BLOCK.findall(page)
    due = [text if not kind else "" for kind, text in found[1:]] + [""]
    return [(text, wanted) for (kind, text), wanted in zip(found, due) if kind == "sh"]


def make_clone(program, room):
    """Makes what the lines need of a clone in which the program is built, and returns the folder."""
    clone = os.path.join(room, "clone")
    for it in ("tools", "sample", "branch"):
        shutil.copytree(os.path.join(TOP, it), os.path.join(clone, it))
    shutil.copy2(os.path.join(TOP, "crates.txt"), clone)
    built = os.path.join(clone, "crates", BANK_PROGRAM, "out")
    os.makedirs(built)
    shutil.copy(program, built)
    os.rename(os.path.join(built, os.path.basename(program)), os.path.join(built, BANK_PROGRAM))
    return clone


def make_stand_in(room):
    """Makes a folder with what stands in for a program that is not there, and returns it."""
    folder = os.path.join(room, "programs")
    os.makedirs(folder)
    if not shutil.which("sqlite3"):
        with open(os.path.join(folder, "sqlite3"), "w", encoding="utf-8") as file:
            file.write(SQLITE)
        os.chmod(file.name, 0o755)
    return folder


def run_lines(program, lines, room):
    """What one shell writes that carries out these blocks of lines, block by block."""
    script = os.path.join(room, "lines")
    with open(script, "w", encoding="utf-8") as file:
        file.writelines(f"{it}echo '{END}'\n" for it in lines)
    words = {"cwd": make_clone(program, room), "stdin": subprocess.DEVNULL, "stderr": subprocess.STDOUT, "text": True}
    # (curl is kept from a proxy and from settings of one's own)
    own = {"PATH": make_stand_in(room) + os.pathsep + os.environ["PATH"], "LC_ALL": "C", "HOME": room, "no_proxy": "127.0.0.1"}
    words["env"] = {**os.environ, **own}
    # (what the lines leave running ends with their group)
    with subprocess.Popen(["bash", script], stdout=subprocess.PIPE, start_new_session=True, **words) as ran:
        try:
            output = ran.communicate(timeout=SECONDS)[0]
        except subprocess.TimeoutExpired:
            os.killpg(ran.pid, signal.SIGKILL)
            output = ran.communicate()[0] + f"(the lines had not ended after {SECONDS} seconds)\n"
        finally:
            try:
                os.killpg(ran.pid, signal.SIGKILL)
            except ProcessLookupError:
                pass
    return output.split(f"{END}\n")


def missing(program):
    """What the lines can't be run without, if it is not there."""
    if not os.path.isfile(program):
        return f"there is no program {program}: tools/build builds it"
    for it in ("bash", "curl"):
        if not shutil.which(it):
            return f"there is no {it}"
    with open(GUIDE, encoding="utf-8") as file:
        ports = set(re.findall(r"--port (\d+)", file.read()))
    for port in ports:
        with socket.socket() as tried:
            tried.setsockopt(socket.SOL_SOCKET, socket.SO_REUSEADDR, 1)
            try:
                tried.bind(("127.0.0.1", int(port)))
            except OSError as why:
                return f"port {port}: {why}"
    return None


def difference(wrote, wanted):
    """How what a block writes differs from what it has to write, or none if it does not."""
    pieces = difflib.unified_diff(wanted.splitlines(), wrote.splitlines(), n=2, lineterm="")
    return None if wrote == wanted else "\n    ".join(["..", *list(pieces)[2:]])


def main():
    program = reader(__doc__, has_checks=False).parse_args().program
    with open(GUIDE, encoding="utf-8") as file:
        known = blocks_in(file.read())
    lacks = missing(program)
    if lacks or not known:
        return refuse(lacks or "no lines")
    with tempfile.TemporaryDirectory(prefix="bank-guide-") as room:
        outputs = run_lines(program, [lines for lines, _ in known], room)
    # (an output less than there are blocks: the lines have ended before)
    outputs = [*outputs[:-1], *["(not written)"] * len(known)]
    named = [f"block {number}: {lines.splitlines()[0]}" for number, (lines, _) in enumerate(known, 1)]
    return Report().add_all((name, difference(wrote, wanted)) for name, (_, wanted), wrote in zip(named, known, outputs))
