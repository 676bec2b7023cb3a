"""Compares the lists of the folder sample/ with those that the tests of test_lists read.

    tools/pages/sample-lists

A test is given no files, so crates/test_lists/src/sample_lists.rt has the bytes of each list once more, as a constant of its
name.
"""
import ast
import os
import re
from pathlib import Path

from checks import Report, reader
from repository import TOP

FOLDER = os.path.join(TOP, "sample")
TESTED = os.path.join(TOP, "crates", "test_lists", "src", "sample_lists.rt")
CONSTANT = re.compile(r'const (\w+): &\[u8\] = (b".*?");', re.S)


def main():
    reader(__doc__, program=None, has_checks=False).parse_args()
    with open(TESTED, encoding="utf-8") as file:
        tested = {f"{name.lower()}.csv": ast.literal_eval(text) for name, text in CONSTANT.findall(file.read())}
    kept = {it.name: it.read_bytes() for it in Path(FOLDER).iterdir()}
    wrong = "not what the tests of test_lists read"
    names = sorted({*tested, *kept})
    return Report().add_all((f"sample/{it}", None if tested.get(it) == kept.get(it) else wrong) for it in names)
