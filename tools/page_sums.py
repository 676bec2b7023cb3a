"""The pages of a bank's file, and the sums by which a damaged one shows: those of SQLite's extension cksumvfs
(ext/misc/cksumvfs.c).

A page ends in eight bytes: two numbers of 32 bits, the lowest byte first, over the numbers of 32 bits before them. Both begin
with 0. Over each two of those the first sum grows by the one and the second sum, and then the second sum by the other and the
first sum. The byte 20 of the file is 8 where its pages end so.
"""
import os
import struct

from checks import Wrong

SUM = 8
RESERVED_AT = 20


def sum_of(text):
    """The sum of these bytes."""
    first = second = 0
    numbers = struct.unpack(f"<{len(text) // 4}I", text)
    for one, other in zip(numbers[::2], numbers[1::2]):
        first = (first + one + second) % 2**32
        second = (second + other + first) % 2**32
    return struct.pack("<II", first, second)


def size_in(text):
    """How long a page is, by the head of a file."""
    size = int.from_bytes(text[16:18], "big")
    return 65536 if size == 1 else size


def says_sums(text: bytes | bytearray) -> bool:
    """Whether a file says that its pages end in sums."""
    return text[RESERVED_AT] == SUM


def pages_in(text):
    """The pages of a file."""
    size = size_in(text)
    return [text[at : at + size] for at in range(0, len(text), size)]


def sealed(page):
    """A page with its sum in the place of its last eight bytes."""
    return page[:-SUM] + sum_of(page[:-SUM])


def empty_file(size, has_sums):
    """The bytes of a database with no table in pages of this length."""
    used = size - SUM if has_sums else size
    head = b"SQLite format 3\0" + (1 if size == 65536 else size).to_bytes(2, "big") + bytes([2, 2, size - used, 64, 32, 32])
    counts = [0, 1, 0, 0, 1, 4, 0, 0, 1, *[0] * 9, 3_045_000]
    leaf = bytes([13, 0, 0, 0, 0]) + (used % 65536).to_bytes(2, "big")
    page = head + b"".join(it.to_bytes(4, "big") for it in counts) + leaf
    page += bytes(size - len(page))
    return sealed(page) if has_sums else page


def seal_file(file):
    """Ends each page of a file in its sum, which a program that keeps none has written."""
    with open(file, "r+b") as opened:
        size = size_in(opened.read(18))
        opened.seek(0)
        while page := opened.read(size):
            opened.seek(-len(page), os.SEEK_CUR)
            opened.write(sealed(page))


def require_pages(file: str, size: int, has_sums: bool) -> None:
    """Passes if the pages of a file are of this length and end in their sums, or say that they don't."""
    with open(file, "rb") as opened:
        text = opened.read()
    if (size_in(text), says_sums(text), len(text) % size) != (size, has_sums, 0):
        raise Wrong(f"its pages are of {size_in(text)} bytes, and {len(text)} bytes are there; byte {RESERVED_AT} is {text[RESERVED_AT]}")
    wrong = [number for number, it in enumerate(pages_in(text), 1) if has_sums and it != sealed(it)]
    if wrong:
        raise Wrong(f"these pages do not end in their sums: {wrong[:5]}")
