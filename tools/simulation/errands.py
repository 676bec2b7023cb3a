"""What is tried beside a life, and has to leave the bank as it is: arguments, lists and files that are refused. And a
bank's file of an earlier schema version, which is migrated."""
import os
import shutil
import socket
import sqlite3
import tempfile
from collections.abc import Callable
from random import Random
from typing import TYPE_CHECKING

from checks import Wrong
from faults.earlier_files import CARRIED, EARLIER_VERSIONS, OTHER, SchemaVersion, Tables, make_earlier_file
from page_sums import RESERVED_AT, SUM, says_sums
from serving import HOST
from simulation.machine import CHANGES, HALF_AND_KILLED, KILLED, KILLED_AFTER
from simulation.table_rows import first_difference, rows_of_file

if TYPE_CHECKING:
    from simulation.life import Life

# What spoils the text of a list.
Spoil = Callable[[str], str]

OPENED = "bank_that_is_opened"
# The bit by which a file says that its pages end in sums.
NO_SUMS = 8 * RESERVED_AT + SUM.bit_length() - 1


def earlier_version(rng: Random) -> SchemaVersion:
    """An earlier schema version."""
    return rng.choice(EARLIER_VERSIONS)


# ---- a file of an earlier version


def make_earlier(life: "Life", version: SchemaVersion) -> None:
    """Makes the bank's file one of an earlier version: its tables, with the same rows."""
    with tempfile.TemporaryDirectory(dir=life.room) as room:
        schema = Tables(make_earlier_file(version.suite(), OPENED, room)[0]).schema
    rows = rows_of_file(life.file, life.room)
    rows["bank"] = [(1, EARLIER_VERSIONS.index(version) + 1, 0)]
    rows[version.triples] = rows["grants"] if version.has_moments else [it[:4] for it in rows["grants"]]
    os.remove(life.file)
    connection = sqlite3.connect(life.file)
    try:
        connection.executescript("".join(f"{sql};" for *_, sql in schema if sql))
        for name in (name for _, kind, name, _, _ in schema if kind == "table"):
            for row in rows[name]:
                connection.execute(f"INSERT INTO {name} VALUES ({', '.join('?' * len(row))})", row)
        connection.commit()
    finally:
        connection.close()


def upgrade(life: "Life", version: SchemaVersion) -> None:
    """Has the file be one of an earlier version and migrates it, which a kill or a loss of power may befall."""
    rng, machine = life.rng, life.machine
    make_earlier(life, version)
    life.fault = f"an upgrade of {version.name}"
    before = rows_of_file(life.file, life.room)
    words = [life.program, "upgrade", life.file]
    for _ in range(rng.randint(0, 3)):
        machine.arm_disk(rng.randint(1, 60), rng.choice((KILLED, HALF_AND_KILLED, KILLED_AFTER)), CHANGES)
        is_traced = rng.random() < 0.5
        said = machine.ended(words, life.file, 120, is_traced=is_traced)
        machine.disarm()
        if is_traced:
            life.fault += f": {machine.lose_power(life.file, rng)}"
        if said not in ((-9, b"", b""), CARRIED, OTHER):
            raise Wrong(f"upgrade ended with {said!r}")
        life.seen.add("upgrades that were killed", int(said[0] == -9))
        is_earlier = not first_difference(rows_of_file(life.file, life.room), before)
        if is_earlier and said == CARRIED:
            raise Wrong("upgrade said that the bank is carried over, and it is not")
        if not is_earlier:
            break
    is_earlier = not first_difference(rows_of_file(life.file, life.room), before)
    life.require_ended(["upgrade", life.file], CARRIED if is_earlier else OTHER)
    life.seen.add("upgrades")


# ---- what is refused


def spoiled_lists(life: "Life", name: str, spoil: Spoil) -> tuple[str, list[str]]:
    """The opening lists, one of which is spoiled, and a file that is not there."""
    folder = tempfile.mkdtemp(dir=life.room)
    lists = os.path.join(folder, "lists")
    shutil.copytree(os.path.join(life.room, "lists"), lists)
    path = os.path.join(lists, name)
    with open(path, encoding="ascii") as file:
        text = file.read()
    with open(path, "w", encoding="ascii") as file:
        file.write(spoil(text))
    return folder, ["init", os.path.join(folder, "bank"), lists]


def refuse_lists(life: "Life", name: str, spoil: Spoil, begin: bytes) -> None:
    """Has opening lists refused by a line that begins so."""
    folder, words = spoiled_lists(life, name, spoil)
    said = life.machine.ended([life.program, *words], life.file, 120)
    shutil.rmtree(folder)
    life.seen.add_exit(said[0], said[1])
    if said[0] != 1 or not said[1].startswith(begin) or said[2]:
        raise Wrong(f"init of spoiled lists ended with {said!r}")


def bad_record(life: "Life") -> None:
    """A record of a list."""
    refuse_lists(life, "accounts.csv", lambda text: text + "x,1,0,0\n", b"lists: accounts.csv, record ")


def bad_sums(life: "Life") -> None:
    """Sums that differ."""
    branch = next(iter(life.opening.bank.branches))
    refuse_lists(life, "accounts.csv", lambda text: text + f"{free_account(life)},{branch},1,0\n", b"books: condition A")


def free_account(life: "Life") -> int:
    """The number of an account that is not there at the opening."""
    return next(it for it in range(2, 10_000) if it not in life.opening.bank.accounts)


def bad_policy(life: "Life") -> None:
    """An officer who has a triple."""
    officer = life.opening.staff.officers[0]
    has_moments = any(it != type(it)(it.limit) for it in life.opening.bank.triples.values())
    row = f"{officer},post,1,0" + (",0,1" if has_moments else "") + "\n"
    refuse_lists(life, "triples.csv", lambda text: text + row, b"policy: ")


def refuse(life: "Life", words: list[str], status: int, line: bytes | None) -> None:
    """Has arguments or a file refused."""
    said = life.machine.ended([life.program, *words], life.file, 120)
    life.seen.add_exit(said[0], said[2])
    if said[0] != status or (line is not None and said[2] != line):
        raise Wrong(f"{words!r} ended with {said!r}; due is {status}, {line!r}")


def make_over(life: "Life") -> None:
    """A bank is made where one is."""
    refuse(life, ["init", life.file, os.path.join(life.room, "lists")], 3, b"file: not empty\n")


def check_nothing(life: "Life") -> None:
    """A file that is not there is checked."""
    refuse(life, ["check", os.path.join(life.room, "none")], 3, b"file: not read\n")


def check_another(life: "Life") -> None:
    """Another database is checked."""
    path = os.path.join(life.room, "another")
    if not os.path.exists(path):
        connection = sqlite3.connect(path)
        connection.execute("CREATE TABLE bank (id INTEGER)")
        connection.commit()
        connection.close()
    refuse(life, ["check", path], 3, b"file: not a bank\n")


def upgrade_again(life: "Life") -> None:
    """A bank of the present version is migrated."""
    refuse(life, ["upgrade", life.file], 3, b"file: other version\n")


def bad_arguments(life: "Life") -> None:
    """Arguments that are none."""
    refuse(life, ["serve", life.file, "--port", "0"], 2, None)


def port_of_another(life: "Life") -> None:
    """A port that another program has."""
    with socket.socket() as other:
        other.bind((HOST, 0))
        other.listen()
        words = ["serve", life.file, "--badges", life.badges, "--port", str(other.getsockname()[1]), "--requests", "1"]
        refuse(life, words, 3, b"stream: broken\n")


def flip(life: "Life") -> None:
    """A bit of a copy is flipped while nothing serves it, which has to be reported where its pages end in sums. Of a copy that
    then says that they don't, the rows are the same."""
    life.fault = "a bit that is flipped"
    path = os.path.join(life.room, "flipped")
    with open(life.file, "rb") as file:
        text = bytearray(file.read())
    if not says_sums(text):
        return
    at = life.rng.randrange(8 * len(text))
    text[at // 8] ^= 1 << at % 8
    with open(path, "wb") as file:
        file.write(text)
    said = life.machine.ended([life.program, "check", path], path, 120)
    life.seen.add_exit(said[0], said[2] or said[1])
    life.seen.add("bits flipped")
    if at == NO_SUMS:
        require_same(life, path)
    elif said[0] == 0:
        raise Wrong(f"bit {at % 8} of byte {at // 8} of {len(text)} is flipped, and check said {said!r}")


def require_same(life: "Life", path: str) -> None:
    """Goes through where a copy holds the rows of the file."""
    wrong = first_difference(rows_of_file(path, life.room), rows_of_file(life.file, life.room))
    if wrong:
        raise Wrong(f"a copy that says it has no sums: {wrong}")


ERRANDS = (bad_record, bad_sums, bad_policy, make_over, check_nothing, check_another, upgrade_again, bad_arguments, port_of_another)


def one(life: "Life") -> None:
    """One of them, after which the bank is as it was."""
    trial = life.rng.choice(ERRANDS)
    life.fault = f"an errand: {trial.__name__}"
    trial(life)
    life.require_rows("after an errand")
