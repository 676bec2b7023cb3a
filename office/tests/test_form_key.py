"""The key that signs forms: whole, and one for all processes, whoever comes first."""
import multiprocessing
from multiprocessing.synchronize import Barrier
from pathlib import Path

from tespiorvu.office.form_key import form_key_of

STARTS = 300


def keys_of(folder: Path, gate: Barrier, found: "multiprocessing.Queue[tuple[int, str]]") -> None:
    """The key that a process has at each of these first starts."""
    for number in range(STARTS):
        gate.wait()
        found.put((number, form_key_of(folder / str(number) / "office")))


def test_three_hundred_first_starts_have_one_key_each(tmp_path: Path) -> None:
    for number in range(STARTS):
        (tmp_path / str(number)).mkdir()
    fork = multiprocessing.get_context("fork")
    gate, found = fork.Barrier(2), fork.Queue()
    pair = [fork.Process(target=keys_of, args=(tmp_path, gate, found)) for _ in range(2)]
    for one in pair:
        one.start()
    got = [found.get(timeout=300) for _ in range(2 * STARTS)]
    for one in pair:
        one.join()
    keys = {number: {key for at, key in got if at == number} for number in range(STARTS)}
    assert [number for number, both in keys.items() if len(both) != 1 or len(min(both)) != 64] == []
    assert len(set.union(*keys.values())) == STARTS


def test_a_key_that_was_cut_is_made_anew(tmp_path: Path) -> None:
    (tmp_path / "secret").write_text("")
    key = form_key_of(tmp_path / "office")
    assert (len(key), form_key_of(tmp_path / "office"), (tmp_path / "secret").stat().st_mode & 0o777) == (64, key, 0o600)
