"""The key that signs forms, kept beside the office's file, so that all processes of the service have the same."""
import fcntl
import secrets
from pathlib import Path

from ..files import write_whole

LEAST = 64


def is_whole(kept: Path) -> bool:
    """Whether there is a key, and no beginning of one."""
    return kept.exists() and len(kept.read_text(encoding="ascii")) >= LEAST


def form_key_of(file: Path) -> str:
    """The key beside a file, made where there is none. It gets its name once it is whole, and one process makes it."""
    kept = file.with_name("secret")
    with open(file.with_name("secret-lock"), "w", encoding="ascii") as lock:
        fcntl.flock(lock, fcntl.LOCK_EX)
        if not is_whole(kept):
            write_whole(kept, secrets.token_hex(LEAST // 2), 0o600)
        return kept.read_text(encoding="ascii")
