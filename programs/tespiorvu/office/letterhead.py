"""What stands at the head of each paper of the bank: its name and address, its number in the public register, and a logo."""
import base64
from dataclasses import dataclass, fields
from pathlib import Path
from typing import Any

from .languages import LANGUAGES

KINDS = {".svg": "image/svg+xml", ".png": "image/png", ".jpg": "image/jpeg"}


@dataclass(frozen=True)
class Letterhead:
    """The table [letterhead] of the settings. `language` is that of papers for holders of whom the register has none."""

    name: str = ""
    address: str = ""
    register: str = ""
    logo: str = ""
    language: str = "en"


def letterhead_of(record: object) -> Letterhead:
    """The letterhead of a table. What is wrong in it is a ValueError with a sentence."""
    names = [it.name for it in fields(Letterhead)]
    if not isinstance(record, dict) or not set(record) <= set(names) or not all(isinstance(it, str) for it in record.values()):
        raise ValueError(f"it has {', '.join(names)}, each a text")
    found = Letterhead(**{name: text.strip() for name, text in record.items()})
    if found.language not in LANGUAGES:
        raise ValueError(f"language is {', '.join(LANGUAGES)}, and not {found.language!r}")
    if found.logo and Path(found.logo).suffix not in KINDS:
        raise ValueError(f"logo is a file that ends in {', '.join(KINDS)}, and not {found.logo!r}")
    return found


def logo_of(head: Letterhead) -> str:
    """The logo as an address that has it whole, as a paper asks for nothing elsewhere."""
    if not head.logo:
        return ""
    file: Any = Path(head.logo)
    return f"data:{KINDS[file.suffix]};base64,{base64.b64encode(file.read_bytes()).decode()}"
