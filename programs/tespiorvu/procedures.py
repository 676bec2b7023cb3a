"""The bank's procedures, as its description of requests has them (docs/openapi.json, which is installed beside this file)."""
import json
from pathlib import Path
from typing import Any

API: dict[str, Any] = json.loads(Path(__file__).with_name("openapi.json").read_text(encoding="utf-8"))
# In the order of their numbers in the bank's tables, which begin with 1.
PROCEDURES = tuple(path.removeprefix("/do/") for path in API["paths"] if path.startswith("/do/"))
NUMBERS = {name: number for number, name in enumerate(PROCEDURES, 1)}
NAMES = dict(enumerate(PROCEDURES, 1))


def schema_of(given: dict[str, Any]) -> dict[str, Any]:
    """A schema of the description, or the one to which it refers."""
    found: dict[str, Any] = API["components"]["schemas"][given["$ref"].rpartition("/")[2]] if "$ref" in given else given
    return found


def ranges_of(operation: dict[str, Any]) -> dict[str, tuple[int, int]]:
    """The members of an operation beside `procedure`, with the least and the greatest number of each."""
    members = {name: schema_of(it) for name, it in operation["properties"].items() if name != "procedure"}
    return {name: (it["minimum"], it["maximum"]) for name, it in members.items()}


# The operations that can be released.
RELEASED = {
    name: ranges_of(schema_of({"$ref": it}))
    for name, it in API["components"]["schemas"]["Release"]["properties"]["operation"]["discriminator"]["mapping"].items()
}
