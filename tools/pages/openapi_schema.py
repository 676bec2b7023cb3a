"""What docs/openapi.json says of values: whether it allows one, and values at the ends of what it allows and one past them.

Only some keys of schemas are read, of those that OpenAPI 3.0 has, as generators of today take it. `fault_of_schema` reports a schema
that has others, or that leaves an end open. Members of an object that may be left out are there together or not at all, which 3.0 has
no word for.
"""
import json
import re

JSON = "application/json"
# The keys of schemas that are read here. The first say what a value is, the last explain.
READ = {"type", "minimum", "maximum", "minLength", "maxLength", "pattern", "enum", "required", "properties"}
READ |= {"additionalProperties", "items", "minItems", "maxItems", "oneOf", "discriminator", "description", "example"}
# A text whose letters are all between two.
BETWEEN = re.compile(r"\^\[(.)-(.)\]\*\$")
TYPES = {"integer": int, "string": str, "boolean": bool, "object": dict, "array": list}


class Raw(str):
    """Text that stands in a body as it is."""


def text_of(value):
    """The JSON text of a value, its members in the order of their names."""
    if isinstance(value, Raw):
        return str(value)
    if isinstance(value, dict):
        return "{" + ",".join(f"{json.dumps(name)}:{text_of(value[name])}" for name in sorted(value)) + "}"
    if isinstance(value, list):
        return "[" + ",".join(text_of(it) for it in value) + "]"
    return json.dumps(value)


class Document:
    """The file. A reference means what it names."""

    def __init__(self, path):
        with open(path, encoding="utf-8") as file:
            self.root = json.load(file)
        self.named = set(self.names_in(self.root))

    def names_in(self, node):
        """What a node refers to, and what stands in it."""
        if isinstance(node, dict) and "$ref" in node:
            yield node["$ref"]
        for it in node.values() if isinstance(node, dict) else node if isinstance(node, list) else []:
            yield from self.names_in(it)

    def at(self, node):
        """What a node says, or what the reference says that stands there."""
        while "$ref" in node:
            steps, node = node["$ref"][2:].split("/"), self.root
            for it in steps:
                node = node[it]
        return node

    def operations(self):
        """Each path with its method and what the file says of both."""
        for path, methods in self.root["paths"].items():
            for method, said in methods.items():
                yield path, method.upper(), said

    def body_of(self, said):
        """What the file says of the body of a request, if it has one."""
        return said["requestBody"]["content"][JSON] if "requestBody" in said else None

    def words_under(self, node):
        """All descriptions of a node and of what it refers to."""
        if isinstance(node, list):
            return " ".join(self.words_under(it) for it in node)
        if not isinstance(node, dict):
            return ""
        node = self.at(node)
        own = node.get("description", "")
        return " ".join([own if isinstance(own, str) else "", *(self.words_under(it) for it in node.values())])


def fault_of_schema(document, schema):
    """Why a schema can't be tried at its ends, if so."""
    if set(schema) - READ:
        return f"words that are not read: {', '.join(sorted(set(schema) - READ))}"
    kind = schema.get("type")
    if kind == "integer" and not ({"minimum", "maximum"} <= set(schema) or "enum" in schema):
        return "a number without a least or a greatest"
    if kind == "string" and "pattern" in schema and not BETWEEN.fullmatch(schema["pattern"]):
        return f"a pattern that is not read: {schema['pattern']}"
    if kind == "object" and schema.get("additionalProperties", True):
        return "an object whose members are not exactly those that it names"
    if kind == "object" and left_out(schema) and "or neither" not in schema.get("description", ""):
        return "members that may be left out, and no word that they are there together"
    if "example" in schema and not admits(document, schema, schema["example"]):
        return f"an example that it doesn't allow: {text_of(schema['example'])}"
    return None


def left_out(schema):
    """The members of an object that may be left out."""
    return set(schema["properties"]) - set(schema["required"])


def admits_names(schema, names):
    """Whether a schema of objects allows members of these names."""
    return names - left_out(schema) == set(schema["required"]) and names & left_out(schema) in (set(), left_out(schema))


def admits_text(schema, value):
    """Whether a schema of texts allows one."""
    least, most = letters_of(schema)
    lengths = schema.get("minLength", 0) <= len(value) <= schema.get("maxLength", len(value))
    return lengths and all(least <= it <= most for it in value)


def letters_of(schema):
    """The least and the greatest letter of a schema of texts."""
    return BETWEEN.fullmatch(schema["pattern"]).groups() if "pattern" in schema else ("\0", "\U0010ffff")


def admits_list(document, schema, value):
    """Whether a schema of lists allows one."""
    return schema["minItems"] <= len(value) <= schema["maxItems"] and all(admits(document, schema["items"], it) for it in value)


def is_of_type(kind, value):
    """Whether a value is of a type of schemas."""
    return isinstance(value, TYPES[kind]) and not (kind == "integer" and isinstance(value, bool))


def admits(document, schema, value):
    """Whether a schema allows a value."""
    schema = document.at(schema)
    if "oneOf" in schema:
        return sum(admits(document, it, value) for it in schema["oneOf"]) == 1
    kind = schema["type"]
    if not is_of_type(kind, value) or value not in schema.get("enum", [value]):
        return False
    if kind == "integer" and "minimum" in schema:
        return schema["minimum"] <= value <= schema["maximum"]
    if kind == "string":
        return admits_text(schema, value)
    if kind == "array":
        return admits_list(document, schema, value)
    if kind == "object":
        of_names = schema["properties"]
        return admits_names(schema, set(value)) and all(admits(document, of_names[it], value[it]) for it in value)
    return True


class Variant:
    """A value of a body: what it shows, and whether the file allows it."""

    def __init__(self, what, value, is_good):
        self.what = what
        self.value = value
        self.is_good = is_good

    def within(self, name, around):
        """The same in a place of a larger value."""
        return Variant(f"{name}: {self.what}", around(self.value), self.is_good)


def all_good(values):
    """Values that the file allows."""
    return [Variant(str(it), it, True) for it in values]


def all_bad(values):
    """Values that it doesn't allow."""
    return [Variant(repr(it), it, False) for it in values]


def numbers(schema):
    """A whole number at both ends and past them, and ways to write one that are none."""
    least, most = schema["minimum"], schema["maximum"]
    digits = abs(most or least)
    written = [f"{digits}.0", f"{digits}e0", f"0{digits}", f"+{digits}", f'"{digits}"', "-0", "null", "true", "[]"]
    past = [least - 1, most + 1, 2**63, 2**64, -(2**63) - 1]
    return all_good([least, most]) + all_bad(past + [Raw(it) for it in written])


def texts(schema):
    """A text at both ends of its length and of its letters, and past them; or each of a choice, and others."""
    others = all_bad([Raw(it) for it in ("null", "0", "true", "[]")])
    choice = schema.get("enum")
    if choice:
        first = choice[0]
        return all_good(choice) + all_bad(["", "x", first.upper(), first + " ", first[:-1]]) + others
    (least, most), shortest, longest = letters_of(schema), schema["minLength"], schema["maxLength"]
    good = [it * length for it in (least, most) for length in (shortest, longest)]
    past = [most * (shortest - 1), most * (longest + 1)]
    past += ["a" + it for it in (chr(ord(least) - 1), chr(ord(most) + 1), "\u00e9")]
    return all_good(good) + all_bad(past) + others


def lists(document, schema, example):
    """A list at both ends of its length, and past them, and with items varied: the last, and the others past what the file allows, as
    what a place of its own allows is said in its description."""
    for place, it in enumerate(example):
        for variant in variants(document, schema["items"], it):
            if place + 1 == len(example) or not variant.is_good:
                yield variant.within(f"item {place + 1}", lambda value, at=place: [*example[:at], value, *example[at + 1 :]])
    least, most = schema["minItems"], schema["maxItems"]
    for length in (least, most, least - 1, most + 1):
        yield Variant(f"{length} items", (example * (most + 1))[:length], least <= length <= most)
    yield from all_bad([Raw(it) for it in ("null", "0", "{}")])


def objects(document, schema, example):
    """An object with each of its members varied and left out, with one more, and with one of another name."""
    names = left_out(schema)
    if names:
        yield Variant(f"{', '.join(sorted(names))} left out", {it: example[it] for it in schema["required"]}, True)
        example = schema["example"]
    for name, it in schema["properties"].items():
        for variant in variants(document, it, example[name]):
            yield variant.within(name, lambda value, at=name: {**example, at: value})
        less = {at: value for at, value in example.items() if at != name}
        yield Variant(f"{name} left out", less, False)
        yield Variant(f"{name.upper()} for {name}", {**less, name.upper(): example[name]}, False)
    yield Variant("a member more", {**example, "more": 0}, False)
    yield from all_bad([Raw(it) for it in ("null", "0", "[]", "{}")])


def choices(document, schema, example):
    """An object that is one of several by its `procedure`: the example of each, and that varied; and one that is none."""
    for it in map(document.at, schema["oneOf"]):
        own = it["example"]
        yield Variant(f"as {own['procedure']}", own, True)
        # (a procedure in place of another is tried once, below)
        yield from (found for found in objects(document, it, own) if not found.what.startswith("procedure: "))
    yield from (Variant(f"procedure {it!r}", {**example, "procedure": it}, False) for it in ("balance", "x", "", 1))


def variants(document, schema, example):
    """Values that a schema allows and that it doesn't, each other than an example in one place."""
    schema = document.at(schema)
    if "oneOf" in schema:
        return choices(document, schema, example)
    kind = schema["type"]
    if kind == "integer":
        return numbers(schema)
    if kind == "string":
        return texts(schema)
    if kind == "boolean":
        return all_good([True, False]) + all_bad([Raw(it) for it in ("0", "1", "null", '"true"', '""')])
    return (lists if kind == "array" else objects)(document, schema, example)
