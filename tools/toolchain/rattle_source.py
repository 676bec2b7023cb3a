"""Finds the functions of a source file: their names, as the prover prints them, and where their bodies stand."""
import re
from typing import NamedTuple

# What is no code, or would be taken for a bracket of it: comments, strings, characters.
NO_CODE = re.compile(r"//[^\n]*|/\*.*?\*/|b?\"(?:\\.|[^\"\\])*\"|b?'(?:\\[^'\n]+|\\'|[^'\\\n])'", re.S)
HEAD = re.compile(r"\bfn\s+(?P<fn>\w+)|\bimpl\b|\bmod\s+(?P<mod>\w+)\s*(?=\{)|\btrait\s+(?P<trait>\w+)")
CLAUSE = re.compile(r"\b(requires|ensures|ghost)\b[^{}]*$")
# What begins a clause of a function.
PROMISE = re.compile(r"\b(?:requires|ensures)\b")
CLOSED_BY = {"(": ")", "{": "}", "<": ">", "[": "]"}


class Function(NamedTuple):
    """A function with a body. `name` is its path below the crate; `head` is where its `fn` stands, and `start` and `end` are
    where its body does. It stands alone where it is neither a trait's nor of an impl of one, nor in a cycle of calls. In an
    impl of a trait, it is the method `of_trait`, as `Tally::share`. It has a clause where its head has one."""

    name: str
    head: int
    start: int
    end: int
    stands_alone: bool
    of_trait: str
    has_clause: bool


def blanked(text):
    """The text with blanks for what is no code; each character keeps its place."""
    return NO_CODE.sub(lambda found: re.sub(r"[^\n]", " ", found[0]), text)


def after_bracket(code, at):
    """The place after the bracket that closes the one at `at`."""
    opens, closes, depth = code[at], CLOSED_BY[code[at]], 0
    while at < len(code):
        is_arrow = code[at] == ">" and code[at - 1] in "-="
        depth += (code[at] == opens) - (code[at] == closes and not is_arrow)
        at += 1
        if not depth:
            return at
    raise ValueError("a bracket is not closed")


def end_of_head(code, at):
    """Where the head of the function ends whose name ends at `at`: at its body, or at the `;` of one that has none."""
    while code[at].isspace():
        at += 1
    if code[at] == "<":
        at = after_bracket(code, at)
    at = after_bracket(code, code.index("(", at))
    while True:
        found = re.compile(r"[{;[]").search(code, at)
        if not found:
            return len(code)
        if found[0] == ";" or found[0] == "{" and not CLAUSE.search(code, at, found.start()):
            return found.start()
        at = after_bracket(code, found.start())


def body_of(code, at):
    """Where the body of the function stands whose name ends at `at`, or none where it has none."""
    start = end_of_head(code, at)
    return (start, after_bracket(code, start)) if code[start : start + 1] == "{" else None


def last_words(path):
    """A type by its last names alone, as the prover names impls: `From<AllocFailed<T>>` as `FromAllocFailed`."""
    path = re.sub(r"'\w+\b,?", "", path).strip().lstrip("&").strip()
    name, _, given = path.partition("<")
    name = re.split(r"::|\s", name.strip())[-1]
    given = given.rpartition(">")[0]
    args = [it for it in re.split(r",(?![^<]*>)", given) if it.strip()]
    return name + "".join(last_words(it) for it in args if not re.fullmatch(r"\s*[A-Z]\s*", it))


def name_of_impl(header):
    """The name under which the prover lists the functions of a block: `impl Write for Tallied<W>` as `TalliedWrite`."""
    header = header[len("impl") :].strip()
    if header.startswith("<"):
        header = header[after_bracket(header, 0) :]
    header = re.split(r"\bwhere\b", header)[0]
    of, is_trait, what = header.partition(" for ")
    shown = what if is_trait else of
    kind = re.split(r"::|<", shown.strip().lstrip("&").strip())
    kind = last_words(shown).partition("<")[0] if len(kind) == 1 else re.split(r"::", shown.partition("<")[0].strip())[-1]
    return kind + (last_words(of) if is_trait else "")


def trait_of(header):
    """The name of the trait that a block is an impl of, or an empty one."""
    header = header[len("impl") :].strip()
    if header.startswith("<"):
        header = header[after_bracket(header, 0) :]
    of, is_trait, _ = header.partition(" for ")
    return re.split(r"::", of.partition("<")[0].strip())[-1] if is_trait else ""


def module_of(path):
    """The module that a file of src/ is."""
    return [it for it in re.sub(r"^src/|\.rt$", "", path).split("/") if it not in ("lib", "main", "mod")]


def homes_of(texts):
    """The module of each struct and enum of a crate, whose files' texts are given by their paths."""
    homes = {}
    for path, text in texts.items():
        for name in re.findall(r"\b(?:struct|enum)\s+(\w+)", blanked(text)):
            homes[name] = module_of(path)
    return homes


def functions(text, path, homes):
    """The functions of a file of src/, in the order in which they stand. A type's own are listed in its module."""
    code, found, module = blanked(text), [], module_of(path)

    def walk(at, end, above, is_free, trait):
        while True:
            head = HEAD.search(code, at, end)
            if not head:
                return
            at = head.end()
            if head["fn"]:
                body = body_of(code, at)
                if body:
                    name = "::".join([*above, head["fn"]])
                    attributes = code[code.rfind("}", 0, head.start()) + 1 : head.start()]
                    of_trait = trait and f"{trait}::{head['fn']}"
                    has_clause = bool(PROMISE.search(code, head.start(), body[0]))
                    stands_alone = is_free and "#[cycle" not in attributes
                    found.append(Function(name, head.start(), *body, stands_alone, of_trait, has_clause))
                    at = body[1]
                continue
            opened = code.find("{", head.start(), end)
            if opened < 0:
                return
            at = after_bracket(code, opened)
            header = code[head.start() : opened]
            name = head["mod"] or head["trait"] or name_of_impl(header)
            is_own = header.startswith("impl") and " for " not in header
            is_kept_free = is_own or head["mod"] is not None
            named = [*(homes.get(name, above) if is_own else above), name]
            of = trait_of(header) if header.startswith("impl") else ""
            walk(opened + 1, at - 1, named, is_free and is_kept_free, of)

    walk(0, len(code), module, True, "")
    return found


def promised(text):
    """The methods of the traits of a file that have a clause where they are declared, as `Tally::share`."""
    code, found = blanked(text), set()
    for trait in re.finditer(r"\btrait\s+(\w+)", code):
        opened = code.index("{", trait.end())
        for method in re.finditer(r"\bfn\s+(\w+)", code[opened : after_bracket(code, opened)]):
            end = opened + method.end()
            if PROMISE.search(code, end, end_of_head(code, end)):
                found.add(f"{trait[1]}::{method[1]}")
    return found


def changed_functions(old, new, path, homes):
    """The names of the functions whose bodies differ between two texts of a file, or none where more than bodies does."""
    try:
        before, after = functions(old, path, homes), functions(new, path, homes)
    except (ValueError, IndexError):
        return None
    if [it.name for it in before] != [it.name for it in after]:
        return None
    if without_bodies(old, before) != without_bodies(new, after):
        return None
    pairs = zip(before, after)
    return {it.name for it, made in pairs if old[it.start : it.end] != new[made.start : made.end]}


def copied(text, made, path, homes, name, copy, pairs):
    """The text `made`, which some functions of the text were changed to, with a copy of one of the functions after it, by
    another name and with these changes, each of an old text to a new one; or none where that can't be done."""
    was = next((it for it in functions(text, path, homes) if it.name == name), None)
    now = next((it for it in functions(made, path, homes) if it.name == name), None)
    if not was or not now or not was.stands_alone:
        return None
    body = text[was.start : was.end]
    for old, new in pairs:
        if body.count(old) != 1:
            return None
        body = body.replace(old, new)
    line = text.rfind("\n", 0, was.head) + 1
    while text.startswith("#[", text.rfind("\n", 0, line - 1) + 1):
        line = text.rfind("\n", 0, line - 1) + 1
    head = re.sub(rf"\bfn {name.split('::')[-1]}\b", f"fn {copy}", text[line : was.start], count=1)
    return f"{made[: now.end]}\n\n{head}{body}{made[now.end :]}"


def emptied(text, path, homes, names):
    """The text with a body that does nothing, and that fits any type, in each function of these names."""
    for it in reversed(functions(text, path, homes)):
        if it.name in names:
            text = f"{text[: it.start]}{{ loop {{}} }}{text[it.end :]}"
    return text


def without_bodies(text, found):
    """The text of a file without the bodies of its functions, its imports, its comments and its blanks."""
    at, kept = 0, []
    for it in found:
        kept.append(text[at : it.start])
        at = it.end
    rest = "".join([*kept, text[at:]])
    return re.sub(r"//[^\n]*|^use [^;]*;|\s+", "", rest, flags=re.M)


def calls_in(texts, homes):
    """The functions of a crate that each of its functions may call, whose files' texts are given by their paths: those whose
    last name stands in its body as that of a call does."""
    found = [(it, blanked(text)[it.start : it.end]) for path, text in texts.items() for it in functions(text, path, homes)]
    named = {}
    for it, _ in found:
        named.setdefault(it.name.split("::")[-1], set()).add(it.name)
    called = lambda body: re.findall(r"\b(\w+)\s*(?:::\s*<[^;{}]*>\s*)?\(", body)
    return {it.name: set().union(*(named.get(word, ()) for word in called(body))) for it, body in found}


def reached(calls, names):
    """These functions of a crate and all that they may call, one through another."""
    left, found = [*names], set()
    while left:
        name = left.pop()
        if name not in found:
            found.add(name)
            left += calls.get(name, ())
    return found
