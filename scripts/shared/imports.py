"""What a file of definitions, proofs or contracts imports: `use Rattle.low.specs.{Part.{one, two as three}, Other.four}` and its like."""
import re
from collections.abc import Iterator
from typing import NamedTuple

USE = re.compile(r"^[ \t]*(pub )?(?:ghost )?use ([\w.]+?)(?:\.\{|(?: as (\w+))?;?$)", re.M)
TREE = re.compile(r"([\w.]+)\.\{(.*)\}", re.S)
NAMED = re.compile(r"([\w.]+)\.([^.]+)")
WORD = r"[\w'⁺⁻₀-₉-]"


class Import(NamedTuple):
    """A name that is imported: its module's path, the name there (None: the module itself), and the name here."""

    path: str
    name: str | None
    here: str
    is_passed_on: bool


def closing(text: str, at: int) -> int:
    """Where the list in braces that begins before a place ends."""
    depth = 1
    while depth and at < len(text):
        depth += (text[at] == "{") - (text[at] == "}")
        at += 1
    return at


def parts(text: str) -> Iterator[str]:
    """The parts of a list, split at the commas that are in no braces of its own."""
    depth, begin = 0, 0
    for at, letter in enumerate(text + ","):
        depth += (letter == "{") - (letter == "}")
        if letter == "," and depth == 0:
            if text[begin:at].strip():
                yield text[begin:at].strip()
            begin = at + 1


def leaves(path: str, text: str) -> Iterator[tuple[str, str, str]]:
    for part in parts(text):
        tree = TREE.fullmatch(part)
        if tree:
            yield from leaves(f"{path}.{tree[1]}", tree[2])
            continue
        name, _, here = part.partition(" as ")
        inner = NAMED.fullmatch(name)
        yield f"{path}.{inner[1]}" if inner else path, inner[2] if inner else name, here or (inner[2] if inner else name)


def imports(text: str) -> list[Import]:
    """All that a text imports."""
    found = []
    for use in USE.finditer(text):
        if use[0].endswith("{"):
            for path, name, here in leaves(use[2], text[use.end():closing(text, use.end()) - 1]):
                found.append(Import(path, name, here, bool(use[1])))
        else:
            found.append(Import(use[2], None, use[3] or use[2].rpartition(".")[2], bool(use[1])))
    return found


def without_imports(text: str) -> str:
    """The text without the imports of names that it uses itself."""
    kept, at = [], 0
    for use in USE.finditer(text):
        if use[0].endswith("{") and not use[1]:
            kept.append(text[at:use.start()])
            at = closing(text, use.end())
    return "".join(kept) + text[at:]


def is_used(name: str, rest: str) -> bool:
    """Whether a name stands in a text; of an operator all its parts."""
    if "◌" not in name:
        return re.search(rf"(?<!{WORD}){re.escape(name)}(?!{WORD})", rest) is not None
    return all(part in rest for part in name.split("◌") if part)


def unused(text: str) -> list[str]:
    """The names that a file imports, from whatever module, and does not use."""
    rest = re.sub(r"^\s*--.*$|^\s*//.*$", "", without_imports(text), flags=re.M)
    # the steps of a `do` are joined by an operator that they do not name
    rest += " >>=" if re.search(r"\bdo$", rest, re.M) else ""
    return [it.here for it in imports(text) if it.name and not it.is_passed_on and not is_used(it.here, rest)]
