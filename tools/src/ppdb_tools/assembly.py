"""What is read of an assembly's methods: their names as C# writes them and as Mono prints them, and the types of their parameters
(ECMA-335 II.22.26, II.22.37, II.23.2). A file can name one long name for every row, so the names together are limited."""
import functools
from collections.abc import Iterator
from functools import cached_property

from ppdb_tools.errors import Damaged
from ppdb_tools.metadata import GENERIC_PARAM, METHOD_DEF, NESTED_CLASS, TYPE_DEF, TYPE_REF, Metadata, decoded
from ppdb_tools.numbers import Data
from ppdb_tools.pe import Image
from ppdb_tools.signatures import Names, Signature

# How deep types may be in one another.
DEEPEST = 64
# How many characters all names together may have: so many for each byte of the file, and some more.
SPARE = 1 << 23


class Assembly:
    """The methods of an assembly, and the identities of its module and of its debug file."""

    def __init__(self, data: Data) -> None:
        self.image = Image(data)
        self.metadata = Metadata(self.image)
        self.left = 2 * len(data) + SPARE

    @cached_property
    def identity(self) -> str:
        """The identity of the module, its MVID, as 32 digits in the order in which a GUID is printed."""
        return guid_digits(self.metadata.identity)

    @cached_property
    def debug_ids(self) -> list[bytes]:
        """The PDB IDs of the debug files that the debug directory names."""
        return [entry.pdb_id for entry in self.image.code_views]

    def counted(self, name: str) -> str:
        """A name, as long as all names together are not longer than the file explains."""
        self.left -= len(name)
        if self.left < 0:
            raise Damaged("the names of its methods are longer than the file explains")
        return name

    @cached_property
    def enclosing(self) -> dict[int, int]:
        """The row of the type that a nested type is in."""
        return {nested: outer for nested, outer in self.metadata.rows(NESTED_CLASS)}

    @cached_property
    def generics(self) -> dict[tuple[int, int], list[str]]:
        """The names of the generic parameters of each owner, a type or method by its table and row, in their order."""
        found: dict[tuple[int, int], list[str]] = {}
        for number, _, owner, name in sorted(self.metadata.rows(GENERIC_PARAM), key=lambda cells: (cells[2], cells[0])):
            found.setdefault(decoded("TypeOrMethodDef", owner), []).append(self.counted(self.metadata.text(name)))
        return found

    @cached_property
    def methods(self) -> list[tuple[int, int, int]]:
        """For each type with methods its row, its first method and the one after its last."""
        found, floor = [], 1
        for row, (start, end) in enumerate(self.metadata.ranges(TYPE_DEF, 5, METHOD_DEF), 1):
            if start < end:
                if start < floor:
                    raise Damaged(f"the methods of type {row} begin at {start}, among those of the type before it")
                floor = end
                found.append((row, start, end))
        return found

    def outside_in(self, row: int) -> list[int]:
        """A type and those that it is in, the outermost first."""
        found = [row]
        while outer := self.enclosing.get(found[-1], 0):
            found.append(outer)
            if len(found) > DEEPEST:
                raise Damaged(f"more than {DEEPEST} types are in one another")
        return found[::-1]

    def method_name(self, method: int) -> str:
        """The name of a method alone."""
        return self.metadata.text(self.metadata.row(METHOD_DEF, method)[3])

    def type_name(self, row: int) -> str:
        """The name of a type as C# writes it: types and their generic parameters, with dots between them."""
        names: list[str] = []
        before = 0
        for at in self.outside_in(row):
            _, name, namespace = self.metadata.row(TYPE_DEF, at)[:3]
            parameters = self.generics.get((TYPE_DEF, at), [])
            # A nested type has the parameters of the types around it first.
            own, before = parameters[before:], len(parameters)
            simple = self.metadata.text(name)
            if not names and namespace:
                names.append(self.metadata.text(namespace))
            names.append((simple.rpartition("`")[0] if own and "`" in simple else simple) + in_brackets(own))
        return self.counted(".".join(names))

    def names(self) -> dict[int, str]:
        """The whole name of each method, by its row."""
        found = {}
        for row, start, end in self.methods:
            before = self.type_name(row)
            for method in range(start, end):
                found[method] = self.counted(f"{before}.{self.method_name(method)}{in_brackets(self.generics.get((METHOD_DEF, method), []))}")
        return found

    @cached_property
    def printed(self) -> dict[str, list[tuple[int, int]]]:
        """The methods, each the row of its type and its own, by the names that Mono prints, without generic parameters."""
        found: dict[str, list[tuple[int, int]]] = {}
        for row, start, end in self.methods:
            before = self.printed_type(TYPE_DEF, row)
            for method in range(start, end):
                name = without_brackets(self.counted(f"{before}.{self.method_name(method)}"))
                found.setdefault(name, []).append((row, method))
        return found

    def printed_type(self, table: int, row: int) -> str:
        """The name of a type as Mono prints it: nested types follow a plus. A row of TypeSpec has none."""
        if table not in (TYPE_DEF, TYPE_REF):
            return "?"
        rows = list(self.references(row))[::-1] if table == TYPE_REF else [self.definition(at) for at in self.outside_in(row)]
        namespace = self.metadata.text(rows[0][1])
        return self.counted((f"{namespace}." if namespace else "") + "+".join(self.metadata.text(name) for name, _ in rows))

    def definition(self, row: int) -> tuple[int, int]:
        """The name and the namespace of a type."""
        _, name, namespace = self.metadata.row(TYPE_DEF, row)[:3]
        return name, namespace

    def references(self, row: int) -> Iterator[tuple[int, int]]:
        """The name and the namespace of a type of another assembly, and of those that it is in."""
        for _ in range(DEEPEST):
            scope, name, namespace = self.metadata.row(TYPE_REF, row)
            yield name, namespace
            table, row = decoded("ResolutionScope", scope)
            if table != TYPE_REF or not row:
                return
        raise Damaged(f"more than {DEEPEST} types are in one another")

    def parameters(self, kind: int, method: int) -> list[str]:
        """The types of the parameters of a method of a type, as Mono prints them."""
        names = Names(functools.cache(self.coded_type), self.generics.get((TYPE_DEF, kind), []), self.generics.get((METHOD_DEF, method), []))
        found = Signature(self.metadata.blob(self.metadata.row(METHOD_DEF, method)[4]), names).parameters()
        self.counted(" ".join(found))
        return found

    def coded_type(self, coded: int) -> str:
        """The name of a type that a signature names (II.23.2.8)."""
        return self.printed_type(*decoded("TypeDefOrRef", coded))


def guid_digits(data: bytes) -> str:
    """The 32 digits of a GUID of 16 bytes, in the order in which it is printed."""
    return data[3::-1].hex() + data[5:3:-1].hex() + data[7:5:-1].hex() + data[8:16].hex()


def in_brackets(names: list[str]) -> str:
    return f"<{', '.join(names)}>" if names else ""


def without_brackets(name: str) -> str:
    """A name without what is in square brackets, which may be in one another. A bracket without its partner stays."""
    if "[" not in name:
        return name
    kept: list[str] = []
    opened: list[int] = []
    for letter in name:
        if letter == "]" and opened:
            del kept[opened.pop():]
            continue
        if letter == "[":
            opened.append(len(kept))
        kept.append(letter)
    return "".join(kept)
