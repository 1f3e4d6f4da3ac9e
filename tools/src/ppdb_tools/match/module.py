"""A module as the matcher reads it: its types with their names and members, the types it refers to, and the bodies of its methods."""
from functools import cached_property

from ppdb_tools import metadata as tables
from ppdb_tools.errors import Damaged
from ppdb_tools.il import Body, body_at
from ppdb_tools.metadata import Metadata, decoded
from ppdb_tools.numbers import Data, compressed
from ppdb_tools.pe import Image

# Types may be nested in one another; no program has more levels.
DEEPEST = 64
INTERFACE_IMPL, MODULE_REF, EVENT, PROPERTY, EVENT_MAP, PROPERTY_MAP = 0x09, 0x1A, 0x14, 0x17, 0x12, 0x15
# How often the bytes of a file may be code.
MOST_SHARING = 4


class Module:
    """A module. Rows count from 1, so each list has an entry for row 0."""

    def __init__(self, data: Data, name: str) -> None:
        self.name = name
        self.metadata = Metadata(Image(data))
        self.texts: dict[int, str] = {}
        # How much code the methods have in total: each byte of a file is that of few methods.
        self.known: set[int] = set()
        self.spent = 0
        self.strings = self.metadata.image.stream("#US")
        self.types = self.all(tables.TYPE_DEF)
        self.fields, self.methods = self.all(tables.FIELD), self.all(tables.METHOD_DEF)
        self.references, self.members = self.all(tables.TYPE_REF), self.all(tables.MEMBER_REF)
        self.type_fields = self.owned(tables.TYPE_DEF, 4, tables.FIELD)
        self.type_methods = self.owned(tables.TYPE_DEF, 5, tables.METHOD_DEF)
        self.enclosing = {nested: outer for nested, outer in self.metadata.rows(tables.NESTED_CLASS)}

    def all(self, table: int) -> list[tuple[int, ...]]:
        """The rows of a table, after an entry for row 0."""
        return [(), *self.metadata.rows(table)]

    def owned(self, table: int, column: int, of: int) -> list[range]:
        """For each row of a table its rows of another one, by its list."""
        found = [range(0), *(range(*bounds) for bounds in self.metadata.ranges(table, column, of))]
        if sum(map(len, found)) > self.count(of):
            raise Damaged(f"rows of table {of:02x} have several owners")
        return found

    def count(self, table: int) -> int:
        return self.metadata.count(table)

    def text(self, at: int) -> str:
        found = self.texts.get(at)
        if found is None:
            found = self.texts[at] = self.metadata.text(at)
        return found

    @cached_property
    def assembly(self) -> str:
        """The name of the assembly, empty if the module has none."""
        return self.text(self.metadata.row(tables.ASSEMBLY, 1)[7]) if self.count(tables.ASSEMBLY) else ""

    @cached_property
    def assembly_references(self) -> list[str]:
        """The names of the assemblies to which the module refers."""
        return ["", *(self.text(cells[6]) for cells in self.metadata.rows(tables.ASSEMBLY_REF))]

    @cached_property
    def type_names(self) -> list[str]:
        """The whole names of the types: namespace and name, or the name after that of the type around it."""
        return ["", *(self._type_name(row, 0) for row in range(1, len(self.types)))]

    def _type_name(self, row: int, depth: int) -> str:
        if not 0 < row < len(self.types) or depth > DEEPEST:
            raise Damaged(f"the types around row {row} of TypeDef do not end")
        name, outer = self.text(self.types[row][1]), self.enclosing.get(row)
        if outer:
            return f"{self._type_name(outer, depth + 1)}/{name}"
        return joined(self.text(self.types[row][2]), name)

    @cached_property
    def reference_names(self) -> list[tuple[str, str]]:
        """For each row of TypeRef where the type is, the name of an assembly or module, empty for this one, and its whole name."""
        return [("", ""), *(self._reference_name(row, 0) for row in range(1, len(self.references)))]

    def _reference_name(self, row: int, depth: int) -> tuple[str, str]:
        if not 0 < row < len(self.references) or depth > DEEPEST:
            raise Damaged(f"the types around row {row} of TypeRef do not end")
        coded, name, namespace = self.references[row]
        table, scope = decoded("ResolutionScope", coded)
        if table == tables.TYPE_REF:
            where, outer = self._reference_name(scope, depth + 1)
            return where, f"{outer}/{self.text(name)}"
        return self._scope(table, scope), joined(self.text(namespace), self.text(name))

    def _scope(self, table: int, row: int) -> str:
        if table == tables.ASSEMBLY_REF and 0 < row < len(self.assembly_references):
            name = self.assembly_references[row]
            return "" if name == self.assembly else name
        if table == MODULE_REF and row:
            return f"module {self.text(self.metadata.row(MODULE_REF, row)[0])}"
        return ""

    @cached_property
    def types_by_name(self) -> dict[str, int]:
        """The first row of each name of a type."""
        found: dict[str, int] = {}
        for row, name in enumerate(self.type_names[1:], 1):
            found.setdefault(name, row)
        return found

    @cached_property
    def owner(self) -> list[int]:
        """The row of the type of each method."""
        return self._owners(self.type_methods, len(self.methods))

    @cached_property
    def field_owner(self) -> list[int]:
        """The row of the type of each field."""
        return self._owners(self.type_fields, len(self.fields))

    @staticmethod
    def _owners(lists: list[range], count: int) -> list[int]:
        found = [0] * count
        for row, rows in enumerate(lists):
            for each in rows:
                found[each] = row
        return found

    def method_name(self, row: int) -> str:
        return self.text(self.methods[row][3])

    def field_name(self, row: int) -> str:
        return self.text(self.fields[row][1])

    def title(self, row: int) -> str:
        """A method as messages name it: its type, its name, and its row."""
        return f"{self.type_names[self.owner[row]]}::{self.method_name(row)} (method {row})"

    def body(self, row: int) -> Body | None:
        """The body of a method, None if it has none."""
        address, flags = self.methods[row][0], self.methods[row][1]
        # Code that is native or of the runtime (II.23.1.11) is no IL.
        if not address or flags & 7:
            return None
        found = body_at(self.metadata.image, address)
        if row not in self.known:
            self.known.add(row)
            self.spent += len(found.code) + 24 * len(found.clauses)
        if self.spent > MOST_SHARING * len(self.metadata.image.data):
            raise Damaged("the bodies of many methods overlap")
        return found

    def string(self, token: int) -> bytes:
        """A text of the heap #US that `ldstr` names (II.24.2.4)."""
        at = token & 0xFFFFFF
        found = compressed(self.strings, at)
        if found is None or found[0] + found[1] > len(self.strings):
            raise Damaged(f"there is no text {at} in the heap #US")
        return self.strings[found[1]:found[1] + found[0]]


def joined(namespace: str, name: str) -> str:
    return f"{namespace}.{name}" if namespace else name
