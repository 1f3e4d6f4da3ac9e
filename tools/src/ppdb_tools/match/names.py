"""Numbers for what a module names, equal in an old and a new module if both name the same: types, members, signatures. A definition of an
old module has the number of the definition that it is in the new one, as far as that is known."""
from functools import cached_property
from typing import Hashable

from ppdb_tools import metadata as tables
from ppdb_tools.errors import Damaged
from ppdb_tools.match.module import Module
from ppdb_tools.metadata import METHOD_SPEC, decoded
from ppdb_tools.match.signatures import CLASS, INSTANCE, VALUE_TYPE, Method, Reader


class Numbers(dict[Hashable, int]):
    """A number for each key, the next one for a new key."""

    def __missing__(self, key: Hashable) -> int:
        found = self[key] = len(self)
        return found


class Namer:
    """What a module names. `types`, `methods` and `fields` are the numbers of its definitions by their rows, `references` those of the
    rows of TypeRef. `others` finds members of the new module for an old one that refers to its types."""

    def __init__(self, module: Module, numbers: Numbers, types: list[int], references: list[int], others: "Namer | None" = None) -> None:
        self.module, self.numbers, self.others = module, numbers, others
        self.types, self.references = types, references
        self.methods: list[int] = []
        self.fields: list[int] = []
        self.specifications: dict[int, int] = {}
        self.signatures: dict[int, Method] = {}
        self.tokens: dict[int, int] = {}
        self.arities: dict[int, tuple[int, int]] = {}
        self.locals: dict[int, tuple[int, ...]] = {}
        # The keys of instructions with a token or a text, by operation and token.
        self.keys: dict[int, int] = {}

    def blob(self, at: int) -> bytes:
        return self.module.metadata.blob(at)

    def type(self, table: int, row: int) -> int:
        """The number of a type of TypeDef, TypeRef or TypeSpec."""
        known = {tables.TYPE_DEF: self.types, tables.TYPE_REF: self.references}.get(table)
        if known is None:
            return self.specification(row)
        if not 0 < row < len(known):
            raise Damaged(f"table {table:02x} has no row {row}")
        return known[row]

    def coded_type(self, value: int) -> int:
        return self.type(*decoded("TypeDefOrRef", value)) if value >> 2 else -1

    def specification(self, row: int) -> int:
        """The number of a row of TypeSpec. Those that name one another without end have none."""
        found = self.specifications.get(row)
        if found is None:
            self.specifications[row] = -2
            found = self.numbers["type", self.reader(self.module.metadata.row(tables.TYPE_SPEC, row)[0]).type()]
            self.specifications[row] = found
        return found

    def reader(self, at: int) -> Reader:
        return Reader(self.blob(at), self.coded_type)

    def method_signature(self, at: int) -> Method:
        found = self.signatures.get(at)
        if found is None:
            found = self.signatures[at] = self.reader(at).method()
        return found

    def signature(self, at: int) -> int:
        """The number of a signature of a member."""
        if self.blob(at)[:1] == b"\x06":
            return self.numbers["field", self.reader(at).field()]
        return self.numbers[self.method_signature(at)]

    def locals_of(self, row: int) -> tuple[int, ...]:
        """The numbers of the types of the locals that a row of StandAloneSig has; none for row 0."""
        if row not in self.locals:
            types = self.reader(self.module.metadata.row(tables.STAND_ALONE_SIG, row)[0]).locals() if row else ()
            self.locals[row] = tuple(self.numbers["local", each] for each in types)
        return self.locals[row]

    @cached_property
    def members(self) -> dict[tuple[int, str], list[tuple[int, int]]]:
        """The methods and fields, as table and row, by the number of their type and their name."""
        found: dict[tuple[int, str], list[tuple[int, int]]] = {}
        module = self.module
        for kind, number in enumerate(self.types):
            for table, rows, name in ((tables.METHOD_DEF, module.type_methods[kind], module.method_name),
                                      (tables.FIELD, module.type_fields[kind], module.field_name)):
                for row in rows:
                    found.setdefault((number, name(row)), []).append((table, row))
        return found

    @cached_property
    def rows_of_types(self) -> set[int]:
        """The numbers that are those of definitions."""
        return set(self.types[1:])

    def definition_signature(self, table: int, row: int) -> int:
        """The number of the signature of a method or a field."""
        return self.signature(self.module.methods[row][4] if table == tables.METHOD_DEF else self.module.fields[row][2])

    def token(self, token: int) -> int:
        """The number of what a token names."""
        found = self.tokens.get(token)
        if found is None:
            found = self.tokens[token] = self._token(token >> 24, token & 0xFFFFFF)
        return found

    def _token(self, table: int, row: int) -> int:
        if table in (tables.TYPE_DEF, tables.TYPE_REF, tables.TYPE_SPEC):
            return self.type(table, row)
        if table in (tables.METHOD_DEF, tables.FIELD):
            known = self.methods if table == tables.METHOD_DEF else self.fields
            if not 0 < row < len(known):
                raise Damaged(f"table {table:02x} has no row {row}")
            return known[row]
        if table == tables.MEMBER_REF:
            return self._member(*self.module.metadata.row(table, row))
        if table == METHOD_SPEC:
            method, arguments = self.module.metadata.row(table, row)
            above, of = decoded("MethodDefOrRef", method)
            return self.numbers["instance", self.token(above << 24 | of), self.reader(arguments).arguments()]
        if table == tables.STAND_ALONE_SIG:
            return self.numbers["signature", self.reader(self.module.metadata.row(table, row)[0]).any()]
        raise Damaged(f"the token {table:02x}{row:06x} names nothing that code names")

    def _member(self, parent: int, name: int, signature: int) -> int:
        """A row of MemberRef: a definition of this module or of the new one if it is known, otherwise by its type, name and signature."""
        table, row = decoded("MemberRefParent", parent)
        if table == tables.METHOD_DEF:
            return self.token(table << 24 | row)
        if table == 0x1A:
            return self.numbers["of module", self.module.text(self.module.metadata.row(table, row)[0]), self.module.text(name),
                                self.signature(signature)]
        kind = self.type(table, row)
        head = self._head(row) if table == tables.TYPE_SPEC else kind
        found = self._definition(head, self.module.text(name), self.signature(signature))
        if found is None:
            return self.numbers["member", kind, self.module.text(name), self.signature(signature)]
        return self.numbers["member", kind, found] if head != kind else found

    def _head(self, row: int) -> int:
        """The generic type of an instance of it, -1 for another type."""
        data = self.blob(self.module.metadata.row(tables.TYPE_SPEC, row)[0])
        if len(data) > 2 and data[0] == INSTANCE and data[1] in (CLASS, VALUE_TYPE):
            reader = Reader(data, self.coded_type)
            reader.at = 2
            return self.coded_type(reader.count())
        return -1

    def _definition(self, kind: int, name: str, signature: int) -> int | None:
        for namer in (self, self.others):
            if namer is not None and kind in namer.rows_of_types:
                for table, row in namer.members.get((kind, name), ()):
                    if namer.definition_signature(table, row) == signature:
                        return (namer.methods if table == tables.METHOD_DEF else namer.fields)[row]
        return None

    def arity(self, token: int) -> tuple[int, int]:
        """How many values a call of what a token names takes and gives."""
        found = self.arities.get(token)
        if found is None:
            signature = self.called(token >> 24, token & 0xFFFFFF)
            found = self.arities[token] = signature.pops, signature.pushes
        return found

    def called(self, table: int, row: int) -> Method:
        """The signature of what a call names."""
        if table == tables.METHOD_DEF:
            return self.method_signature(self.module.metadata.row(table, row)[4])
        if table == tables.MEMBER_REF:
            return self.method_signature(self.module.metadata.row(table, row)[2])
        if table == METHOD_SPEC:
            above, of = decoded("MethodDefOrRef", self.module.metadata.row(table, row)[0])
            if above == METHOD_SPEC:
                raise Damaged("an instance of a method is one of itself")
            return self.called(above, of)
        if table == tables.STAND_ALONE_SIG:
            return self.method_signature(self.module.metadata.row(table, row)[0])
        raise Damaged(f"the token {table:02x}{row:06x} cannot be called")
