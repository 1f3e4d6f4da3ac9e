"""What a valid file says: items in place of indexes (FORMAT, 4, "Sound values")."""
from typing import NamedTuple
from uuid import UUID

from .blobs import (Constant, Import, Point, Steps, read_constant, read_hoisted, read_imports, read_name, read_points, read_steps,
                    read_type_documents)
from .container import PARENTS, Container

STEPPING = UUID("54fd2ac5-e925-401a-9c2a-f94f171072f8").bytes_le
HOISTED = UUID("6da9a61e-f8c7-4874-be62-68bc5630df71").bytes_le
TYPE_DOCUMENTS = UUID("932e74bc-dba9-4478-8d46-0f32a7bab3d3").bytes_le
SOURCE_LINK = UUID("cc110556-a091-4d38-9fec-25ab9a351a6a").bytes_le
# What a custom record says: the content of a kind that is read, else its bytes.
Content = Steps | tuple[tuple[int, int], ...] | tuple[int, ...] | bytes


class Document(NamedTuple):
    name: bytes
    algorithm: bytes | None
    hash: bytes
    language: bytes | None


class Method(NamedTuple):
    signature: int
    points: tuple[Point, ...]


class Variable(NamedTuple):
    row: int
    attributes: int
    slot: int
    name: bytes


class NamedConstant(NamedTuple):
    row: int
    name: bytes
    value: Constant
    blob: bytes


class Scope(NamedTuple):
    row: int
    method: int
    imports: int
    start: int
    end: int
    variables: tuple[Variable, ...]
    constants: tuple[NamedConstant, ...]


class ImportScope(NamedTuple):
    parent: int
    imports: tuple[Import, ...]


class Custom(NamedTuple):
    table: int
    parent: int
    kind: bytes
    value: bytes
    content: Content


class Value(NamedTuple):
    id: bytes
    entry: int
    counts: dict[int, int]
    documents: tuple[Document, ...]
    methods: dict[int, Method]
    scopes: tuple[Scope, ...]
    imports: tuple[ImportScope, ...]
    machines: tuple[tuple[int, int], ...]
    customs: tuple[Custom, ...]


def content_of(kind: bytes, value: bytes, file: Container) -> Content:
    if kind == STEPPING:
        return read_steps(value, file)
    if kind == HOISTED:
        return read_hoisted(value)
    if kind == TYPE_DOCUMENTS:
        return read_type_documents(value, file)
    return value


def owned(file: Container, scope: int, column: int, table: int) -> range:
    """The rows of a list of a scope, up to the list of the next scope."""
    scopes = file.rows[0x32]
    return range(scopes[scope - 1][column], scopes[scope][column] if scope < len(scopes) else file.count(table) + 1)


def value_of(data: bytes) -> Value:
    """What a valid file says."""
    file = Container(data)

    def blob(index: int) -> bytes:
        found = file.blob(index)
        assert found is not None
        return found

    def text(index: int) -> bytes:
        found = file.text(index)
        assert found is not None
        return found

    def variable(row: int) -> Variable:
        attributes, slot, name = file.rows[0x33][row - 1]
        return Variable(row, attributes, slot, text(name))

    def constant(row: int) -> NamedConstant:
        name, signature = file.rows[0x34][row - 1]
        return NamedConstant(row, text(name), read_constant(blob(signature), file), blob(signature))

    def scope(row: int) -> Scope:
        method, imports, _, _, start, length = file.rows[0x32][row - 1]
        return Scope(row, method, imports, start, start + length, tuple(map(variable, owned(file, row, 2, 0x33))),
                     tuple(map(constant, owned(file, row, 3, 0x34))))

    def custom(parent: int, kind: int, value: int) -> Custom:
        of = file.guid(kind) or b""
        return Custom(PARENTS[parent & 31], parent >> 5, of, blob(value), content_of(of, blob(value), file))

    return Value(
        file.id, file.entry, {table: count for table, count in file.counts.items() if table < 0x30 and count},
        tuple(Document(read_name(blob(name), file, []), file.guid(algorithm), blob(of), file.guid(language))
              for name, algorithm, of, language in file.rows[0x30]),
        {row: Method(*read_points(blob(points), document, file)) for row, (document, points) in enumerate(file.rows[0x31], 1) if blob(points)},
        tuple(scope(row) for row in range(1, file.count(0x32) + 1)),
        tuple(ImportScope(parent, read_imports(blob(imports), file, [])) for parent, imports in file.rows[0x35]),
        tuple((move, kickoff) for move, kickoff in file.rows[0x36]),
        tuple(custom(*cells) for cells in file.rows[0x37]))
