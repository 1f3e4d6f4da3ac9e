"""What the blobs of a file say (FORMAT, 3). Each function reads a blob to its end, or raises the fault of its first field that is not
valid. `Named` collects the blobs that a blob names, each with the byte of its index, also of a blob that is not valid."""
from typing import NamedTuple, Protocol

from .fields import NOT_ALLOWED, BlobFault, Fields

TYPE_TABLES = (0x02, 0x01, 0x1B)
VALUE_SIZES = {0x02: 1, 0x03: 2, 0x04: 1, 0x05: 1, 0x06: 2, 0x07: 2, 0x08: 4, 0x09: 4, 0x0A: 8, 0x0B: 8, 0x0C: 4, 0x0D: 8}
MOST_LINE, NO_LINE, MOST_COLUMN, OFFSETS, TIMES = 0x1FFFFFFF, 0xFEEFEE, 0xFFFF, 0x20000000, 0x80000000
# The fields of an import by its kind: an alias, an assembly, a namespace or a type.
IMPORTS = {1: "n", 2: "An", 3: "t", 4: "an", 5: "a", 6: "aA", 7: "an", 8: "aAn", 9: "at"}
Type = tuple[int, int]
Named = list[tuple[int, int]]


class Names(Protocol):
    """What a blob may name: rows and blobs."""

    def count(self, table: int) -> int: ...
    def is_row(self, table: int, row: int) -> bool: ...
    def blob(self, index: int) -> bytes | None: ...


class Point(NamedTuple):
    offset: int
    document: int
    # Start line and column, end line and column; None if the point is hidden.
    span: tuple[int, int, int, int] | None


class Constant(NamedTuple):
    modifiers: tuple[tuple[int, Type], ...]
    code: int
    value: bytes
    type: Type | None
    rest: bytes


class Import(NamedTuple):
    kind: int
    alias: bytes | None
    assembly: int | None
    namespace: bytes | None
    type: Type | None


class Steps(NamedTuple):
    """Async stepping information: the catch handler, and for each step where it pauses, where it resumes, and in which method."""
    handler: int | None
    steps: tuple[tuple[int, int, int], ...]


def separator(blob: bytes) -> bytes:
    """The separator of a name: a zero, or one character."""
    for size in range(1, 5):
        try:
            if len(blob[:size].decode()) == 1:
                return blob[:size]
        except UnicodeDecodeError:
            continue
    raise BlobFault(NOT_ALLOWED, 0)


def read_name(blob: bytes, names: Names, named: Named) -> bytes:
    """The name of a document, its parts joined."""
    between = separator(blob)
    fields, parts = Fields(blob), []
    fields.take(len(between))
    while not parts or not fields.is_end():
        at = fields.at
        index = fields.unsigned(lambda index: names.blob(index) is not None)
        named.append((at, index))
        parts.append(names.blob(index) or b"")
    return (b"" if between == b"\0" else between).join(parts)


def read_points(blob: bytes, document: int, names: Names) -> tuple[int, tuple[Point, ...]]:
    """The local signature and the points of a method that has some."""
    fields, points = Fields(blob), list[Point]()
    signature = fields.unsigned(lambda row: row == 0 or names.is_row(0x11, row))
    if document == 0:
        document = fields.unsigned(lambda row: names.is_row(0x30, row))
    offset, line, column, is_first_line = 0, 0, 0, True
    while not points or not fields.is_end():
        step = fields.unsigned(lambda step: offset + step < OFFSETS)
        if step == 0 and points:
            document = fields.unsigned(lambda row: names.is_row(0x30, row))
            continue
        offset += step
        lines = fields.unsigned()
        columns = fields.signed() if lines else fields.unsigned()
        if lines == columns == 0:
            points.append(Point(offset, document, None))
            continue

        def is_line(start: int) -> bool:
            return all(0 <= at <= MOST_LINE and at != NO_LINE for at in (start, start + lines))

        def is_column(start: int) -> bool:
            return all(0 <= at <= MOST_COLUMN for at in (start, start + columns))

        if is_first_line:
            line, column = fields.unsigned(is_line), fields.unsigned(is_column)
        else:
            line += fields.signed(lambda step: is_line(line + step))
            column += fields.signed(lambda step: is_column(column + step))
        is_first_line = False
        points.append(Point(offset, document, (line, column, line + lines, column + columns)))
    return signature, tuple(points)


def read_type(fields: Fields, names: Names) -> Type:
    token = fields.unsigned(lambda token: token & 3 < 3 and names.is_row(TYPE_TABLES[token & 3], token >> 2))
    return TYPE_TABLES[token & 3], token >> 2


def read_constant(blob: bytes, names: Names) -> Constant:
    fields, modifiers = Fields(blob), []
    while blob[fields.at:fields.at + 1] in (b"\x1f", b"\x20"):
        modifiers.append((fields.fixed(1), read_type(fields, names)))
    code = fields.fixed(1, lambda code: code in VALUE_SIZES or code in (0x0E, 0x11, 0x12, 0x1C))
    value, named, rest = b"", None, b""
    if code in VALUE_SIZES:
        value = fields.take(VALUE_SIZES[code])
        if code <= 0x0B and not fields.is_end():
            named = read_type(fields, names)
    elif code == 0x0E:
        value = blob[fields.at:]
        if value != b"\xff" and len(value) % 2:
            raise BlobFault(NOT_ALLOWED, fields.at)
        fields.at = len(blob)
    elif code != 0x1C:
        named = read_type(fields, names)
        rest = fields.take(len(blob) - fields.at)
    fields.end()
    return Constant(tuple(modifiers), code, value, named, rest)


def read_imports(blob: bytes, names: Names, named: Named) -> tuple[Import, ...]:
    fields, imports = Fields(blob), []

    def read_blob() -> bytes:
        at = fields.at
        index = fields.unsigned(lambda index: names.blob(index) is not None)
        named.append((at, index))
        return names.blob(index) or b""

    while not fields.is_end():
        kind = fields.unsigned(lambda kind: kind in IMPORTS)
        alias = assembly = namespace = of = None
        for field in IMPORTS[kind]:
            if field == "a":
                alias = read_blob()
            elif field == "n":
                namespace = read_blob()
            elif field == "A":
                assembly = fields.unsigned(lambda row: names.is_row(0x23, row))
            else:
                of = read_type(fields, names)
        imports.append(Import(kind, alias, assembly, namespace, of))
    return tuple(imports)


def read_steps(blob: bytes, names: Names) -> Steps:
    fields, steps = Fields(blob), []
    handler = fields.fixed(4, lambda handler: handler <= TIMES)
    while not fields.is_end():
        pause, resume = fields.fixed(4, lambda at: at < TIMES), fields.fixed(4, lambda at: at < TIMES)
        steps.append((pause, resume, fields.unsigned(lambda row: names.is_row(0x06, row))))
    return Steps(handler - 1 if handler else None, tuple(steps))


def read_hoisted(blob: bytes) -> tuple[tuple[int, int], ...]:
    """The start and the end of each slot; the empty range is 0 to 0, wherever it begins."""
    fields, slots = Fields(blob), []
    while not fields.is_end():
        start = fields.fixed(4)
        length = fields.fixed(4, lambda length: length == 0 or start + length < TIMES)
        slots.append((start, start + length) if length else (0, 0))
    return tuple(slots)


def read_type_documents(blob: bytes, names: Names) -> tuple[int, ...]:
    fields, rows = Fields(blob), []
    while not fields.is_end():
        rows.append(fields.unsigned(lambda row: names.is_row(0x30, row)))
    return tuple(rows)
