"""The tables and heaps of an assembly's metadata (ECMA-335 II.22, II.24.2). Rows are read when they are asked for, and each row, text
and blob is judged by the bytes that are there: Damaged says which is not."""
import struct
from functools import cached_property
from typing import Iterator

from ppdb_tools.errors import Damaged
from ppdb_tools.numbers import compressed, number
from ppdb_tools.pe import Image

# The tables that this package names (II.22).
MODULE, TYPE_REF, TYPE_DEF, FIELD, METHOD_DEF, PARAM, MEMBER_REF = 0x00, 0x01, 0x02, 0x04, 0x06, 0x08, 0x0A
CUSTOM_ATTRIBUTE, STAND_ALONE_SIG, TYPE_SPEC, ASSEMBLY, ASSEMBLY_REF = 0x0C, 0x11, 0x1B, 0x20, 0x23
NESTED_CLASS, GENERIC_PARAM, METHOD_SPEC = 0x29, 0x2A, 0x2B
# The columns of the tables 00 to 2c: a number of 2 or 4 bytes; a text, a GUID or a blob; a row of a table; or a row of one of several
# tables, by a name of CODED.
COLUMNS: dict[int, tuple[int | str, ...]] = {
    0x00: (2, "text", "guid", "guid", "guid"), 0x01: ("ResolutionScope", "text", "text"),
    0x02: (4, "text", "text", "TypeDefOrRef", "row 04", "row 06"), 0x03: ("row 04",), 0x04: (2, "text", "blob"), 0x05: ("row 06",),
    0x06: (4, 2, 2, "text", "blob", "row 08"), 0x07: ("row 08",), 0x08: (2, 2, "text"), 0x09: ("row 02", "TypeDefOrRef"),
    0x0A: ("MemberRefParent", "text", "blob"), 0x0B: (2, "HasConstant", "blob"),
    0x0C: ("HasCustomAttribute", "CustomAttributeType", "blob"), 0x0D: ("HasFieldMarshal", "blob"), 0x0E: (2, "HasDeclSecurity", "blob"),
    0x0F: (2, 4, "row 02"), 0x10: (4, "row 04"), 0x11: ("blob",), 0x12: ("row 02", "row 14"), 0x13: ("row 14",),
    0x14: (2, "text", "TypeDefOrRef"), 0x15: ("row 02", "row 17"), 0x16: ("row 17",), 0x17: (2, "text", "blob"),
    0x18: (2, "row 06", "HasSemantics"), 0x19: ("row 02", "MethodDefOrRef", "MethodDefOrRef"), 0x1A: ("text",), 0x1B: ("blob",),
    0x1C: (2, "MemberForwarded", "text", "row 1a"), 0x1D: (4, "row 04"), 0x1E: (4, 4), 0x1F: (4,),
    0x20: (4, 2, 2, 2, 2, 4, "blob", "text", "text"), 0x21: (4,), 0x22: (4, 4, 4),
    0x23: (2, 2, 2, 2, 4, "blob", "text", "text", "blob"), 0x24: (4, "row 23"), 0x25: (4, 4, 4, "row 23"), 0x26: (4, "text", "blob"),
    0x27: (4, 4, "text", "text", "Implementation"), 0x28: (4, 4, "text", "Implementation"), 0x29: ("row 02", "row 02"),
    0x2A: (2, 2, "TypeOrMethodDef", "text"), 0x2B: ("MethodDefOrRef", "blob"), 0x2C: ("row 2a", "TypeDefOrRef"),
}
# The bits of a tag, and the tables that it distinguishes (II.24.2.6).
CODED: dict[str, tuple[int, tuple[int, ...]]] = {
    "TypeDefOrRef": (2, (0x02, 0x01, 0x1B)), "HasConstant": (2, (0x04, 0x08, 0x17)),
    "HasCustomAttribute": (5, (0x06, 0x04, 0x01, 0x02, 0x08, 0x09, 0x0A, 0x00, 0x0E, 0x17, 0x14, 0x11, 0x1A, 0x1B, 0x20, 0x23, 0x26, 0x27,
                               0x28, 0x2A, 0x2C, 0x2B)),
    "HasFieldMarshal": (1, (0x04, 0x08)), "HasDeclSecurity": (2, (0x02, 0x06, 0x20)),
    "MemberRefParent": (3, (0x02, 0x01, 0x1A, 0x06, 0x1B)), "HasSemantics": (1, (0x14, 0x17)), "MethodDefOrRef": (1, (0x06, 0x0A)),
    "MemberForwarded": (1, (0x04, 0x06)), "Implementation": (2, (0x26, 0x23, 0x27)), "CustomAttributeType": (3, (0x06, 0x0A)),
    "ResolutionScope": (2, (0x00, 0x1A, 0x23, 0x01)), "TypeOrMethodDef": (1, (0x02, 0x06)),
}
HEAPS = ("text", "guid", "blob")


class Tables:
    """The rows of a stream `#~`."""

    def __init__(self, data: bytes) -> None:
        self.data = data
        self.heaps, there = number(data, 6, 1, "the sizes of heaps"), number(data, 8, 8, "the list of tables")
        self.counts, at = [0] * 64, 24
        for table in range(64):
            if there >> table & 1:
                self.counts[table] = number(data, at, 4, f"the rows of table {table:02x}")
                at += 4
        self._forms: dict[int, tuple[int, struct.Struct]] = {}
        for table, columns in COLUMNS.items():
            form = struct.Struct("<" + "".join(self._letter(column) for column in columns))
            if at + form.size * self.counts[table] > len(data):
                raise Damaged(f"the rows of table {table:02x} pass the end of the stream #~")
            self._forms[table] = at, form
            at += form.size * self.counts[table]

    def _letter(self, column: int | str) -> str:
        """The letter of a column for `struct`: I for four bytes, H for two."""
        if isinstance(column, int):
            return "I" if column == 4 else "H"
        if column in HEAPS:
            is_wide = self.heaps >> HEAPS.index(column) & 1
        elif column in CODED:
            bits, tables = CODED[column]
            is_wide = max(self.counts[table] for table in tables) >= 1 << 16 - bits
        else:
            is_wide = self.counts[int(column[4:], 16)] > 0xFFFF
        return "I" if is_wide else "H"

    def row(self, table: int, row: int) -> tuple[int, ...]:
        """The cells of a row, from 1."""
        if not 1 <= row <= self.counts[table]:
            raise Damaged(f"table {table:02x} has {self.counts[table]} rows, and no row {row}")
        start, form = self._forms[table]
        return form.unpack_from(self.data, start + form.size * (row - 1))

    def rows(self, table: int) -> Iterator[tuple[int, ...]]:
        """The cells of each row."""
        start, form = self._forms[table]
        return form.iter_unpack(memoryview(self.data)[start:start + form.size * self.counts[table]])


def decoded(column: str, value: int) -> tuple[int, int]:
    """The table and the row of a coded cell (II.24.2.6)."""
    bits, tables = CODED[column]
    tag = value & (1 << bits) - 1
    if column == "CustomAttributeType":
        tag -= 2
    if not 0 <= tag < len(tables):
        raise Damaged(f"a coded row has the tag {value & (1 << bits) - 1}")
    return tables[tag], value >> bits


class Metadata:
    """The tables and heaps of an assembly."""

    def __init__(self, image: Image) -> None:
        self.image = image
        if "#~" not in image.streams:
            raise Damaged("the metadata has no stream #~")
        self.tables = Tables(image.stream("#~"))
        self.texts, self.blobs = image.stream("#Strings"), image.stream("#Blob")

    def row(self, table: int, row: int) -> tuple[int, ...]:
        """The cells of a row, from 1."""
        return self.tables.row(table, row)

    def rows(self, table: int) -> Iterator[tuple[int, ...]]:
        """The cells of each row of a table."""
        return self.tables.rows(table)

    def count(self, table: int) -> int:
        """How many rows a table has."""
        return self.tables.counts[table]

    def text(self, at: int) -> str:
        """A text of the heap (II.24.2.3). Bytes that are not UTF-8 stay as surrogates, as Python reads names of files."""
        end = self.texts.find(b"\0", at)
        if at == 0:
            return ""
        if end < 0:
            raise Damaged(f"there is no text {at}")
        return self.texts[at:end].decode("utf-8", "surrogateescape")

    def blob(self, at: int) -> bytes:
        """A blob of the heap (II.24.2.4)."""
        found = compressed(self.blobs, at) if at else (0, 0)
        if found is None or found[0] + found[1] > len(self.blobs):
            raise Damaged(f"there is no blob {at}")
        return self.blobs[found[1]:found[1] + found[0]]

    @cached_property
    def identity(self) -> bytes:
        """The 16 bytes of the module's identity, its MVID (II.22.30)."""
        index = self.row(MODULE, 1)[2]
        found = self.image.stream("#GUID")[16 * index - 16:16 * index] if index else b""
        if len(found) != 16:
            raise Damaged("the module has no identity")
        return found

    def ranges(self, table: int, column: int, of: int) -> Iterator[tuple[int, int]]:
        """For each row of a table the rows of another one that it owns, by its list: first, and one past the last (II.22)."""
        starts = [cells[column] for cells in self.rows(table)]
        last = self.count(of) + 1
        for start, end in zip(starts, [*starts[1:], last]):
            if start < 1 or end > last or start > end:
                start = end = 1
            yield start, end
