"""The container of a file: the metadata root, its streams, the row counts, the tables and the heaps (FORMAT, 2), with the faults F1 to F18
of the parts 1 to 4 (FORMAT, 4)."""
from typing import NamedTuple

NAMES = ("#Pdb", "#~", "#Strings", "#US", "#GUID", "#Blob")
MOST_ROWS = 16777215
PARTS = ("root", "streams", "pdb", "tables")
# The tables of the tags of a coded parent ("CustomDebugInformation Table").
PARENTS = (0x06, 0x04, 0x01, 0x02, 0x08, 0x09, 0x0A, 0x00, 0x0E, 0x17, 0x14, 0x11, 0x1A, 0x1B, 0x20, 0x23, 0x26, 0x27, 0x28, 0x2A, 0x2C,
           0x2B, 0x30, 0x32, 0x33, 0x34, 0x35)
# The columns: the size of a number, a heap, the table of a row, or the coded parent.
Column = int | str
COLUMNS: dict[int, tuple[Column, ...]] = {
    0x30: ("blob", "guid", "blob", "guid"),
    0x31: ("row 30", "blob"),
    0x32: ("row 06", "row 35", "row 33", "row 34", 4, 4),
    0x33: (2, 2, "text"),
    0x34: ("text", "blob"),
    0x35: ("row 35", "blob"),
    0x36: ("row 06", "row 06"),
    0x37: ("parent", "guid", "blob"),
}
HEAP_BITS = {"text": 1, "guid": 2, "blob": 4}


class Fault(Exception):
    """The first fault of a file, by its code and its place (FORMAT, 4)."""

    def __init__(self, code: int, part: int, byte: int, cell: tuple[int, int, int] | None = None) -> None:
        super().__init__(code, part, byte, cell)
        self.code, self.part, self.byte, self.cell = code, part, byte, cell

    def __str__(self) -> str:
        if self.cell is None:
            return f"F{self.code} {PARTS[self.part - 1]} byte {self.byte}"
        table, row, column = self.cell
        return f"F{self.code} table {table:02x} row {row} column {column} byte {self.byte}"


class Stream(NamedTuple):
    header: int
    offset: int
    size: int


class Part:
    """The fields of a part of the file, one after another. A field that passes the end is a fault of this code."""

    def __init__(self, data: bytes, part: int, code: int) -> None:
        self.data, self.part, self.code, self.at = data, part, code, 0

    def take(self, count: int) -> bytes:
        if self.at + count > len(self.data):
            raise Fault(self.code, self.part, self.at)
        self.at += count
        return self.data[self.at - count:self.at]

    def number(self, count: int) -> int:
        return int.from_bytes(self.take(count), "little")

    def counts(self, bits: int, code: int) -> dict[int, int]:
        """A row count for each set bit. Too many rows are a fault of this code."""
        found = {}
        for table in (table for table in range(64) if bits >> table & 1):
            found[table] = self.number(4)
            if found[table] > MOST_ROWS:
                raise Fault(code, self.part, self.at - 4)
            self.check_count(table, found[table])
        return found

    def check_count(self, table: int, count: int) -> None:
        """What else a count has to be."""


class Container:
    """A file as far as its cells: `rows` has the cells of each table, and the heaps answer for their indexes."""

    def __init__(self, data: bytes) -> None:
        self.data = data
        self.streams = self.read_streams()
        self.id, self.entry, self.counts = self.read_head()
        self.rows = self.read_tables()

    def stream(self, name: str) -> bytes:
        if name not in self.streams:
            return b""
        _, offset, size = self.streams[name]
        return self.data[offset:offset + size]

    def read_streams(self) -> dict[str, Stream]:
        """The metadata root and the stream headers (ECMA-335 II.24.2.1 and II.24.2.2)."""
        if self.data.startswith(b"Microsoft C/C++ MSF "):
            raise Fault(2, 1, 0)
        if not self.data.startswith(b"BSJB"):
            raise Fault(1, 1, 0)
        root = Part(self.data, 1, 3)
        for count in (4, 2, 2, 4):
            root.take(count)
        root.take(root.number(4))
        root.take(2)
        streams: dict[str, Stream] = {}
        for _ in range(root.number(2)):
            header = root.at
            offset, size = root.number(4), root.number(4)
            streams[self.read_name(root, streams)] = Stream(header, offset, size)
        if not {"#Pdb", "#~"} <= streams.keys():
            raise Fault(8, 2, 0)
        for header, offset, size in streams.values():
            if offset + size > len(self.data):
                raise Fault(7, 2, header)
        return streams

    def read_name(self, root: Part, earlier: dict[str, Stream]) -> str:
        """The name of a stream, a field with its padding."""
        at = root.at
        name = self.data[at:at + 33].partition(b"\0")[0]
        root.take((len(name) + 4) // 4 * 4 if len(name) < 33 else 33)
        if not name or len(name) == 33 or max(name) >= 0x80:
            raise Fault(4, 1, at)
        if name.decode() not in NAMES:
            raise Fault(5, 1, at)
        if name.decode() in earlier:
            raise Fault(6, 1, at)
        return name.decode()

    def read_head(self) -> tuple[bytes, int, dict[int, int]]:
        """The stream #Pdb (Portable PDB v1.0, "#Pdb stream")."""
        head = Part(self.stream("#Pdb"), 3, 9)
        identity, token, bits = head.take(20), head.number(4), head.number(8)
        if bits >> 0x2D:
            raise Fault(10, 3, 24)
        counts = head.counts(bits, 11)
        if token and (token >> 24 != 6 or not 1 <= token & 0xFFFFFF <= counts.get(6, 0)):
            raise Fault(12, 3, 20)
        return identity, token & 0xFFFFFF, counts

    def read_tables(self) -> dict[int, list[tuple[int, ...]]]:
        """The stream #~ (II.24.2.6)."""
        body = Part(self.stream("#~"), 4, 13)
        body.take(6)
        self.wide = body.number(1)
        if self.wide & ~7:
            raise Fault(14, 4, 6)
        body.take(1)
        bits = body.number(8)
        if bits & ~0xFF000000000000:
            raise Fault(15, 4, 8)
        body.take(8)
        methods = self.counts.get(6, 0)

        def check_count(table: int, count: int) -> None:
            if table == 0x31 and count not in (0, methods):
                raise Fault(18, 4, body.at - 4)

        body.check_count = check_count  # type: ignore[method-assign]
        self.counts.update(body.counts(bits, 16))
        body.code = 17
        return {table: self.read_rows(body, table) for table in COLUMNS}

    def read_rows(self, body: Part, table: int) -> list[tuple[int, ...]]:
        sizes = [self.size(column) for column in COLUMNS[table]]
        rows = []
        for _ in range(self.count(table)):
            row = Part(body.take(sum(sizes)), 4, 17)
            rows.append(tuple(row.number(size) for size in sizes))
        return rows

    def size(self, column: Column) -> int:
        """The bytes of a cell (FORMAT, 2, "Widths")."""
        if isinstance(column, int):
            return column
        if column in HEAP_BITS:
            return 4 if self.wide & HEAP_BITS[column] else 2
        if column == "parent":
            return 4 if any(self.count(table) >= 2048 for table in PARENTS) else 2
        return 4 if self.count(int(column.split()[1], 16)) >= 65536 else 2

    def count(self, table: int) -> int:
        return self.counts.get(table, 0)

    def is_row(self, table: int, row: int) -> bool:
        return 1 <= row <= self.count(table)

    def text(self, index: int) -> bytes | None:
        """A text, None if it does not exist (II.24.2.3)."""
        if index == 0:
            return b""
        found, zero, _ = self.stream("#Strings")[index:].partition(b"\0")
        return found if zero else None

    def guid(self, index: int) -> bytes | None:
        """A GUID, None for 0 and if it does not exist (II.24.2.5)."""
        found = self.stream("#GUID")[16 * index - 16:16 * index] if index else b""
        return found if len(found) == 16 else None

    def blob(self, index: int) -> bytes | None:
        """A blob, None if it does not exist (II.24.2.4)."""
        if index == 0:
            return b""
        heap = self.stream("#Blob")[index:index + 4]
        size = 0 if not heap or heap[0] >= 0xE0 else 1 if heap[0] < 0x80 else 2 if heap[0] < 0xC0 else 4
        if not size or len(heap) < size:
            return None
        length = int.from_bytes(heap[:size], "big") & (0x7F, 0x3FFF, 0, 0x1FFFFFFF)[size - 1]
        found = self.stream("#Blob")[index + size:index + size + length]
        return found if len(found) == length else None
