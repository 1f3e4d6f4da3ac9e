"""The cells of a Portable PDB file, also of one that breaks rules: where they are in the file, and which items they name (Portable PDB
v1.0, "Metadata Tables"; ECMA-335 II.24.2). Nothing here is proved, and the program does not use it."""
import struct
import uuid
from collections.abc import Iterator
from typing import NamedTuple

from ppdb_tools.errors import Damaged
from ppdb_tools.numbers import compressed, number
from ppdb_tools.pe import Stream, streams_of

# A column is a number of 2 or 4 bytes; the index of a text, blob or GUID; a row of a table; or the coded parent.
Form = int | str | tuple[str, int]
Item = int | bytes | None

NAMES = {0x30: "Document", 0x31: "MethodDebugInformation", 0x32: "LocalScope", 0x33: "LocalVariable", 0x34: "LocalConstant",
         0x35: "ImportScope", 0x36: "StateMachineMethod", 0x37: "CustomDebugInformation"}
COLUMNS: dict[int, list[tuple[str, Form]]] = {
    0x30: [("Name", "blob"), ("HashAlgorithm", "guid"), ("Hash", "blob"), ("Language", "guid")],
    0x31: [("Document", ("row", 0x30)), ("SequencePoints", "blob")],
    0x32: [("Method", ("row", 0x06)), ("ImportScope", ("row", 0x35)), ("VariableList", ("row", 0x33)), ("ConstantList", ("row", 0x34)),
           ("StartOffset", 4), ("Length", 4)],
    0x33: [("Attributes", 2), ("Index", 2), ("Name", "text")],
    0x34: [("Name", "text"), ("Signature", "blob")],
    0x35: [("Parent", ("row", 0x35)), ("Imports", "blob")],
    0x36: [("MoveNextMethod", ("row", 0x06)), ("KickoffMethod", ("row", 0x06))],
    0x37: [("Parent", "parent"), ("Kind", "guid"), ("Value", "blob")],
}
# The tables of the tags of the coded parent ("CustomDebugInformation Table").
PARENTS = [0x06, 0x04, 0x01, 0x02, 0x08, 0x09, 0x0A, 0x00, 0x0E, 0x17, 0x14, 0x11, 0x1A, 0x1B, 0x20, 0x23, 0x26, 0x27, 0x28, 0x2A,
           0x2C, 0x2B, 0x30, 0x32, 0x33, 0x34, 0x35]
# The fields of imports by their kinds: `b` the index of a blob, `n` another number ("Imports Blob").
IMPORTS = {1: "b", 2: "nb", 3: "n", 4: "bb", 5: "b", 6: "bn", 7: "bb", 8: "bnb", 9: "bn"}
# The most bytes of a document's name that is put together here.
LONGEST_NAME = 1 << 20
# How many bytes of blobs are read in total, and for each byte of the file.
BLOBS_IN_TOTAL, BLOBS_EACH = 1 << 24, 8


class Cell(NamedTuple):
    table: int
    row: int
    column: int

    def __str__(self) -> str:
        return f"table {self.table:02x} row {self.row} column {self.column}"


class Blob(NamedTuple):
    """Where the length of a blob begins in the file, where its content begins, and where it ends."""
    length: int
    content: int
    end: int


class DebugFile:
    """A file: its streams, row counts, and where each table begins."""

    def __init__(self, data: bytes | bytearray) -> None:
        self.data = data
        if data[:4] != b"BSJB":
            raise Damaged("the file does not begin with BSJB")
        self.streams = streams_of(data, 0)
        self.headers_end = headers_end(data)
        for name in ("#Pdb", "#~"):
            if name not in self.streams:
                raise Damaged(f"there is no stream {name}")
        self.left = BLOBS_EACH * len(data) + BLOBS_IN_TOTAL
        self.counts = [0] * 64
        self.starts: dict[int, int] = {}
        self.rows: dict[int, struct.Struct] = {}
        self.read_tables()

    def read_counts(self, at: int, bits: int) -> int:
        """Reads a count for each bit, and says where they end."""
        for table in range(64):
            if bits >> table & 1:
                self.counts[table] = number(self.data, at, 4, "a row count")
                at += 4
        return at

    def read_tables(self) -> None:
        head, body = self.streams["#Pdb"].start, self.streams["#~"].start
        self.read_counts(head + 32, number(self.data, head + 24, 8, "the list of tables") & (1 << 0x2D) - 1)
        there = number(self.data, body + 8, 8, "the list of tables")
        if there & ~sum(1 << table for table in COLUMNS):
            raise Damaged("the stream #~ has other tables than 30 to 37")
        at = self.read_counts(body + 24, there)
        heaps = number(self.data, body + 6, 1, "the sizes of heaps")
        wide = {"text": heaps & 1, "guid": heaps & 2, "blob": heaps & 4, "parent": any(self.counts[table] >= 2048 for table in PARENTS)}
        for table, columns in COLUMNS.items():
            self.starts[table] = at
            self.rows[table] = struct.Struct("<" + "".join(self.letter(form, wide) for _, form in columns))
            at += self.counts[table] * self.rows[table].size
        if at > body + self.streams["#~"].size:
            raise Damaged("the rows pass the end of the stream #~")

    def letter(self, form: Form, wide: dict[str, bool | int]) -> str:
        """The letter of a column for `struct` (ECMA-335 II.24.2.6)."""
        if isinstance(form, int):
            return "I" if form == 4 else "H"
        is_wide = self.counts[form[1]] >= 0x10000 if isinstance(form, tuple) else wide[form]
        return "I" if is_wide else "H"

    def cells(self, table: int) -> Iterator[tuple[int, ...]]:
        """The rows of a table, as the numbers of their cells."""
        start, form = self.starts[table], self.rows[table]
        return form.iter_unpack(memoryview(self.data)[start:start + self.counts[table] * form.size])

    def row(self, table: int, row: int) -> tuple[int, ...]:
        return self.rows[table].unpack_from(self.data, self.starts[table] + (row - 1) * self.rows[table].size)

    def place(self, cell: Cell) -> int:
        """The first byte of a cell in the file."""
        form = self.rows[cell.table]
        return self.starts[cell.table] + (cell.row - 1) * form.size + struct.calcsize(form.format[:1 + cell.column])

    def heap(self, name: str) -> tuple[int, int]:
        """Where a stream begins and ends."""
        start, size = self.streams.get(name, Stream(0, 0))
        return start, start + size

    def blob(self, index: int) -> Blob | None:
        """The blob of an index that is not 0, None where it is not there."""
        start, end = self.heap("#Blob")
        found = compressed(self.data, start + index, end)
        if found is None or found[1] + found[0] > end:
            return None
        return Blob(start + index, found[1], found[1] + found[0])

    def content(self, index: int) -> bytes | None:
        """The bytes of a blob, None where it is not there. Blobs may overlap, so all that are read together are limited."""
        found = self.blob(index) if index else Blob(0, 0, 0)
        if found is None:
            return None
        self.left -= found.end - found.content
        if self.left < 0:
            raise Damaged("its blobs overlap, and together are much longer than the file")
        return bytes(self.data[found.content:found.end])

    def item(self, form: Form, value: int) -> Item:
        """What a cell names: a text, a blob or a GUID, None where it is not there; and of other cells the number."""
        if form == "blob":
            return self.content(value)
        if form == "text":
            start, end = self.heap("#Strings")
            stop = self.data.find(b"\0", start + value, end)
            return b"" if value == 0 else bytes(self.data[start + value:stop]) if stop >= 0 else None
        if form == "guid":
            start, end = self.heap("#GUID")
            return bytes(self.data[start + 16 * value - 16:start + 16 * value]) if 0 < value <= (end - start) // 16 else None
        return value

    def length(self, blob: bytes) -> int:
        """How many bytes a document's name has in the file, without its own blob."""
        return sum(found.end - found.length for index in name_parts(blob) if index and (found := self.blob(index)))

    def name(self, blob: bytes) -> bytes | None:
        """A document's name, its parts joined; None where it cannot be read, or is longer than any name."""
        parts, length = [], 0
        for index in name_parts(blob):
            part = self.content(index)
            length += len(part or b"") + 4
            if part is None or length > LONGEST_NAME:
                return None
            parts.append(part)
        return separator(blob).strip(b"\0").join(parts) if parts else None


def headers_end(data: bytes | bytearray) -> int:
    """Where the stream headers end."""
    head = 16 + number(data, 12, 4, "the length of the version")
    at = head + 4
    for _ in range(number(data, head + 2, 2, "the number of streams")):
        end = data.find(b"\0", at + 8, at + 41)
        at = end + 1 + (at - end - 1) % 4
    return at


def numbers(data: bytes, at: int) -> Iterator[int]:
    """The compressed numbers of a blob from one byte on, as far as they can be read."""
    while found := compressed(data, at):
        yield found[0]
        at = found[1]


def separator(blob: bytes) -> bytes:
    """What begins a document's name: one character, or nothing where there is none."""
    return next((blob[:width] for width in range(1, 5) if is_character(blob[:width])), b"")


def name_parts(blob: bytes) -> Iterator[int]:
    """The blobs that a document's name is made of."""
    start = len(separator(blob))
    return numbers(blob, start) if start else iter(())


def imported(blob: bytes) -> Iterator[int]:
    """The blobs that imports name."""
    values = numbers(blob, 0)
    for kind in values:
        for field, value in zip(IMPORTS.get(kind, ""), values):
            if field == "b":
                yield value


def is_character(data: bytes) -> bool:
    try:
        return len(data.decode()) == 1
    except UnicodeDecodeError:
        return False


def guid_text(item: bytes) -> str:
    return str(uuid.UUID(bytes_le=item))
