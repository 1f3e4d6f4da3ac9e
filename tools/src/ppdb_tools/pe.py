"""Executables of Windows (PE/COFF) as far as .NET uses them: sections, the header of .NET (ECMA-335 II.25.3.3), the streams of the
metadata (II.24.2), and the debug directory with its entries ("Debug Directory", PE/COFF; "PE/COFF Specification Additions" of
Portable PDB). Nothing is copied before its range was checked, and no count is followed further than the bytes are there."""
from bisect import bisect_right
from functools import cached_property
from typing import NamedTuple

import zlib

from ppdb_tools.errors import Damaged, NoAssembly
from ppdb_tools.numbers import Data, number, piece

# The most bytes that `ppdb` reads of a file, and so the most that an embedded one may have.
LONGEST = 134217728
ENTRY_SIZE = 28
# Compilers write five entries; each may name the same long path, so there is a limit to them.
MOST_ENTRIES, LONGEST_PATH = 64, 0x8000
# The kinds of entries of a debug directory.
CODE_VIEW, EMBEDDED, CHECKSUM = 2, 17, 19
# The data directories that .NET uses.
DEBUG, CLI = 6, 14


class Section(NamedTuple):
    """A section: its addresses in memory, and its bytes in the file."""
    address: int
    size: int
    start: int
    stored: int


class Directory(NamedTuple):
    """A data directory: its address in memory and its size, both 0 if there is none."""
    address: int
    size: int


class CliHeader(NamedTuple):
    """The header of .NET. The entry point is a token, or an address if the flag 10 (native entry point) is set."""
    metadata: Directory
    flags: int
    entry: int


class DebugEntry(NamedTuple):
    """An entry of the debug directory: its kind, time stamp and version, and where its data is in the file."""
    kind: int
    stamp: int
    major: int
    minor: int
    start: int
    size: int


class CodeView(NamedTuple):
    """An entry that names a debug file: the first 16 and the last 4 bytes of its PDB ID, its age, and its path at the build."""
    guid: bytes
    stamp: int
    age: int
    path: bytes

    @property
    def pdb_id(self) -> bytes:
        """The 20 bytes of the PDB ID: the GUID as it is stored, and the stamp of the entry."""
        return self.guid + self.stamp.to_bytes(4, "little")


class Checksum(NamedTuple):
    """An entry with a hash of the debug file, whose PDB ID counts as zeros: the algorithm's name, and the hash."""
    algorithm: str
    digest: bytes


class Stream(NamedTuple):
    """A stream of the metadata: where it is in the file."""
    start: int
    size: int


class Image:
    """An executable. NoAssembly says that the bytes are none, or have no header of .NET; Damaged that one of them is broken."""

    def __init__(self, data: Data) -> None:
        self.data = data
        if bytes(data[:2]) != b"MZ":
            raise NoAssembly("it does not begin with MZ")
        header = int.from_bytes(data[0x3C:0x40], "little")
        if bytes(data[header:header + 4]) != b"PE\0\0":
            raise NoAssembly(f"there is no PE signature at byte {header}")
        count = number(data, header + 6, 2, "the number of sections")
        self.optional = header + 24
        size = number(data, header + 20, 2, "the size of the optional header")
        magic = number(data, self.optional, 2, "the optional header")
        if magic not in (0x10B, 0x20B):
            raise NoAssembly(f"the optional header at byte {self.optional} begins with {magic:04x}")
        # By these two a symbol server finds an executable.
        self.stamp = number(data, header + 8, 4, "the time stamp")
        self.size = number(data, self.optional + 56, 4, "the size of the image")
        # PE32+ has numbers of eight bytes before its data directories.
        self.is_wide = magic == 0x20B
        self.sections = sorted(self._section(self.optional + size + 40 * index) for index in range(count))
        self._addresses = [section.address for section in self.sections]

    def _section(self, at: int) -> Section:
        size, address, stored, start = (number(self.data, at + field, 4, "a section header") for field in (8, 12, 16, 20))
        return Section(address, max(size, stored), start, stored)

    def place(self, address: int, size: int = 1, what: str = "data") -> int:
        """Where the bytes at an address begin in the file; all of them must be stored there."""
        index = bisect_right(self._addresses, address) - 1
        if index >= 0:
            section = self.sections[index]
            within = address - section.address
            if within + size <= section.stored and section.start + within + size <= len(self.data):
                return section.start + within
        raise Damaged(f"{what} at address {address:08x} is in no section of the file")

    def directory(self, index: int) -> Directory:
        """A data directory; one that the header does not count is not there."""
        first = self.optional + (112 if self.is_wide else 96)
        if index >= number(self.data, first - 4, 4, "the number of data directories"):
            return Directory(0, 0)
        return self._directory(first + 8 * index)

    def _directory(self, at: int) -> Directory:
        return Directory(number(self.data, at, 4, "a data directory"), number(self.data, at + 4, 4, "a data directory"))

    @cached_property
    def cli(self) -> CliHeader:
        """The header of .NET."""
        address, size = self.directory(CLI)
        if not address or not size:
            raise NoAssembly("it has no header of .NET")
        at = self.place(address, 24, "the header of .NET")
        flags, entry = (number(self.data, at + field, 4, "the header of .NET") for field in (16, 20))
        return CliHeader(self._directory(at + 8), flags, entry)

    @cached_property
    def streams(self) -> dict[str, Stream]:
        """The streams of the metadata by their names; of two with one name the first."""
        address, _ = self.cli.metadata
        return streams_of(self.data, self.place(address, 16, "the metadata"))

    def stream(self, name: str) -> bytes:
        """The bytes of a stream, none if it is not there."""
        start, size = self.streams.get(name, (0, 0))
        return bytes(self.data[start:start + size])

    @cached_property
    def debug_entries(self) -> list[DebugEntry]:
        """The entries of the debug directory, none if there is no directory."""
        address, size = self.directory(DEBUG)
        if not address or not size:
            return []
        if size % ENTRY_SIZE:
            raise Damaged(f"the debug directory has {size} bytes, which are no whole entries of {ENTRY_SIZE}")
        if size > MOST_ENTRIES * ENTRY_SIZE:
            raise Damaged(f"the debug directory has {size // ENTRY_SIZE} entries, above {MOST_ENTRIES}")
        first = self.place(address, size, "the debug directory")
        return [self._entry(at) for at in range(first, first + size, ENTRY_SIZE)]

    def _entry(self, at: int) -> DebugEntry:
        entry = piece(self.data, at, ENTRY_SIZE, "an entry of the debug directory")
        stamp, kind, size, address, start = (int.from_bytes(entry[field:field + 4], "little") for field in (4, 12, 16, 20, 24))
        if not start and address and size:
            start = self.place(address, size, "an entry of the debug directory")
        return DebugEntry(kind, stamp, int.from_bytes(entry[8:10], "little"), int.from_bytes(entry[10:12], "little"), start, size)

    def of_kind(self, kind: int) -> list[DebugEntry]:
        """The entries of a kind."""
        return [entry for entry in self.debug_entries if entry.kind == kind]

    @cached_property
    def code_views(self) -> list[CodeView]:
        """The entries that name debug files. Those of Windows PDBs are among them: only the minor version distinguishes them."""
        return [found for entry in self.of_kind(CODE_VIEW) if (found := self._code_view(entry))]

    def _code_view(self, entry: DebugEntry) -> CodeView | None:
        data = piece(self.data, entry.start, min(entry.size, LONGEST_PATH), "a CodeView entry")
        if data[:4] != b"RSDS" or len(data) < 24:
            return None
        return CodeView(data[4:20], entry.stamp, int.from_bytes(data[20:24], "little"), data[24:].partition(b"\0")[0])

    @cached_property
    def checksums(self) -> list[Checksum]:
        """The hashes of the debug file."""
        found = []
        for entry in self.of_kind(CHECKSUM):
            name, zero, digest = piece(self.data, entry.start, min(entry.size, 0x1000), "a checksum entry").partition(b"\0")
            if zero:
                found.append(Checksum(name.decode("latin-1"), digest))
        return found

    def embedded(self) -> bytes | None:
        """The debug file that is embedded in the image; None if it has no such entry. Several are damage: a debugger takes one."""
        entries = self.of_kind(EMBEDDED)
        if len(entries) > 1:
            raise Damaged(f"the debug directory has {len(entries)} embedded debug files")
        return self._unpacked(entries[0]) if entries else None

    def _unpacked(self, entry: DebugEntry) -> bytes:
        """MPDB, the length in 4 bytes, and the deflated bytes."""
        what = "the embedded debug file"
        if piece(self.data, entry.start, min(entry.size, 8), what)[:4] != b"MPDB" or entry.size < 8:
            raise Damaged(f"{what} does not begin with MPDB at byte {entry.start}")
        length = number(self.data, entry.start + 4, 4, what)
        if length > LONGEST:
            raise Damaged(f"{what} has {length} bytes, above {LONGEST}")
        found = inflated(piece(self.data, entry.start + 8, entry.size - 8, what), length)
        if found is None:
            raise Damaged(f"{what} is not deflated to its length, {length} bytes")
        return found


def inflated(packed: Data, length: int) -> bytes | None:
    """What deflated bytes unpack to, if that is `length` bytes and the stream ends there. Never more than that is unpacked."""
    reader = zlib.decompressobj(-15)
    try:
        found = reader.decompress(packed, length + 1)
    except zlib.error:
        return None
    return found if len(found) == length and (reader.eof or not reader.unconsumed_tail) else None


def streams_of(data: Data, root: int, is_whole: bool = True) -> dict[str, Stream]:
    """The streams of metadata that begins at a byte (II.24.2), also of a Portable PDB, whose root is at byte 0. Of data that is not whole
    only the headers must be there."""
    if bytes(data[root:root + 4]) != b"BSJB":
        raise Damaged(f"there is no metadata at byte {root}")
    head = root + 16 + number(data, root + 12, 4, "the length of the version")
    found: dict[str, Stream] = {}
    at = head + 4
    for _ in range(number(data, head + 2, 2, "the number of streams")):
        offset, length = number(data, at, 4, "a stream header"), number(data, at + 4, 4, "a stream header")
        name = piece(data, at + 8, min(33, len(data) - at - 8), "a stream header").partition(b"\0")[0]
        if len(name) > 32 or is_whole and root + offset + length > len(data):
            raise Damaged(f"the stream header at byte {at} fits no stream")
        found.setdefault(name.decode("latin-1"), Stream(root + offset, length))
        at += 8 + (len(name) + 4) // 4 * 4
    return found
