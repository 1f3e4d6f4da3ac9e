"""Writes small assemblies (PE32, ECMA-335 II.24 and II.25): types with methods, a debug directory, and resources beside them."""
import struct
from typing import NamedTuple

from support import deflated

SECTION_ADDRESS, SECTION_START = 0x2000, 0x200
STATIC_VOID = b"\x00\x00\x01"


class Entry(NamedTuple):
    """An entry of the debug directory: its kind, its stamp, and its data."""
    kind: int
    stamp: int
    data: bytes


class Type(NamedTuple):
    """A type: its namespace and name, its methods with their signatures, and the row of the type that it is in."""
    namespace: bytes
    name: bytes
    methods: list[tuple[bytes, bytes]]
    outer: int = 0


def code_view(pdb_id: bytes, path: bytes = b"App.pdb") -> Entry:
    """The entry that names a debug file by its PDB ID."""
    return Entry(2, int.from_bytes(pdb_id[16:], "little"), b"RSDS" + pdb_id[:16] + struct.pack("<I", 1) + path + b"\0")


def embedded(pdb: bytes, length: int | None = None) -> Entry:
    """The entry of an embedded debug file."""
    return Entry(17, 0, b"MPDB" + struct.pack("<I", len(pdb) if length is None else length) + deflated(pdb))


def heap_item(heap: bytearray, item: bytes, is_blob: bool) -> int:
    at = len(heap)
    if is_blob:
        heap += bytes([len(item)]) if len(item) < 0x80 else struct.pack(">H", 0x8000 | len(item))
    heap += item + (b"" if is_blob else b"\0")
    return at


def metadata(types: list[Type], mvid: bytes) -> bytes:
    """A metadata root with the tables Module, TypeDef, MethodDef and NestedClass; all indexes have four bytes."""
    texts, blobs = bytearray(b"\0"), bytearray(b"\0")
    module = struct.pack("<HIIII", 0, heap_item(texts, b"App.dll", False), 1, 0, 0)
    type_rows = method_rows = nested = b""
    first, nested_count = 1, 0
    wide = len(types) > 0xFFFF or sum(len(it.methods) for it in types) > 0xFFFF
    row_form = "<I" if wide else "<H"
    for row, it in enumerate(types, 1):
        type_rows += struct.pack("<III", 0, heap_item(texts, it.name, False), heap_item(texts, it.namespace, False) if it.namespace else 0)
        type_rows += struct.pack("<HH", 0, 1) + struct.pack(row_form, first)
        first += len(it.methods)
        for name, signature in it.methods:
            method_rows += struct.pack("<IHHIIH", 0, 0, 0, heap_item(texts, name, False), heap_item(blobs, signature, True), 1)
        if it.outer:
            nested += struct.pack("<HH", row, it.outer)
            nested_count += 1
    counts = [(0x00, 1), (0x02, len(types)), (0x06, first - 1), (0x29, nested_count)]
    there = [(table, count) for table, count in counts if count]
    tables = struct.pack("<IBBBBQQ", 0, 2, 0, 7, 1, sum(1 << table for table, _ in there), 0)
    tables += b"".join(struct.pack("<I", count) for _, count in there) + module + type_rows + method_rows + nested
    return root([(b"#~", tables), (b"#Strings", bytes(texts)), (b"#GUID", mvid), (b"#Blob", bytes(blobs))])


def padded(data: bytes, to: int = 4) -> bytes:
    return data + bytes(-len(data) % to)


def root(streams: list[tuple[bytes, bytes]]) -> bytes:
    """A metadata root with these streams."""
    head = b"BSJB" + struct.pack("<HHII", 1, 1, 0, 12) + b"v4.0.30319\0\0" + struct.pack("<HH", 0, len(streams))
    names = [padded(name + b"\0") for name, _ in streams]
    at, headers, bodies = len(head) + sum(8 + len(name) for name in names), b"", b""
    for name, (_, data) in zip(names, streams):
        headers += struct.pack("<II", at + len(bodies), len(data)) + name
        bodies += padded(data)
    return head + headers + bodies


def assembly(entries: list[Entry] = [], types: list[Type] | None = None, mvid: bytes = bytes(range(16)), extra: bytes = b"",
             directory_size: int | None = None, stamp: int = 0x542D5742) -> bytes:
    """An assembly; `extra` is what a resource may be, and `directory_size` what the header says of the debug directory."""
    types = [Type(b"", b"<Module>", []), Type(b"Shop", b"Order", [(b"Div", STATIC_VOID)])] if types is None else types
    body = bytearray(72)
    meta = metadata(types, mvid)
    meta_at = len(body)
    body += padded(meta)
    body[0:72] = struct.pack("<IHHIIII", 72, 2, 5, SECTION_ADDRESS + meta_at, len(meta), 1, 0) + bytes(48)
    body += padded(extra)
    directory_at = len(body)
    body += bytes(28 * len(entries))
    for number, it in enumerate(entries):
        at = len(body)
        body += padded(it.data)
        place = SECTION_ADDRESS + at, SECTION_START + at
        struct.pack_into("<IIHHIIII", body, directory_at + 28 * number, 0, it.stamp, 0x100, 0x504D, it.kind, len(it.data), *place)
    stored = padded(bytes(body), 0x200)
    directories = [(0, 0)] * 16
    if entries or directory_size:
        directories[6] = SECTION_ADDRESS + directory_at, 28 * len(entries) if directory_size is None else directory_size
    directories[14] = SECTION_ADDRESS, 72
    optional = struct.pack("<HBBIIIIIIIIIHHHHHHIIIIHHIIIIII", 0x10B, 8, 0, len(stored), 0, 0, 0, 0x2000, 0x4000, 0x400000, 0x2000, 0x200,
                           4, 0, 0, 0, 4, 0, 0, 0x2000 + len(padded(stored, 0x2000)), 0x200, 0, 3, 0, 0x100000, 0x1000, 0x100000, 0x1000, 0, 16)
    optional += b"".join(struct.pack("<II", *it) for it in directories)
    section = b".text\0\0\0" + struct.pack("<IIIIIIHHI", len(body), SECTION_ADDRESS, len(stored), SECTION_START, 0, 0, 0, 0, 0x60000020)
    head = b"MZ" + bytes(58) + struct.pack("<I", 0x40) + b"PE\0\0" + struct.pack("<HHIIIHH", 0x14C, 1, stamp, 0, 0, len(optional), 0x2102)
    return (head + optional + section).ljust(SECTION_START, b"\0") + stored
