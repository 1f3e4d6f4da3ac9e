"""Writes small modules whose methods have code (PE32, ECMA-335 II.22, II.24 and II.25): types with methods, references, texts."""
import struct
from typing import NamedTuple

from made import SECTION_ADDRESS, SECTION_START, heap_item, padded, root

VOID, VOID_OF_TEXT, NUMBER, NO_LOCALS = b"\x00\x00\x01", b"\x00\x01\x01\x0e", b"\x00\x00\x08", b""
# Instructions.
NOP, RETURN, POP, ADD, DUP, LOAD_0, STORE_0, LOAD_1, STORE_1 = b"\x00", b"\x2a", b"\x26", b"\x58", b"\x25", b"\x06", b"\x0a", b"\x07", b"\x0b"


def call(token: int) -> bytes:
    return b"\x28" + struct.pack("<I", token)


def text(number: int) -> bytes:
    """`ldstr` of a text by its place in the heap."""
    return b"\x72" + struct.pack("<I", 0x70000000 | number)


def constant(number: int) -> bytes:
    return b"\x20" + struct.pack("<i", number)


class Method(NamedTuple):
    """A method: its name, its code, its signature, its local signature, and its clauses (II.25.4.6, fat)."""
    name: bytes
    code: bytes
    signature: bytes = VOID
    locals: bytes = NO_LOCALS
    clauses: tuple[tuple[int, ...], ...] = ()


class Kind(NamedTuple):
    """A type."""
    namespace: bytes
    name: bytes
    methods: list[Method]


class Texts:
    """The heap #US: the place of each text."""

    def __init__(self, *texts: str) -> None:
        self.data, self.places = bytearray(b"\0"), {}
        for each in texts:
            self.places[each] = len(self.data)
            self.data += bytes([2 * len(each) + 1]) + each.encode("utf-16-le") + b"\0"


def body(method: Method, signature: int) -> bytes:
    """A fat method (II.25.4.3), with a section of clauses if it has some."""
    flags = 0x3003 | (8 if method.clauses else 0)
    data = struct.pack("<HHII", flags, 8, len(method.code), 0x11000000 | signature if signature else 0) + method.code
    if method.clauses:
        size = 4 + 24 * len(method.clauses)
        data = padded(data) + struct.pack("<I", 0x41 | size << 8) + b"".join(struct.pack("<6I", *each) for each in method.clauses)
    return padded(data)


class Heaps:
    """The heaps of texts and blobs, and the local signatures, each once."""

    def __init__(self) -> None:
        self.texts, self.blobs, self.signatures = bytearray(b"\0"), bytearray(b"\0"), [NO_LOCALS]

    def text(self, name: bytes) -> int:
        return heap_item(self.texts, name, False) if name else 0

    def blob(self, data: bytes) -> int:
        return heap_item(self.blobs, data, True)

    def signature(self, data: bytes) -> int:
        if data not in self.signatures:
            self.signatures.append(data)
        return self.signatures.index(data)


def module(kinds: list[Kind], name: bytes = b"App", assemblies: tuple[bytes, ...] = (), references: tuple[tuple[int, bytes, bytes], ...] = (),
           members: tuple[tuple[int, bytes, bytes], ...] = (), texts: Texts = Texts()) -> bytes:
    """A module. `references` are types of TypeRef, each the row of its assembly, namespace and name; `members` methods of them, each the row
    of its type, name and signature."""
    heaps = Heaps()
    code, rows = bytearray(), {table: b"" for table in (0x00, 0x01, 0x02, 0x06, 0x0A, 0x11, 0x20, 0x23)}
    rows[0x00] = struct.pack("<HIIII", 0, heaps.text(name + b".dll"), 1, 0, 0)
    first = 1
    for each in [Kind(b"", b"<Module>", []), *kinds]:
        rows[0x02] += struct.pack("<IIIHHH", 0, heaps.text(each.name), heaps.text(each.namespace), 0, 1, first)
        first += len(each.methods)
        for method in each.methods:
            address = SECTION_ADDRESS + 72 + len(code)
            code += body(method, heaps.signature(method.locals))
            rows[0x06] += struct.pack("<IHHIIH", address, 0, 0x10, heaps.text(method.name), heaps.blob(method.signature), 1)
    for assembly, namespace, each in references:
        rows[0x01] += struct.pack("<HII", assembly << 2 | 2, heaps.text(each), heaps.text(namespace))
    for kind, each, signature in members:
        rows[0x0A] += struct.pack("<HII", kind << 3 | 1, heaps.text(each), heaps.blob(signature))
    for signature in heaps.signatures[1:]:
        rows[0x11] += struct.pack("<I", heaps.blob(signature))
    rows[0x20] = struct.pack("<IHHHHIIII", 0x8004, 1, 0, 0, 0, 0, 0, heaps.text(name), 0)
    for assembly in assemblies:
        rows[0x23] += struct.pack("<HHHHIIIII", 1, 0, 0, 0, 0, 0, heaps.text(assembly), 0, 0)
    counts = {0x00: 1, 0x01: len(references), 0x02: len(kinds) + 1, 0x06: first - 1, 0x0A: len(members), 0x11: len(heaps.signatures) - 1, 0x20: 1,
              0x23: len(assemblies)}
    there = [table for table, count in counts.items() if count]
    tables = struct.pack("<IBBBBQQ", 0, 2, 0, 7, 1, sum(1 << table for table in there), 0)
    tables += b"".join(struct.pack("<I", counts[table]) for table in there) + b"".join(rows[table] for table in there)
    meta = root([(b"#~", tables), (b"#Strings", bytes(heaps.texts)), (b"#US", bytes(texts.data)), (b"#GUID", bytes(16)), (b"#Blob", bytes(heaps.blobs))])
    return image(bytes(code), meta)


def image(code: bytes, meta: bytes) -> bytes:
    """A file with one section: the header of .NET, the code, the metadata."""
    data = struct.pack("<IHHIIII", 72, 2, 5, SECTION_ADDRESS + 72 + len(code), len(meta), 1, 0) + bytes(48) + code + padded(meta)
    stored = padded(data, 0x200)
    optional = struct.pack("<HBBIIIIIIIIIHHHHHHIIIIHHIIIIII", 0x10B, 8, 0, len(stored), 0, 0, 0, 0x2000, 0x4000, 0x400000, 0x2000, 0x200,
                           4, 0, 0, 0, 4, 0, 0, 0x2000 + len(padded(stored, 0x2000)), 0x200, 0, 3, 0, 0x100000, 0x1000, 0x100000, 0x1000, 0, 16)
    optional += b"".join(struct.pack("<II", *((SECTION_ADDRESS, 72) if index == 14 else (0, 0))) for index in range(16))
    section = b".text\0\0\0" + struct.pack("<IIIIIIHHI", len(data), SECTION_ADDRESS, len(stored), SECTION_START, 0, 0, 0, 0, 0x60000020)
    head = b"MZ" + bytes(58) + struct.pack("<I", 0x40) + b"PE\0\0" + struct.pack("<HHIIIHH", 0x14C, 1, 0, 0, 0, len(optional), 0x2102)
    return (head + optional + section).ljust(SECTION_START, b"\0") + stored
