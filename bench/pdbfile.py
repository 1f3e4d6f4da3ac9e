"""Portable PDB files as rows and heaps, for making input: a reader, a writer, a maker of files of n methods, and a way to repeat
the methods of a file. Nothing here is proved, and the program does not use it."""
import struct
import sys
import uuid
from pathlib import Path

sys.path[:0] = [str(Path(__file__).resolve().parent.parent / folder) for folder in ("scripts/shared", "tools/src")]
from ppdb_tools.cells import COLUMNS as CELLS, PARENTS

# The columns of the tables 30 to 37.
COLUMNS = {table: [form for _, form in columns] for table, columns in CELLS.items()}
STREAMS = ["#Pdb", "#~", "#Strings", "#GUID", "#Blob"]
HOISTED = uuid.UUID("6DA9A61E-F8C7-4874-BE62-68BC5630DF71").bytes_le
STEPPING = uuid.UUID("54FD2AC5-E925-401A-9C2A-F94F171072F8").bytes_le
SOURCE_LINK = uuid.UUID("CC110556-A091-4D38-9FEC-25AB9A351A6A").bytes_le
OPTIONS = uuid.UUID("B5FEEC05-8CD0-4A83-96DA-466284BB4BD8").bytes_le
SHA256 = uuid.UUID("8829D00F-11B8-4213-878B-770E8597AC16").bytes_le
CSHARP = uuid.UUID("3F5162F8-07C6-11D3-9053-00C04FA302A1").bytes_le


class Pdb:
    """A file: its identity, entry point, row counts of the type system, rows of the tables 30 to 37, and heaps."""

    def __init__(self):
        self.id = bytes(20)
        self.entry = 0
        self.counts = [0] * 64
        self.tables = {table: [] for table in COLUMNS}
        self.texts = b"\0"
        self.guids = b""
        self.blobs = b"\0"

    def rows(self, table):
        return len(self.tables[table]) if table in self.tables else self.counts[table]


def widths(pdb, table):
    """The bytes of each cell of a row (ECMA-335 II.24.2.6)."""
    def width(column):
        if column == "text":
            return 4 if len(pdb.texts) >= 0x10000 else 2
        if column == "guid":
            return 4 if len(pdb.guids) >= 0x10000 else 2
        if column == "blob":
            return 4 if len(pdb.blobs) >= 0x10000 else 2
        if column == "parent":
            return 4 if any(pdb.rows(parent) >= 2048 for parent in PARENTS) else 2
        if isinstance(column, tuple):
            return 4 if pdb.rows(column[1]) >= 0x10000 else 2
        return column
    return [width(column) for column in COLUMNS[table]]


def padded(data):
    return data + bytes(-len(data) % 4)


def tables_stream(pdb):
    there = [table for table in COLUMNS if pdb.tables[table]]
    heaps = (len(pdb.texts) >= 0x10000) | (len(pdb.guids) >= 0x10000) << 1 | (len(pdb.blobs) >= 0x10000) << 2
    out = [struct.pack("<IBBBBQQ", 0, 2, 0, heaps, 1, sum(1 << table for table in there), 0x00c4000000000000)]
    out += [struct.pack("<I", len(pdb.tables[table])) for table in there]
    for table in there:
        form = struct.Struct("<" + "".join({2: "H", 4: "I"}[width] for width in widths(pdb, table)))
        out += [form.pack(*row) for row in pdb.tables[table]]
    return b"".join(out)


def pdb_stream(pdb):
    there = [table for table in range(0x2d) if pdb.counts[table]]
    entry = 0x06000000 + pdb.entry if pdb.entry else 0
    return (pdb.id + struct.pack("<IQ", entry, sum(1 << table for table in there))
            + b"".join(struct.pack("<I", pdb.counts[table]) for table in there))


def write(pdb):
    """The bytes of a file."""
    pdb.texts, pdb.guids, pdb.blobs = padded(pdb.texts), padded(pdb.guids), padded(pdb.blobs)
    streams = [padded(data) for data in (pdb_stream(pdb), tables_stream(pdb), pdb.texts, pdb.guids, pdb.blobs)]
    names = [padded(name.encode() + b"\0") for name in STREAMS]
    root = b"BSJB" + struct.pack("<HHII", 1, 1, 0, 12) + b"PDB v1.0\0\0\0\0" + struct.pack("<HH", 0, len(streams))
    at = len(root) + sum(8 + len(name) for name in names)
    for name, data in zip(names, streams):
        root += struct.pack("<II", at, len(data)) + name
        at += len(data)
    return root + b"".join(streams)


def streams_of(data):
    """The streams of a valid file by their names: where each begins, and its bytes."""
    length, = struct.unpack_from("<I", data, 12)
    at = 16 + length
    count, = struct.unpack_from("<H", data, at + 2)
    at += 4
    found = {}
    for _ in range(count):
        offset, size = struct.unpack_from("<II", data, at)
        end = data.index(b"\0", at + 8)
        found[data[at + 8:end].decode()] = (offset, data[offset:offset + size])
        at = end + 1 + -(end + 1 - at) % 4
    return found


def read(data):
    """A valid file."""
    streams = {name: stream for name, (_, stream) in streams_of(data).items()}
    pdb = Pdb()
    head = streams["#Pdb"]
    pdb.id = head[:20]
    entry, bits = struct.unpack_from("<IQ", head, 20)
    pdb.entry = entry & 0xffffff
    there = [table for table in range(64) if bits >> table & 1]
    for number, table in enumerate(there):
        pdb.counts[table], = struct.unpack_from("<I", head, 32 + 4 * number)
    pdb.texts = streams.get("#Strings", b"")
    pdb.guids = streams.get("#GUID", b"")
    pdb.blobs = streams.get("#Blob", b"")
    body = streams["#~"]
    heaps = body[6]
    valid, = struct.unpack_from("<Q", body, 8)
    there = [table for table in range(64) if valid >> table & 1]
    lengths = {table: struct.unpack_from("<I", body, 24 + 4 * number)[0] for number, table in enumerate(there)}
    rows = lambda table: lengths.get(table, pdb.counts[table])
    wide = {"text": heaps & 1, "guid": heaps & 2, "blob": heaps & 4, "parent": any(rows(parent) >= 2048 for parent in PARENTS)}
    at = 24 + 4 * len(there)
    for table in there:
        form = "<"
        for column in COLUMNS[table]:
            big = rows(column[1]) >= 0x10000 if isinstance(column, tuple) else column == 4 or wide.get(column, False)
            form += "I" if big else "H"
        form = struct.Struct(form)
        size = form.size * lengths[table]
        pdb.tables[table] = list(form.iter_unpack(body[at:at + size]))
        at += size
    return pdb


def unsigned(value):
    """A compressed number (ECMA-335 II.23.2)."""
    if value < 0x80:
        return bytes([value])
    if value < 0x4000:
        return struct.pack(">H", 0x8000 | value)
    return struct.pack(">I", 0xc0000000 | value)


class Heap:
    """Items of a heap, each once."""

    def __init__(self):
        self.data = bytearray(b"\0")
        self.places = {b"": 0}

    def add(self, item, stored):
        if item not in self.places:
            self.places[item] = len(self.data)
            self.data += stored
        return self.places[item]

    def text(self, item):
        return self.add(item, item + b"\0")

    def blob(self, item):
        return self.add(item, unsigned(len(item)) + item)


def points_blob(method, count):
    """The points of a method: each on a line of its own, every eighth hidden."""
    out = bytearray(unsigned(1))
    line = 0
    for number in range(count):
        out += unsigned(4 if number else 0)
        if number % 8 == 7:
            out += b"\0\0"
            continue
        out += b"\0" + unsigned(10 + number % 20)
        if line == 0:
            line = 10 * method % 0x100000 + 5
            out += unsigned(line) + unsigned(9)
        else:
            out += b"\x02\0"
    return bytes(out)


def made(methods):
    """A valid file of so many methods, of the shape that compilers write: ten points, two scopes, three variables and a
    constant a method, a document for eight methods, and hoisted locals for every fourth."""
    pdb = Pdb()
    texts, blobs = Heap(), Heap()
    pdb.counts[0x00] = pdb.counts[0x01] = pdb.counts[0x11] = pdb.counts[0x23] = 1
    pdb.counts[0x06] = methods
    pdb.entry = min(methods, 1)
    pdb.guids = HOISTED
    pdb.tables[0x35] = [(0, blobs.blob(b"\x01" + unsigned(blobs.blob(b"System"))))]
    for number in range(1, (methods + 7) // 8 + 1):
        parts = [b"", b"src", b"part%d" % (number % 64), b"File%d.cs" % number]
        name = b"/" + b"".join(unsigned(blobs.blob(part)) for part in parts)
        pdb.tables[0x30].append((blobs.blob(name), 0, blobs.blob(b"hash%028d" % number), 0))
    for method in range(1, methods + 1):
        pdb.tables[0x31].append(((method + 7) // 8, blobs.blob(points_blob(method, 10))))
        variable, constant = len(pdb.tables[0x33]) + 1, len(pdb.tables[0x34]) + 1
        pdb.tables[0x32].append((method, 1, variable, constant, 0, 40))
        pdb.tables[0x32].append((method, 1, variable + 2, constant, 8, 24))
        names = [b"index", b"item%d" % (method % 5000), b"value%d" % (method % 700)]
        pdb.tables[0x33] += [(0, slot, texts.text(name)) for slot, name in enumerate(names)]
        pdb.tables[0x34].append((texts.text(b"Limit%d" % (method % 300)), blobs.blob(b"\x08" + struct.pack("<i", method))))
        if method % 4 == 0:
            pdb.tables[0x37].append((method * 32, 1, blobs.blob(struct.pack("<II", 8, 24))))
    pdb.texts, pdb.blobs = bytes(texts.data), bytes(blobs.data)
    return pdb


def long_name(parts):
    """A valid file of one document, whose name has so many parts, each the same text of 1000000 bytes."""
    pdb = Pdb()
    blobs = Heap()
    part = blobs.blob(b"a" * 1000000)
    pdb.tables[0x30].append((blobs.blob(b"\0" + unsigned(part) * parts), 0, 0, 0))
    pdb.blobs = bytes(blobs.data)
    return pdb


def signed(value, bits):
    """A compressed signed number in one or two bytes (ECMA-335 II.23.2): 7 or 14 bits."""
    turned = (value << 1 | (value < 0)) & ((1 << bits) - 1)
    return bytes([turned]) if bits == 7 else struct.pack(">H", 0x8000 | turned)


def program():
    """A file with every kind of row and record that an asynchronous method has."""
    pdb = Pdb()
    texts, blobs = Heap(), Heap()
    for table, count in {0x00: 1, 0x01: 14, 0x02: 3, 0x06: 5, 0x0a: 12, 0x11: 2, 0x23: 2}.items():
        pdb.counts[table] = count
    pdb.entry = 2
    parts = [blobs.blob(part) for part in (b"", b"src", b"app", b"Program.cs")]
    name = blobs.blob(b"/" + b"".join(unsigned(part) for part in parts))
    pdb.tables[0x30] = [(name, 1, blobs.blob(b"\x5a" * 32), 2)]
    lines = [(14, 6, 5, 1), (1, 7, 9, 25), (7, 8, 9, 22), (13, None), (72, 9, 9, 29), (25, None), (20, 10, 5, 1), (8, None)]
    points = bytearray(unsigned(1) + unsigned(0) + b"\0\0")
    before = None
    for offset, line, *columns in lines:
        points += unsigned(offset) + b"\0"
        if line is None:
            points += b"\0"
        elif before is None:
            points += unsigned(columns[1]) + unsigned(line) + unsigned(columns[0])
            before = (line, columns[0])
        else:
            points += unsigned(columns[1]) + signed(line - before[0], 7) + signed(columns[0] - before[1], 7)
            before = (line, columns[0])
    pdb.tables[0x31] = [(0, 0)] * 3 + [(1, blobs.blob(bytes(points)))] + [(0, 0)]
    pdb.tables[0x32] = [(4, 2, 1, 1, 0, 175)]
    pdb.tables[0x34] = [(texts.text(b"Limit"), blobs.blob(b"\x08\x03\0\0\0"))]
    uses = b"".join(b"\x01" + unsigned(blobs.blob(name)) for name in (b"System", b"System.Threading.Tasks"))
    pdb.tables[0x35] = [(0, 0), (1, blobs.blob(uses))]
    pdb.tables[0x36] = [(4, 1)]
    pdb.guids = SHA256 + CSHARP + SOURCE_LINK + OPTIONS + HOISTED + STEPPING
    pdb.tables[0x37] = [
        (39, 3, blobs.blob(b"{}")), (39, 4, blobs.blob(b"a\0b\0")),
        (128, 5, blobs.blob(struct.pack("<IIII", 14, 147, 0, 0))),
        (128, 6, blobs.blob(struct.pack("<III", 0, 61, 82) + unsigned(4))),
    ]
    pdb.texts, pdb.blobs = bytes(texts.data), bytes(blobs.data)
    return pdb


def repeated(pdb, times):
    """A valid file whose methods, with all that belongs to them, stand so many times, each time with texts and blobs of its
    own. Documents and import scopes stand once."""
    out = Pdb()
    out.id, out.entry, out.guids = pdb.id, pdb.entry, pdb.guids
    out.counts = list(pdb.counts)
    out.counts[0x06] *= times
    out.texts, out.blobs = pdb.texts * times, pdb.blobs * times
    out.tables[0x30], out.tables[0x35] = pdb.tables[0x30], pdb.tables[0x35]
    methods, scopes, variables, constants = (pdb.rows(table) for table in (0x06, 0x32, 0x33, 0x34))
    customs = []
    for time in range(times):
        texts, blobs = time * len(pdb.texts), time * len(pdb.blobs)
        text = lambda index: index + texts if index else 0
        blob = lambda index: index + blobs if index else 0
        out.tables[0x31] += [(document, blob(points)) for document, points in pdb.tables[0x31]]
        out.tables[0x32] += [(method + time * methods, scope, first + time * variables, second + time * constants, start, length)
                             for method, scope, first, second, start, length in pdb.tables[0x32]]
        out.tables[0x33] += [(attributes, slot, text(name)) for attributes, slot, name in pdb.tables[0x33]]
        out.tables[0x34] += [(text(name), blob(signature)) for name, signature in pdb.tables[0x34]]
        out.tables[0x36] += [(one + time * methods, other + time * methods) for one, other in pdb.tables[0x36]]
        shift = {0x06: methods, 0x32: scopes, 0x33: variables, 0x34: constants}
        for parent, kind, value in pdb.tables[0x37]:
            table = PARENTS[parent % 32]
            if table in shift or time == 0:
                customs.append((parent + 32 * time * shift.get(table, 0), kind, blob(value)))
    out.tables[0x37] = sorted(customs, key=lambda custom: custom[0])
    return out
