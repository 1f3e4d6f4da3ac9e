"""Says what the bytes of a debug file are: of the file's parts, its tables, the blobs by what they are of, the kinds of custom records and
the documents. FILE may be an assembly with a debug file, and may be one that ppdb refuses, as far as its rows can be read.

It prints lines of four columns with tabs between them: the group, the name, how many there are, and their bytes. The parts (group part)
and the rows of tables (group table) are all bytes of the file. A blob counts once, for the first that names it; a document has its name,
hash and embedded source, and the points of the methods that begin in it. On a terminal there are columns with a head."""
import argparse
import json
import uuid
from collections import Counter
from collections.abc import Callable, Iterator
from typing import NamedTuple

from ppdb_tools import program
from ppdb_tools.cells import COLUMNS, NAMES, PARENTS, Blob, DebugFile, name_parts
from ppdb_tools.debug_files import pair_of
from ppdb_tools.described import EMBEDDED, Described
from ppdb_tools.errors import Damaged, Status, Stop
from ppdb_tools.inputs import Input
from ppdb_tools.names import escaped, printable, shown, text_of
from ppdb_tools.numbers import compressed
from ppdb_tools.output import Lines as Out, is_terminal, put_table

DOES = "say what the bytes of a debug file are"
EXAMPLE = "ppdb-tools stats app.pdb --sort bytes"
HEAD = ("group", "name", "count", "bytes")
# The kinds of custom records (docs/FORMAT.md, "Custom debug information").
KINDS = {
    "54fd2ac5-e925-401a-9c2a-f94f171072f8": "async stepping", "6da9a61e-f8c7-4874-be62-68bc5630df71": "hoisted local scopes",
    "932e74bc-dba9-4478-8d46-0f32a7bab3d3": "type definition documents", "cc110556-a091-4d38-9fec-25ab9a351a6a": "Source Link",
    EMBEDDED: "embedded source", "83c563c4-b4f3-47d5-b824-ba5441477ea8": "dynamic locals",
    "ed9fdf71-8879-4747-8ed3-fe5ede3ce710": "tuple names", "58b2eab6-209f-4e4e-a22c-b2d0f910c782": "default namespace",
    "755f52a8-91c5-45be-b4b8-209571e552bd": "local slot map", "a643004c-0240-496f-a783-30d64f4979de": "lambda map",
    "8b78cd68-2ede-420b-980b-e15884b8aaa3": "state machine map", "b5feec05-8cd0-4a83-96da-466284bb4bd8": "compilation options",
    "7e4d4708-096e-4c5c-aeda-cb10ba6a740d": "metadata references",
}
# What the blobs of a column are.
BLOBS = {(0x30, 0): "names of documents", (0x30, 2): "hashes", (0x31, 1): "sequence points", (0x34, 1): "constants", (0x35, 1): "imports",
         (0x37, 2): "custom records"}
DOCUMENT_TAG = PARENTS.index(0x30)


class Share(NamedTuple):
    """What a part of the file has: its group, its name, how many there are, and their bytes."""
    group: str
    name: str
    number: int
    size: int


class Shares:
    """Counts bytes of a debug file."""

    def __init__(self, file: DebugFile) -> None:
        self.file = file
        self.seen: set[int] = set()
        self.counts: Counter[tuple[str, str]] = Counter()
        self.sizes: Counter[tuple[str, str]] = Counter()
        self.documents: Counter[int] = Counter()
        self.methods: Counter[int] = Counter()

    def blob(self, group: str, name: str, index: int) -> tuple[Blob | None, int]:
        """Counts a blob, and says where it is and how many bytes count for it."""
        blob = self.file.blob(index) if index else None
        size = blob.end - blob.length if blob and index not in self.seen else 0
        self.seen.add(index)
        self.counts[group, name] += 1
        self.sizes[group, name] += size
        return blob, size

    def read(self) -> None:
        """Counts all blobs."""
        for row, (name, _, digest, _) in enumerate(self.file.cells(0x30), 1):
            _, size = self.blob("blobs", BLOBS[0x30, 0], name)
            self.documents[row] += size + (self.parts(name) if size else 0) + self.blob("blobs", BLOBS[0x30, 2], digest)[1]
        for document, points in self.file.cells(0x31):
            blob, size = self.blob("blobs", BLOBS[0x31, 1], points)
            first = document or self.initial(blob)
            if blob and first:
                self.documents[first] += size
                self.methods[first] += 1
        for table, column in ((0x34, 1), (0x35, 1)):
            for cells in self.file.cells(table):
                self.blob("blobs", BLOBS[table, column], cells[column])
        self.customs()

    def parts(self, name: int) -> int:
        """Counts the parts of a document's name."""
        return sum(self.blob("blobs", "parts of names", index)[1] for index in name_parts(self.file.content(name) or b"") if index)

    def initial(self, blob: Blob | None) -> int:
        """The document in a blob of points whose row names none ("Sequence Points Blob")."""
        signature = compressed(self.file.data, blob.content, blob.end) if blob else None
        found = compressed(self.file.data, signature[1], blob.end) if signature and blob else None
        return found[0] if found else 0

    def customs(self) -> None:
        """Counts the values of custom records."""
        for parent, kind, value in self.file.cells(0x37):
            guid = self.file.item("guid", kind)
            text = str(uuid.UUID(bytes_le=guid)) if isinstance(guid, bytes) else "none"
            _, size = self.blob("records", KINDS.get(text, text), value)
            if text == EMBEDDED and parent % 32 == DOCUMENT_TAG:
                self.documents[parent // 32] += size

    def parts_of_file(self, total: int) -> Iterator[Share]:
        """The parts, which together are the file."""
        file = self.file
        rows = sum(file.counts[table] * file.rows[table].size for table in COLUMNS)
        yield Share("part", "headers", 1, file.headers_end)
        for name, (_, size) in file.streams.items():
            yield Share("part", printable(name) + (" without rows" if name == "#~" else ""), 1, size - rows if name == "#~" else size)
        covered = file.headers_end + sum(size for _, size in file.streams.values())
        yield Share("part", "in no stream", 1, total - covered)
        for table in COLUMNS:
            yield Share("table", f"{table:02x} {NAMES[table]}", file.counts[table], file.counts[table] * file.rows[table].size)

    def all(self, total: int, names: dict[int, str]) -> Iterator[Share]:
        """All groups."""
        yield from self.parts_of_file(total)
        yield from (Share(group, name, self.counts[group, name], size) for (group, name), size in self.sizes.items() if self.counts[group, name])
        for row, size in sorted(self.documents.items()):
            yield Share("document", names.get(row, f"row {row}"), self.methods[row], size)


def words(parser: argparse.ArgumentParser) -> None:
    parser.add_argument("file", metavar="FILE")
    parser.add_argument("--sort", choices=("bytes", "count", "name"), help="order the lines of each group; by default they are in file order")
    parser.add_argument("--json", action="store_true", help="print objects")


def names_of(file: Input, read: DebugFile) -> dict[int, str]:
    """The names of documents as `ppdb` prints them, those of a file that it refuses as they are read here."""
    said = Described()
    try:
        for line in program.lines(file, "show", "--json"):
            if b'"line":"document"' in line:
                said.take(line)
        return {document.row: document.name for document in said.documents}
    except program.Refused:
        return {row: escaped(read.name(read.content(cells[0]) or b"") or b"") for row, cells in enumerate(read.cells(0x30), 1)}


def ordered(shares: list[Share], by: str | None) -> list[Share]:
    """The lines in their order: the groups stay apart."""
    groups = {group: place for place, group in enumerate(dict.fromkeys(share.group for share in shares))}
    keys: dict[str, Callable[[Share], tuple[int | str, ...]]] = {
        "bytes": lambda it: (-it.size, it.name), "count": lambda it: (-it.number, it.name), "name": lambda it: (it.name,)}
    if by is None:
        return shares
    key = keys[by]
    return sorted(shares, key=lambda it: (groups[it.group], *key(it)))


def run(said: argparse.Namespace) -> int:
    pair = pair_of(said.file)
    with pair.file as file:
        data = file.read()
        try:
            read = DebugFile(data)
            shares = Shares(read)
            shares.read()
            found = ordered(list(shares.all(len(data), names_of(file, read))), said.sort)
        except Damaged as damaged:
            raise Stop(f"{shown(pair.place)}: not read as far as its rows: {damaged}") from damaged
    if said.json:
        out = Out()
        for it in found:
            out.add(json.dumps({"group": it.group, "name": it.name, "count": it.number, "bytes": it.size}, sort_keys=True))
        out.write()
    else:
        put_table(HEAD, ((it.group, printable(text_of(it.name)) if is_terminal() else it.name, it.number, it.size) for it in found))
    return Status.DONE
