"""What a debug file says of each method, short enough to hold for two files at once: hashes of what is compared, by the lines of
`ppdb show`. Lines of the source are counted from the first line of the method, so that a method that only moved stays equal."""
import hashlib
from array import array
from collections import defaultdict
from collections.abc import Iterator
from dataclasses import dataclass, field

from ppdb_tools import program
from ppdb_tools.described import DOCUMENT_TABLE, EMBEDDED, Document
from ppdb_tools.inputs import Input
from ppdb_tools.numbers import compressed

ASYNC = b"54fd2ac5-e925-401a-9c2a-f94f171072f8"
METHOD_TABLE = b"06"
# What is compared of a method, in the order in which it is printed.
ASPECTS = ("offsets", "points", "documents", "scopes", "locals", "constants", "imports", "state machine", "records")
SIZE = 16


def chained(before: bytes, thing: bytes) -> bytes:
    """The hash of what was before and of one more thing."""
    return hashlib.blake2b(before + thing, digest_size=SIZE).digest()


@dataclass
class Method:
    """What a file says of a method: its first line and the document of that, how many points it has, and a hash of each aspect."""
    document: str = ""
    line: int = 0
    points: int = 0
    hashes: dict[str, bytes] = field(default_factory=dict)

    def add(self, aspect: str, thing: bytes) -> None:
        self.hashes[aspect] = chained(self.hashes.get(aspect, b""), thing)

    def differs(self, other: "Method") -> list[str]:
        """The aspects in which two methods differ."""
        return [aspect for aspect in ASPECTS if self.hashes.get(aspect) != other.hashes.get(aspect)]


class Points:
    """Hashes the points of one method, which follow its line."""

    def __init__(self, method: Method, names: list[str]) -> None:
        self.method, self.names = method, names
        self.offsets, self.lines = hashlib.blake2b(digest_size=SIZE), hashlib.blake2b(digest_size=SIZE)

    def add(self, words: list[bytes]) -> None:
        """A point by its offset, and by its lines from the first line of the method on."""
        method, offset = self.method, words[1]
        method.points += 1
        self.offsets.update(offset + b" ")
        if words[3] == b"hidden":
            self.lines.update(offset + b" hidden ")
            return
        document = self.names[int(words[2])]
        (start, column), (end, last) = words[3].split(b":"), words[4].split(b":")
        if not method.line:
            method.line, method.document = int(start), document
        self.lines.update(b"%s %d:%s %d:%s " % (offset, int(start) - method.line, column, int(end) - method.line, last))
        if document != method.document:
            method.add("documents", offset + b" " + document.encode())

    def finish(self) -> None:
        self.method.hashes["offsets"], self.method.hashes["points"] = self.offsets.digest(), self.lines.digest()


class Summary:
    """What a debug file says of its documents and methods."""

    def __init__(self, file: Input) -> None:
        self.pdb_id = ""
        self.documents: list[Document] = []
        # The rows of the documents with embedded sources, and the names of all documents, from row 1 on.
        self.embedded: set[int] = set()
        self.names = [""]
        self.methods: defaultdict[int, Method] = defaultdict(Method)
        # The method and the import scope of each scope; of each import scope a hash of what it and those around it import.
        self.scopes, self.scope_imports = array("I", [0]), array("I", [0])
        self.imports = {0: b""}
        self.import_row = 0
        self.points: Points | None = None
        for line in program.lines(file, "show"):
            words = line.split(b" ")
            take = self.TAKES.get(words[0])
            if take:
                take(self, words)
        self.finish()

    def id(self, words: list[bytes]) -> None:
        self.pdb_id = words[1].decode()

    def document(self, words: list[bytes]) -> None:
        row, algorithm, digest, language, name = (words[at].decode() for at in (1, 3, 5, 7, 9))
        self.documents.append(Document(int(row), name, *(None if it == "-" else it for it in (algorithm, digest, language))))
        self.names.append(name)

    def method(self, words: list[bytes]) -> None:
        if self.points:
            self.points.finish()
        self.points = Points(self.methods[int(words[1])], self.names)

    def point(self, words: list[bytes]) -> None:
        if self.points:
            self.points.add(words)

    def scope(self, words: list[bytes]) -> None:
        method = int(words[3])
        self.scopes.append(method)
        self.scope_imports.append(int(words[5]))
        self.methods[method].add("scopes", b"%s %s" % (words[7], words[8]))

    def variable(self, words: list[bytes]) -> None:
        self.methods[self.scopes[int(words[3])]].add("locals", b"%s %s %s" % (words[9], words[5], words[7]))

    def constant(self, words: list[bytes]) -> None:
        self.methods[self.scopes[int(words[3])]].add("constants", b"%s %s" % (words[7], words[5]))

    def import_scope(self, words: list[bytes]) -> None:
        self.import_row = int(words[1])
        self.imports[self.import_row] = chained(self.imports.get(int(words[3]), words[3]), b"scope")

    def use(self, words: list[bytes]) -> None:
        """An import. Rows of the module are numbered again by each build, so only its kind and its names count."""
        kept = [words[1], *(words[at + 1] for at, word in enumerate(words) if at > 1 and word in (b"alias", b"namespace"))]
        self.imports[self.import_row] = chained(self.imports[self.import_row], b" ".join(kept))

    def machine(self, words: list[bytes]) -> None:
        self.methods[int(words[3])].add("state machine", b"move")
        self.methods[int(words[5])].add("state machine", b"kickoff")

    def custom(self, words: list[bytes]) -> None:
        """A record on a method, or an embedded source. Records of async stepping name methods by rows, which are left out."""
        table, row, kind, value = words[3], int(words[4]), words[6], words[8]
        if table == METHOD_TABLE:
            self.methods[row].add("records", kind + b" " + (steps_of(value) if kind == ASYNC else value))
        elif table.decode() == DOCUMENT_TABLE and kind.decode() == EMBEDDED:
            self.embedded.add(row)

    def finish(self) -> None:
        """Finishes the last method, and gives each method the imports of its scopes, which `show` prints after them."""
        if self.points:
            self.points.finish()
        before = None
        for method, scope in zip(self.scopes[1:], self.scope_imports[1:]):
            # Scopes of a method that import the same count once, so that one scope more is no other import.
            if (method, scope) != before:
                self.methods[method].add("imports", self.imports.get(scope, b""))
            before = method, scope

    TAKES = {b"id": id, b"document": document, b"method": method, b"point": point, b"scope": scope, b"variable": variable,
             b"constant": constant, b"import": import_scope, b"use": use, b"machine": machine, b"custom": custom}


def steps_of(value: bytes) -> bytes:
    """The offsets of a record of async stepping: of the handler, and of each step where it pauses and resumes."""
    data = bytes.fromhex(value.decode()) if value != b"-" else b""
    found, at = [data[:4]], 4
    while at + 8 < len(data):
        found.append(data[at:at + 8])
        row = compressed(data, at + 8)
        at = row[1] if row else len(data)
    return b"".join(found)


def locals_of(file: Input, methods: set[int]) -> Iterator[tuple[int, str]]:
    """The names of the locals of methods, each with its method."""
    scopes = array("I", [0])
    for line in program.lines(file, "show"):
        if line.startswith(b"scope "):
            scopes.append(int(line.split(b" ")[3]))
        elif line.startswith(b"variable "):
            words = line.split(b" ")
            method = scopes[int(words[3])]
            if method in methods:
                yield method, words[9].decode()
