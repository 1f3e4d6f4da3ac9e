"""What `ppdb show --json` and `ppdb links --json` say of a debug file's documents and sources (docs/lines.schema.json)."""
import json
from collections.abc import Callable
from dataclasses import dataclass, field
from typing import NamedTuple

from ppdb_tools import program
from ppdb_tools.inputs import Input

EMBEDDED = "0e8a571b-6926-466e-b4ad-8ab04611f5fe"
DOCUMENT_TABLE = "30"
# The algorithms of hashes (Portable PDB v1.0, "Document Table"), by the names that hashlib has.
HASHES = {"ff1816ec-aa5e-4d10-87f7-6f4963833460": "sha1", "8829d00f-11b8-4213-878b-770e8597ac16": "sha256"}


class Document(NamedTuple):
    """A row of Document. The name is as `ppdb` prints it; the hash is in hexadecimal digits, and None if there is none."""
    row: int
    name: str
    algorithm: str | None
    hash: str | None
    language: str | None

    @property
    def hash_name(self) -> str | None:
        """The algorithm's name, None if it or the hash is not known."""
        return HASHES.get(self.algorithm or "") if self.hash else None


@dataclass
class Described:
    """The PDB ID of a debug file, its documents, and the values of their embedded sources."""
    pdb_id: str = ""
    documents: list[Document] = field(default_factory=list)
    embedded: dict[int, bytes] = field(default_factory=dict)

    def take(self, line: bytes) -> None:
        """Takes a line of `show --json`."""
        if b'"line":"document"' in line:
            row = json.loads(line)
            self.documents.append(Document(row["row"], row["name"], row["algorithm"], row["hash"], row["language"]))
        elif b'"line":"custom"' in line and EMBEDDED.encode() in line:
            row = json.loads(line)
            if (row["kind"], row["parent_table"]) == (EMBEDDED, DOCUMENT_TABLE):
                self.embedded.setdefault(row["parent_row"], bytes.fromhex(row["value"] or ""))
        elif not self.pdb_id and b'"line":"id"' in line:
            self.pdb_id = json.loads(line)["id"]


def described(file: Input, also: Callable[[bytes], object] | None = None) -> Described:
    """Reads the documents of a file; `also` gets each line of `show --json`, with its end."""
    found = Described()
    for line in program.lines(file, "show", "--json"):
        found.take(line)
        if also:
            also(line + b"\n")
    return found


class Links(NamedTuple):
    """The addresses of documents by Source Link, as `ppdb` prints them, by row; and what is wrong with the record, if it cannot be
    read."""
    addresses: dict[int, str]
    fault: str


def links(file: Input) -> Links:
    """The addresses of sources by `ppdb links`."""
    try:
        rows = [json.loads(line) for line in program.lines(file, "links", "--json")]
    except program.Refused as refused:
        if refused.answer.status != program.NO_LINKS:
            raise
        return Links({}, "it is not JSON" if refused.answer.line.endswith("json") else "it has not the shape of a Source Link record")
    return Links({row["row"]: row["address"] for row in rows if row["address"] not in (None, r"\-")}, "")
