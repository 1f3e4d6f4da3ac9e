"""The sources of documents: those that are embedded in a debug file, and those below folders that words name. Whoever made a debug file
chose the names in it, so a name leads to no other place: links are resolved first, only regular files are read, none is read further
than a limit, and a file is compared with the hash of its document before it counts as the source."""
import hashlib
import os
import re
from pathlib import Path
from typing import IO, NamedTuple

from ppdb_tools.described import Described, Document
from ppdb_tools.inputs import BLOCK, opened_below
from ppdb_tools.names import text_of
from ppdb_tools.pe import inflated

# Where C# ends a line (ECMA-334, "Line terminators").
NEW_LINE = re.compile("\r\n|[\r\n\u0085\u2028\u2029]")
AGREES, DIFFERS, UNCHECKED, DAMAGED, TOO_LONG = "agrees", "differs", "unchecked", "damaged", "too long"
# No text that people write is longer. Embedded sources may unpack together to so many bytes, and some more for each byte of the file.
LONGEST_SOURCE, IN_TOTAL, EACH = 1 << 25, 1 << 27, 64
# The longest path and part of one (PATH_MAX and NAME_MAX of Linux), and how many of a name's last parts are tried.
LONGEST_PATH, LONGEST_PART, MOST_PARTS = 4096, 255, 64


class Source(NamedTuple):
    """A source: where it is from, its bytes, and whether they have the hash of the document."""
    origin: str
    data: bytes
    state: str


def length_of(value: bytes) -> int:
    """How long an embedded source is, unpacked, by its own word."""
    return int.from_bytes(value[:4], "little") or max(len(value) - 4, 0)


def unpacked(value: bytes, longest: int = LONGEST_SOURCE) -> bytes | None:
    """An embedded source: four bytes of a length, 0 where the bytes after it are not deflated (Portable PDB v1.0, "Embedded Source");
    None where it is damaged or longer than allowed."""
    length = int.from_bytes(value[:4], "little")
    if len(value) < 4 or length_of(value) > longest:
        return None
    return inflated(value[4:], length) if length else value[4:]


def state_of(document: Document, data: bytes) -> str:
    """Whether bytes have the hash that the debug file has of a document."""
    if not document.hash_name:
        return UNCHECKED
    return AGREES if hashlib.new(document.hash_name, data).hexdigest() == document.hash else DIFFERS


def lines_of(data: bytes) -> list[str]:
    """The lines of a source; one without a mark that is not UTF-8 is taken for the code page of Western Europe."""
    if data[:2] in (b"\xff\xfe", b"\xfe\xff"):
        return NEW_LINE.split(data.decode("utf-16", "replace"))
    try:
        return NEW_LINE.split(data.decode("utf-8-sig"))
    except UnicodeDecodeError:
        return NEW_LINE.split(data.decode("cp1252", "replace"))


def parts_of(name: str) -> list[str]:
    """The last parts of a document's name, as far as they can be those of a path. No part leads out of a folder."""
    parts = [part for part in re.split(r"[\\/]", name[-LONGEST_PATH:]) if part not in ("", ".", "..") and "\0" not in part]
    found: list[str] = []
    for part in reversed(parts[-MOST_PARTS:]):
        if len(os.fsencode(part)) > LONGEST_PART:
            break
        found.append(part)
    return found[::-1]


class Found(NamedTuple):
    """A file below a folder that may be a source: its place, the folder, and the end of the document's name that it has."""
    place: Path
    folder: Path
    end: str


class Embedded:
    """The embedded sources of a debug file, which together are limited."""

    def __init__(self, said: Described, size: int) -> None:
        self.said, self.left = said, IN_TOTAL + EACH * size

    def source(self, document: Document) -> Source | None:
        """The embedded source of a document, None if it has none. One that is damaged or too long has no bytes."""
        value = self.said.embedded.get(document.row)
        if value is None:
            return None
        length = length_of(value)
        if length > min(self.left, LONGEST_SOURCE):
            return Source("embedded", b"", TOO_LONG)
        self.left -= length
        data = unpacked(value, LONGEST_SOURCE)
        return Source("embedded", b"", DAMAGED) if data is None else Source("embedded", data, state_of(document, data))


class Folders:
    """Folders with sources. Of the files that have an end of a document's name, the one with the hash of the document is its source,
    wherever it is; without such a one the first is taken, and its state says that it differs."""

    def __init__(self, folders: list[str], longest: int = LONGEST_SOURCE) -> None:
        self.folders = [Path(folder) for folder in folders]
        self.longest = longest
        self.hashes: dict[tuple[int, int, str], str] = {}

    def candidates(self, document: Document) -> list[Found]:
        """The files that have an end of the name: of each folder the one with the longest end first."""
        parts, found = parts_of(text_of(document.name)), []
        for folder in self.folders:
            for first in range(len(parts)):
                place = folder.joinpath(*parts[first:])
                if is_file(place):
                    found.append(Found(place, folder, "/".join(parts[first:])))
        return found

    def hash_of(self, file: IO[bytes], algorithm: str) -> str | None:
        """The hash of an open file, computed once however many documents it may be of; None if it is too long."""
        status = os.fstat(file.fileno())
        if status.st_size > self.longest:
            return None
        key = (status.st_dev, status.st_ino, algorithm)
        if key not in self.hashes:
            hasher, left = hashlib.new(algorithm), self.longest
            while left > 0 and (data := file.read(BLOCK)):
                hasher.update(data)
                left -= len(data)
            self.hashes[key] = hasher.hexdigest()
        return self.hashes[key]

    def best(self, document: Document) -> tuple[Found, str] | None:
        """The file that is the source of a document, or the first that may be, and its state."""
        first = None
        for found in self.candidates(document):
            try:
                state = self.state(found, document)
            except OSError:
                continue
            if state == AGREES:
                return found, state
            if first is None and state:
                first = found, state
        return first

    def state(self, found: Found, document: Document) -> str | None:
        """Whether a file has the hash of a document; None if it cannot be used."""
        file = opened_below(found.place, found.folder)
        if file is None:
            return None
        with file:
            if not document.hash_name:
                return UNCHECKED if os.fstat(file.fileno()).st_size <= self.longest else None
            digest = self.hash_of(file, document.hash_name)
        return None if digest is None else AGREES if digest == document.hash else DIFFERS

    def source(self, document: Document) -> Source | None:
        """The source of a document below one of the folders."""
        best = self.best(document)
        file = opened_below(best[0].place, best[0].folder) if best else None
        if file is None or best is None:
            return None
        with file:
            try:
                data = file.read(self.longest + 1) or b""
            except OSError:
                return None
        # The file may have changed since it was compared.
        return Source(f"found as {best[0].end}", data, state_of(document, data)) if len(data) <= self.longest else None


def is_file(place: Path) -> bool:
    """Whether a path leads to a regular file. A path that the system does not take leads to none."""
    try:
        return place.is_file()
    except (OSError, ValueError):
        return False
