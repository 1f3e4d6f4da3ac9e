"""What the tests share: runs of `ppdb-tools` in this process, debug files and assemblies that are made here, and folders to work in."""
import contextlib
import io
import os
import subprocess
import sys
import tempfile
import unittest
import zlib
from collections.abc import Iterator, Sequence
from pathlib import Path
from typing import NamedTuple

ROOT = Path(__file__).resolve().parents[2]
sys.dont_write_bytecode = True
sys.path[:0] = [str(ROOT / "tools/src"), str(ROOT / "bench"), str(Path(__file__).resolve().parent)]
if not os.environ.get("PPDB"):
    # The program is looked for once, not for each test.
    os.environ["PPDB"] = subprocess.run([ROOT / "scripts/making/program", "--quiet"], stdout=subprocess.PIPE, text=True, check=True).stdout.strip()

# Pages are made by an empty one of these sources, without the module of the library: no test here opens one.
EMPTY_PAGE = tempfile.TemporaryDirectory(prefix="ppdb-page-")
os.environ["PPDB_PAGE"] = f"{EMPTY_PAGE.name}/ppdb.html"
subprocess.run([ROOT / "page/build", "--wasm", os.devnull, os.environ["PPDB_PAGE"]], check=True)

import pdbfile  # noqa: E402
from ppdb_tools import main  # noqa: E402

TINY, THROW = ROOT / "corpus/tiny.pdb", ROOT / "examples/throw"
ASYNC = ROOT / "examples/async_iter.pdb"
COMMAND = ROOT / "tools/ppdb-tools"
EMBEDDED = "0e8a571b-6926-466e-b4ad-8ab04611f5fe"
# A name with everything that must not reach a terminal: an escape, a bell, a newline, a mark of direction, bytes that are not UTF-8.
HOSTILE = "/src/\x1b]0;x\x07\x1b[31m\n   at Fake.Frame() in /etc/shadow:line 1\u202e.cs".encode() + b"\xff"


class Ended(NamedTuple):
    """How a run ended."""
    status: int
    out: bytes
    err: str

    @property
    def text(self) -> str:
        return self.out.decode("utf-8", "surrogateescape")

    @property
    def rows(self) -> list[list[str]]:
        return [line.split("\t") for line in self.text.splitlines()]


def run(*words: object, stdin: bytes = b"") -> Ended:
    """Runs a subcommand in this process. What it raises is raised: a traceback of the command is an error of the test."""
    out, err = io.TextIOWrapper(io.BytesIO(), "utf-8"), io.TextIOWrapper(io.BytesIO(), "utf-8")
    before, sys.stdin = sys.stdin, io.TextIOWrapper(io.BytesIO(stdin))
    try:
        with contextlib.redirect_stdout(out), contextlib.redirect_stderr(err):
            status = main.run([os.fsdecode(word) if isinstance(word, bytes) else str(word) for word in words])
    finally:
        sys.stdin = before
    for stream in (out, err):
        stream.flush()
    return Ended(status, out.buffer.getvalue(), err.buffer.getvalue().decode("utf-8", "replace"))


def command(*words: object, stdin: bytes = b"", timeout: float = 60, **how: object) -> Ended:
    """Runs the command itself, as a user does."""
    ended = subprocess.run([COMMAND, *map(str, words)], input=stdin, capture_output=True, timeout=timeout, check=False, **how)
    return Ended(ended.returncode, ended.stdout, ended.stderr.decode("utf-8", "replace"))


class InFolder(unittest.TestCase):
    """A test with a folder of its own."""

    def setUp(self) -> None:
        self.folder = Path(tempfile.mkdtemp(prefix="ppdb-tools-"))
        self.addCleanup(self.remove)

    def remove(self) -> None:
        import shutil
        shutil.rmtree(self.folder, ignore_errors=True)

    def file(self, name: str | bytes, data: bytes) -> Path:
        """Writes a file of the folder."""
        place = self.folder / os.fsdecode(name)
        place.parent.mkdir(parents=True, exist_ok=True)
        place.write_bytes(data)
        return place


def deflated(data: bytes) -> bytes:
    packer = zlib.compressobj(9, zlib.DEFLATED, -15)
    return packer.compress(data) + packer.flush()


def embedded_source(data: bytes, length: int | None = None) -> bytes:
    """The value of a record of an embedded source, deflated."""
    return (len(data) if length is None else length).to_bytes(4, "little") + deflated(data)


class Doc(NamedTuple):
    """A document of a made debug file: its name, the SHA-256 of its source, and the value of its embedded source."""
    name: bytes
    digest: bytes = b""
    source: bytes | None = None


def debug_file(documents: Sequence[Doc], pdb_id: bytes = bytes(20), link: bytes | None = None, local: bytes = b"x") -> bytes:
    """A debug file with a method for each document: points on the lines 5 to 7, in a scope with a local and a constant."""
    import uuid
    pdb, texts, blobs = pdbfile.Pdb(), pdbfile.Heap(), pdbfile.Heap()
    pdb.id = pdb_id
    count = len(documents)
    pdb.counts[0x00] = pdb.counts[0x11] = pdb.entry = 1
    pdb.counts[0x06] = count
    pdb.guids = uuid.UUID(EMBEDDED).bytes_le + pdbfile.SHA256 + pdbfile.SOURCE_LINK
    for row, it in enumerate(documents, 1):
        name = b"\0" + pdbfile.unsigned(blobs.blob(it.name))
        pdb.tables[0x30].append((blobs.blob(name), 2 if it.digest else 0, blobs.blob(it.digest), 0))
        pdb.tables[0x31].append((row, blobs.blob(pdbfile.points_blob(0, 3))))
        pdb.tables[0x32].append((row, 1, row, row, 0, 20))
        pdb.tables[0x33].append((0, 0, texts.text(local)))
        pdb.tables[0x34].append((texts.text(local), blobs.blob(b"\x0e" + b"v\0")))
    pdb.tables[0x35] = [(0, blobs.blob(b"\x01" + pdbfile.unsigned(blobs.blob(b"System"))))]
    # Records are ordered by their coded parents: the module's tag is 7, a document's 22.
    customs = [(row << 5 | pdbfile.PARENTS.index(0x30), 1, blobs.blob(it.source)) for row, it in enumerate(documents, 1) if it.source is not None]
    if link is not None:
        customs.append((1 << 5 | pdbfile.PARENTS.index(0x00), 3, blobs.blob(link)))
    pdb.tables[0x37] = sorted(customs)
    pdb.texts, pdb.blobs = bytes(texts.data), bytes(blobs.data)
    return pdbfile.write(pdb)


def below(folder: Path) -> Iterator[str]:
    """The regular files below a folder by their places."""
    return (str(file.relative_to(folder)) for file in sorted(folder.rglob("*")) if file.is_file())
