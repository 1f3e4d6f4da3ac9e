"""The runs that scripts/checks/check-targets compares: words of the program, the files that they name, and the file that they write."""
from __future__ import annotations

import random
import struct
import sys
from dataclasses import dataclass, field
from pathlib import Path
from typing import Iterator

ROOT = Path(__file__).resolve().parents[2]
sys.path.insert(0, str(ROOT / "bench"))
import pdbfile  # noqa: E402

# Changed files of each good one, and changed maps of each map.
DAMAGED, DAMAGED_MAPS = 34, 6
# The size of a method's IL in a map: more than any method of the corpus has.
SIZE = 1000000
QUERIES = ((1, 0), (1, 7), (2, 1), (3, 40), (5, 0), (39, 1), (0, 0), (99999, 3))
BAD_WORDS = (
    [], ["verify"], ["show"], ["nothing", "F"], ["verify", "F", "F"], ["show", "F", "--xml"], ["query", "F", "1"], ["query", "F", "x", "1"],
    ["query", "F", "01", "1"], ["query", "F", "16777216", "1"], ["query", "F", "1", "2147483648"], ["breaks", "F", "d"], ["rebuild", "F"],
    ["rebuild", "F", "out", "--free", "x"], ["merge", "out"], ["verify", "absent"], ["show", "absent", "--json"], ["rebuild", "absent", "out"],
    ["remap", "F", "absent", "out"], ["lookup", "F", "absent"], ["sample", "x"], ["id", "na\u00efve \u30d5\u30a1\u30a4\u30eb.pdb"], ["verify", "--json"],
    ["compose", "F", "F", "out"], ["breaks", "F", "\u6587\u66f8.cs", "1"],
)


@dataclass(frozen=True)
class Run:
    """One run of the program. `out` is the word that names the file that it may write."""
    words: tuple[str, ...]
    files: dict[str, bytes] = field(hash=False)
    out: str | None = None


@dataclass(frozen=True)
class Odd:
    """A run of the program with what only a system has. DEVICE is its device without bytes; the folder has the file F and the folder sub.
    `closed` is the standard stream that is closed."""
    words: tuple[str, ...]
    files: dict[str, bytes] = field(hash=False)
    redirected: str = ""
    out: str | None = None

    @property
    def closed(self) -> str:
        return self.redirected if self.redirected.endswith("&-") else ""


def odd_runs() -> list[Odd]:
    """Folders, devices, names of all kinds, and standard streams that are closed, full or read."""
    data = (ROOT / "corpus/async_iter.pdb").read_bytes()
    file, far = {"F": data}, "/".join(name * 100 for name in "abc")
    other, written, short = "na\u00efve \u30d5\u30a1\u30a4\u30eb \U0001f41e.pdb", "v\u00fdstup \u51fa\u529b", "\u30d5"
    return [
        Odd(("verify", "sub"), file), Odd(("rebuild", "F", "sub"), file), Odd(("rebuild", "F", "nowhere/out"), file), Odd(("verify", "nowhere/F"), file),
        Odd(("verify", "F/x"), file), Odd(("verify", "F/"), file), Odd(("rebuild", "F", "F/x"), file), Odd(("verify", "sub/../F"), file),
        Odd(("verify", "./F"), file), Odd(("verify", ""), file), Odd(("verify", 'a"b c\\'), file),
        Odd(("verify", "DEVICE"), file), Odd(("show", "DEVICE"), file), Odd(("rebuild", "F", "DEVICE"), file), Odd(("rebuild", "DEVICE", "out"), file),
        Odd(("show", "F"), file, ">&-"), Odd(("show", "F"), file, ">/dev/full"), Odd(("verify", "F"), file, ">/dev/full"), Odd(("help",), file, ">/dev/full"),
        Odd(("rebuild", "F", "out"), file, ">&-", "out"), Odd(("show", "F"), file, "| head -c 9"), Odd(("verify", "/dev/stdin"), file, "<F"),
        Odd(("show", "/dev/stdin", "--json"), file, "<F"), Odd(("verify", "/dev/stdin"), file, "<&-"), Odd(("rebuild", "F", "/dev/stdout"), file),
        Odd(("verify", far), {far: data}), Odd(("rebuild", far, far), {far: data}, "", far), Odd(("verify", far + "/absent"), {far: data}),
        Odd(("verify", other), {other: data}), Odd(("rebuild", "F", written), file, "", written), Odd(("show", short), {short: data[:99]}),
        Odd(("--version",), file), Odd(("help",), file), Odd(("help", "remap"), file), Odd(("-h",), file), Odd(("verify", "--help"), file),
        Odd(("help", "nothing"), file),
    ]


def weaving(methods: int, grows: int = 6, size: int = SIZE) -> bytes:
    """The map of a weaver that inserts some bytes at offset 8 of each method."""
    lines = ["ppdbmap 4", f"rows 06 {methods}", *(f"row 06 {method} {method}" for method in range(1, methods + 1))]
    for method in range(1, methods + 1):
        lines += [f"method {method} {size} {size + grows}", "run 0 0 8", f"run 8 {8 + grows} {size - 8}"]
    return ("\n".join(lines) + "\n").encode()


def joining(methods: int, first: int, total: int) -> bytes:
    """The map of an input whose methods come after `first` others."""
    lines = ["ppdbmap 4", f"rows 06 {total}", *(f"row 06 {method} {first + method}" for method in range(1, methods + 1))]
    return ("\n".join(lines) + "\n").encode()


def changed(data: bytes, choose: random.Random) -> bytes:
    """A file with one damage: a byte, some bytes, a piece that is gone, or a cut."""
    made, at = bytearray(data), choose.randrange(len(data))
    kind = choose.randrange(6)
    if kind == 0:
        return bytes(made[:at])
    if kind == 1:
        del made[at:at + choose.randrange(1, 9)]
    elif kind == 2:
        made[at:at] = choose.randbytes(choose.randrange(1, 9))
    elif kind == 3:
        made[at:at + 4] = b"\xff\xff\xff\x7f"
    else:
        made[at] ^= choose.randrange(1, 256)
    return bytes(made)


def of_good(data: bytes) -> Iterator[Run]:
    """Every command over one file that the program accepts."""
    methods = pdbfile.read(data).counts[0x06]
    file, names = {"F": data}, sorted({"/src/async_iter.cs", "/src/Main.cs", "\u6587\u66f8.cs"})
    for command in ("verify", "show", "id", "links"):
        yield Run((command, "F"), file)
    for command in ("show", "id", "links"):
        yield Run((command, "F", "--json"), file)
    for method, offset in QUERIES:
        yield Run(("query", "F", str(method), str(offset)), file)
        yield Run(("query", "F", str(method), str(offset), "--json"), file)
    asked = "".join(f"{method} {offset}\n" for method, offset in QUERIES if method) + "# a comment\n\n0x06000001 0x2\n"
    for words in (("lookup", "F", "L"), ("lookup", "F", "L", "--json")):
        yield Run(words, {**file, "L": asked.encode()})
    yield Run(("lookup", "F", "L"), {**file, "L": b"1 2\n1  3\n"})
    for name in names:
        yield Run(("breaks", "F", name, "20"), file)
    for words in (("rebuild", "F", "out"), ("rebuild", "F", "out", "--keep-id"), ("rebuild", "F", "F", "--free", "00000000-0000-0000-0000-000000000001")):
        yield Run(words, file, words[2])
    yield from of_maps(data, methods)


def of_maps(data: bytes, methods: int) -> Iterator[Run]:
    one, other = {"F": data, "M": weaving(methods)}, {"A": weaving(methods), "B": weaving(methods, 3, SIZE + 6)}
    identity = {"F": data, "M": b"ppdbmap 4\n"}
    yield Run(("remap", "F", "M", "out"), one, "out")
    yield Run(("remap", "F", "M", "out", "--keep-id"), one, "out")
    yield Run(("remap", "F", "M", "out"), identity, "out")
    yield Run(("compose", "A", "B", "out"), other, "out")
    yield Run(("compose", "B", "A", "out"), other, "out")
    two = {"F": data, "first": joining(methods, 0, 2 * methods), "second": joining(methods, methods, 2 * methods)}
    yield Run(("merge", "out", "F", "first", "F", "second"), two, "out")
    yield Run(("merge", "out", "F", "first", "F", "first"), two, "out")
    choose = random.Random(len(data))
    for _ in range(DAMAGED_MAPS):
        yield Run(("remap", "F", "M", "out"), {"F": data, "M": changed(one["M"][:4000], choose)}, "out")


def of_damaged(data: bytes, name: str) -> Iterator[Run]:
    choose = random.Random(f"{name} {len(data)}")
    for _ in range(DAMAGED):
        file = {"F": changed(data, choose)}
        yield Run(("verify", "F"), file)
        yield Run(("show", "F", "--json"), file)
        yield Run(("rebuild", "F", "out"), file, "out")


def all_runs() -> list[Run]:
    """The runs over the files of corpus/, in one order for all machines."""
    good = sorted((ROOT / "corpus").glob("*.pdb"))
    refused = sorted((ROOT / "corpus/refused").glob("*.pdb"))
    runs = [Run(("sample", number), {}) for number in ("0", "1", "3", "100", "3000")]
    file = {"F": good[0].read_bytes()}
    runs += [Run(tuple(words), file, "out" if "out" in words else None) for words in BAD_WORDS]
    for path in good:
        data = path.read_bytes()
        runs += [*of_good(data), *of_damaged(data, path.name)]
    for path in refused:
        data = path.read_bytes()
        runs += [Run(("verify", "F"), {"F": data}), Run(("show", "F"), {"F": data}), Run(("rebuild", "F", "out"), {"F": data}, "out")]
    return runs


def packed(runs: list[Run]) -> bytes:
    """The runs as target_calls reads them, little-endian: the files, each with its length, then the words and the names of each run."""
    blobs: dict[bytes, int] = {}
    asked = []
    for run in runs:
        words = b"".join(word.encode() + b"\0" for word in run.words)
        numbers = [(name.encode(), blobs.setdefault(data, len(blobs))) for name, data in run.files.items()]
        names = [struct.pack("<I", len(name)) + name + struct.pack("<I", number) for name, number in numbers]
        asked.append(struct.pack("<I", len(words)) + words + struct.pack("<I", len(names)) + b"".join(names))
    files = [struct.pack("<I", len(data)) + data for data in blobs]
    return b"".join([struct.pack("<I", len(files)), *files, struct.pack("<I", len(asked)), *asked])


def unpacked(text: bytes) -> Iterator[tuple[int, bytes, bytes]]:
    """What target_calls writes: of each run its status, its text and its new file."""
    at = 0
    while at < len(text):
        status, at = text[at], at + 1
        parts = []
        for _ in range(2):
            (length,) = struct.unpack_from("<Q", text, at)
            parts.append(text[at + 8:at + 8 + length])
            at += 8 + length
        yield status, *parts


ODD = odd_runs()
