"""The groups that compare the program with the independent reader (scripts/independent), over the real files of corpus/."""
import hashlib
import random
import tempfile
from collections.abc import Iterator
from pathlib import Path

from independent.judge import first_fault
from independent.making import made_map
from independent.maps import UNMOVED, Map
from independent.meaning import differences
from independent.shown import shown
from independent.values import value_of
from result import CORPUS, Answer, Result, answer, corpus

# How many changed files are made of each file, and how many maps.
CHANGES, MAPS = 30, 6
BYTES = (0x00, 0x01, 0x02, 0x7F, 0x80, 0xC0, 0xE0, 0xFF)


def show(program: Path, result: Result) -> None:
    """`show` prints what the independent reader prints, which is the text beside the file."""
    for file in corpus():
        text = shown(value_of(file.read_bytes()))
        result.expect(f"the independent reader, {file.name}", text, file.with_suffix(".show").read_bytes())
        result.expect(f"show {file.name}", answer(program, "show", file.name, cwd=CORPUS), (0, text))


def judged(name: str, data: bytes) -> Answer:
    """How `verify` must end over a file."""
    fault = first_fault(data)
    return (0, b"accepted\n") if fault is None else (1, f"refused {name} {fault}\n".encode())


def changed(data: bytes, rng: random.Random) -> bytes:
    """A file with one to three bytes changed, or cut off."""
    some = bytearray(data)
    for _ in range(rng.choice((1, 1, 1, 2, 3))):
        at = rng.randrange(len(some))
        some[at] = rng.choice((*BYTES, some[at] ^ 1 << rng.randrange(8), (some[at] + rng.choice((-1, 1))) & 0xFF))
    return bytes(some[:rng.randrange(len(some))] if rng.random() < 0.05 else some)


def verify(program: Path, result: Result) -> None:
    """`verify` accepts the real files, and says of changed ones what the independent judge says."""
    with tempfile.TemporaryDirectory() as name:
        folder = Path(name)
        for file in corpus():
            result.expect(f"verify {file.name}", answer(program, "verify", file.name, cwd=CORPUS), (0, b"accepted\n"))
            rng = random.Random(file.name)
            for number in range(CHANGES):
                data = changed(file.read_bytes(), rng)
                (folder / "F").write_bytes(data)
                result.expect(f"verify {file.name}, change {number}", answer(program, "verify", "F", cwd=folder), judged("F", data))


def told_hashes() -> dict[str, list[str]]:
    """The SHA-256 of the canonical file of each real file, with its PDB ID by hash and kept, which an independent program computed."""
    lines = (CORPUS / "rebuilt.txt").read_text().splitlines()
    return {name: hashes for name, *hashes in map(str.split, lines) if name != "#"}


def rebuild(program: Path, result: Result) -> None:
    """`rebuild` writes the told file, which says what the file says."""
    told = told_hashes()
    with tempfile.TemporaryDirectory() as name:
        out = Path(name) / "O"
        for file in corpus():
            before = value_of(file.read_bytes())
            for hashed, options in zip(told[file.name], ((), ("--keep-id",))):
                what = " ".join(("rebuild", file.name, *options))
                if not result.expect(what, answer(program, "rebuild", file, out, *options, cwd=CORPUS), (0, b"")):
                    continue
                data = out.read_bytes()
                result.expect(f"{what}: SHA-256", hashlib.sha256(data).hexdigest(), hashed)
                result.expect(f"{what}: fault", first_fault(data), None)
                result.expect(f"{what}: what differs", next(differences(before, UNMOVED, value_of(data)), None), None)
                result.expect(f"{what}: kept the PDB ID", value_of(data).id == before.id, bool(options))


def maps_of(file: Path) -> Iterator[str]:
    yield "ppdbmap 1\n"
    yield from (made_map(value_of(file.read_bytes()), f"{file.name} {number}") for number in range(MAPS))


def remap(program: Path, result: Result) -> None:
    """`remap` writes a valid file, which says at the image of each kept offset what the file says there. By another map it would not."""
    with tempfile.TemporaryDirectory() as name:
        folder = Path(name)
        for file in corpus():
            before = value_of(file.read_bytes())
            for number, text in enumerate(maps_of(file)):
                what = f"remap {file.name} by map {number}"
                (folder / "M").write_text(text)
                if not result.expect(what, answer(program, "remap", file, "M", "O", "--keep-id", cwd=folder), (0, b"")):
                    continue
                data = (folder / "O").read_bytes()
                result.expect(f"{what}: fault", first_fault(data), None)
                after = value_of(data)
                result.expect(f"{what}: what differs", next(differences(before, Map(text), after), None), None)
                result.expect(f"{what}: by the map without lines", next(differences(before, UNMOVED, after), None) is None, number == 0)
                result.expect(f"{what}: the PDB ID", after.id, before.id)
