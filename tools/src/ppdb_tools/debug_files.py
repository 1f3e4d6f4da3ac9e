"""Debug files and the assemblies that they belong to: the PDB ID of each, and the debug file that a word stands for, which may be an
assembly with an embedded debug file or with one beside it."""
from pathlib import Path, PureWindowsPath
from typing import IO, NamedTuple

from ppdb_tools import program
from ppdb_tools.errors import Damaged, Status, Stop
from ppdb_tools.inputs import Input, opened_below
from ppdb_tools.names import shown
from ppdb_tools.pe import Image, streams_of


# Where the headers of a debug file's streams are: it has six streams at most, each with a short name.
HEADERS = 4096


def identity(file: Input) -> bytes:
    """The 20 bytes of a PDB ID, by `ppdb id`. Of a file that it refuses they are read here, so that it can be extracted and repaired."""
    answer = program.answer("id", file)
    if answer.status == 0 and answer.line.startswith("id "):
        return bytes.fromhex(answer.line[3:])
    found = stored_identity(file.file)
    if found is None:
        raise Damaged(f"the debug file has no PDB ID: {program.reason(answer)}")
    return found


def stored_identity(file: IO[bytes]) -> bytes | None:
    """The 20 bytes of the PDB ID as they are in a file (Portable PDB v1.0, "#Pdb stream"), None if it has none. It serves to choose a
    file among many, which need not be verified for that."""
    file.seek(0)
    try:
        stream = streams_of(file.read(HEADERS), 0, is_whole=False).get("#Pdb")
    except Damaged:
        return None
    if stream is None or stream.size < 20:
        return None
    file.seek(stream.start)
    found = file.read(20)
    return found if len(found) == 20 else None


def check_identity(image: Image, pdb_id: bytes) -> bool:
    """Whether the CodeView entries of an assembly name a debug file; Damaged if they name others. An entry of zeros names none."""
    ids = [entry.pdb_id for entry in image.code_views if any(entry.guid)]
    if ids and pdb_id not in ids:
        raise Damaged(f"the embedded debug file has the PDB ID {pdb_id.hex()}, the CodeView entry {' and '.join(it.hex() for it in ids)}")
    return bool(ids)


class Pair(NamedTuple):
    """A debug file, its assembly if the word named one, and where the debug file is."""
    file: Input
    image: Image | None
    place: str


def pair_of(name: str) -> Pair:
    """The debug file that a word stands for: the file itself; or, of an assembly, the embedded one, or the one beside it."""
    file = Input.open(name)
    if file.start(2) != b"MZ":
        return Pair(file, None, name)
    try:
        with file:
            image = Image(file.read())
            return beside(name, image, embedded_of(name, image))
    except Damaged as damaged:
        raise Stop(f"{shown(name)}: {damaged}") from damaged


def embedded_of(name: str, image: Image) -> Input | None:
    """The embedded debug file of an assembly, whose PDB ID is that of the CodeView entry."""
    found = image.embedded()
    if found is None:
        return None
    file = Input.of(name, found)
    check_identity(image, identity(file))
    return file


def neighbours(name: str, image: Image) -> list[Path]:
    """Where a debugger looks beside an assembly: its own name with .pdb, and the last part of the path in the CodeView entry. The part
    is a name of one file of that folder, since whoever made the assembly chose it."""
    here = Path(name)
    names = [here.with_suffix(".pdb").name, *(PureWindowsPath(entry.path.decode("utf-8", "surrogateescape")).name for entry in image.code_views)]
    return [here.parent / name for name in dict.fromkeys(names) if name not in ("", ".", "..") and "\0" not in name and "/" not in name]


def beside(name: str, image: Image, embedded: Input | None) -> Pair:
    """The embedded debug file, or the one beside an assembly whose PDB ID the CodeView entry names."""
    if embedded:
        return Pair(embedded, image, name)
    ids = {entry.pdb_id for entry in image.code_views}
    found = []
    for place in neighbours(name, image):
        opened = opened_below(place, place.parent)
        if opened is None:
            continue
        file = Input(str(place), opened)
        if stored_identity(opened) in ids:
            return Pair(file, image, str(place))
        file.close()
        found.append(shown(place))
    why = f"{' and '.join(found)} belongs to another build" if found else "it has no embedded debug file, and none is beside it"
    raise Stop(f"{shown(name)}: {why}", Status.INPUT)
