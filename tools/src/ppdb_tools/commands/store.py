"""Lays debug files and assemblies out as a symbol server has them: FOLDER/NAME/KEY/NAME, where NAME is the file's name in lower case. KEY
of a debug file is the first sixteen bytes of its PDB ID as a GUID, and ffffffff; that of an assembly its time stamp and the size of its
image (SSQP, "Portable PDB" and "PE-timestamp-filesize"). FOLDER is created if it is not there. Each file is copied; with --link the file
in the store is a hard link to FILE, which changes if a tool writes FILE in place. Links inside FOLDER are not followed.

Servers that know case are asked in two spellings: with --both-spellings each file is also laid at NAME as it is spelled, with the digits
of the GUID or the time stamp in upper case.

Each file has a line of three words with tabs between them: what was done (copied, linked, there), FILE, and its place below FOLDER; or
why it is not in the store: `refused` and the reason, `differs` and the place, which has another file of this name and key, or `fault`
and what the system says. Names are printed as ppdb prints them. An equal file that is already there is kept, so run an interrupted run
again. The exit status is 1 if a file is not in the store."""
import argparse
import os
import uuid
from pathlib import Path

from ppdb_tools import program
from ppdb_tools.errors import Damaged, Status, Stop
from ppdb_tools.inputs import Input, Unreadable
from ppdb_tools.names import escaped
from ppdb_tools.output import Progress, put_line
from ppdb_tools.outputs import Tree
from ppdb_tools.pe import Image

DOES = "lay debug files and assemblies out as a symbol server has them"
EXAMPLE = "find . -name '*.pdb' -print0 | xargs -0 ppdb-tools store symbols"


class Unstored(Exception):
    """Why a file has no key."""


def words(parser: argparse.ArgumentParser) -> None:
    parser.add_argument("--link", action="store_true", help="make hard links to the files")
    parser.add_argument("--copy", action="store_false", dest="link", help="copy the files, as without an option")
    parser.add_argument("--both-spellings", action="store_true", help="lay each file also at the key in upper case")
    parser.add_argument("folder", metavar="FOLDER")
    parser.add_argument("files", metavar="FILE", nargs="+")


def keys(name: str) -> tuple[str, str]:
    """The two spellings of a file's key: in lower case, and as servers that know case are asked."""
    try:
        with Input.open(name) as file:
            is_image = file.start(2) == b"MZ"
    except Unreadable:
        is_image = False
    return image_keys(name) if is_image else debug_keys(name)


def image_keys(name: str) -> tuple[str, str]:
    """The key of an executable (SSQP, "PE-timestamp-filesize")."""
    try:
        with Input.open(name) as file:
            image = Image(file.read())
    except Damaged as damaged:
        raise Unstored(str(damaged)) from damaged
    except Stop as stop:
        raise Unstored(getattr(stop, "reason", str(stop))) from stop
    return f"{image.stamp:08x}{image.size:x}", f"{image.stamp:08X}{image.size:x}"


def debug_keys(name: str) -> tuple[str, str]:
    """The key of a debug file (SSQP, "Portable PDB")."""
    status, line = program.by_name("id", name)
    if status != 0:
        raise Unstored(line or f"status {status}")
    guid = uuid.UUID(bytes_le=bytes.fromhex(line.removeprefix("id "))[:16]).hex
    return f"{guid}ffffffff", f"{guid}FFFFFFFF".upper()


def places(name: str, both: bool) -> list[list[str]]:
    """The places of a file below the folder, each the names of its folders and its own."""
    own, (lower, upper) = Path(name).name, keys(name)
    found = [[own.lower(), lower, own.lower()]]
    if both and (own, upper) != (own.lower(), lower):
        found.append([own, upper, own])
    return found


def stored(tree: Tree, file: str, place: list[str], is_link: bool) -> str:
    """Lays a file at its place, and says what was done."""
    done = tree.link(place, os.path.realpath(file)) if is_link else "unable"
    if done == "linked":
        return done
    with Input.open(file) as opened:
        return {"written": "copied"}.get(done := tree.add(place, opened.read()), done)


def store(tree: Tree, file: str, said: argparse.Namespace) -> bool:
    """Prints the lines of a file, and says whether it is in the store."""
    try:
        found = places(file, said.both_spellings)
    except Unstored as unstored:
        put_line("refused", escaped(file), str(unstored))
        return False
    is_stored = True
    for place in found:
        shown = escaped("/".join(place))
        try:
            done = stored(tree, file, place, said.link)
        except OSError as wrong:
            done, shown = "fault", f"{shown} {wrong.strerror}"
        except Stop as stop:
            done, shown = "fault", f"{shown} {getattr(stop, 'reason', stop)}"
        put_line(done, escaped(file), shown)
        is_stored &= done in ("linked", "copied", "there")
    return is_stored


def run(said: argparse.Namespace) -> int:
    progress, is_whole = Progress("files", len(said.files)), True
    with Tree(said.folder) as tree:
        for file in said.files:
            is_whole &= store(tree, file, said)
            progress.step(file)
    progress.end()
    return Status.DONE if is_whole else Status.FOUND
