"""Makes an HTML page of a debug file, on standard output.

It is ppdb.html with the files inside: one file, which requires no network, no program and no other file. The page reads them by the
library that is in it, and shows the source with the span of each point, where a breakpoint on a line lands, and the code of a method by
its offsets. With --map it shows what a rewrite made of each method: MAP is the map of the rewrite, AFTER the debug file of the rewritten
module. FILE may be an assembly with a debug file; then methods have their names.

The source of a document is the embedded one; if there is none, a file below a FOLDER whose name is an end of the document's name: the one
whose hash agrees, else the first (the page says that its hash differs, and shows it only to who asks for it). No other file is read, and
no link is followed out of a FOLDER. A source of more than 32 MiB is left out. --assembly gives the methods their names: FILE is the
program or library of the debug file, or of AFTER. Whoever has the page has all files in it, also the assembly.

ppdb.html is the one beside this package, or the one that the variable PPDB_PAGE names; `make page` makes it in a clone."""
import argparse
import os
import sys
import tempfile
from collections.abc import Iterator
from pathlib import Path

from ppdb_tools import program
from ppdb_tools.assembly import Assembly
from ppdb_tools.debug_files import Pair, pair_of
from ppdb_tools.described import Described, described
from ppdb_tools.errors import Damaged, Status, Stop
from ppdb_tools.inputs import Input, read
from ppdb_tools.names import shown, text_of
from ppdb_tools.output import put, warn
from ppdb_tools.page_file import has_kind, with_files
from ppdb_tools.sources import IN_TOTAL, Folders, unpacked

DOES = "make an HTML page of a debug file"
EXAMPLE = "ppdb-tools page app.pdb --source src > app.html"
PAGE = "ppdb.html"
# The package, which is in tools/src of a clone, and in share/ppdb of an installation.
HERE = Path(__file__).resolve().parents[1]
PLACES = (HERE / PAGE, HERE.parent / PAGE, HERE.parents[2] / "build/page" / PAGE)


def words(parser: argparse.ArgumentParser) -> None:
    parser.add_argument("file", metavar="FILE")
    parser.add_argument("--map", nargs=2, metavar=("MAP", "AFTER"), help="show what a rewrite changed")
    parser.add_argument("--source", action="append", default=[], metavar="FOLDER", help="where sources are; may be repeated")
    parser.add_argument("--assembly", metavar="FILE", help="the program or library that has the names of methods")


def empty_page() -> str:
    """ppdb.html, into which the files go."""
    named = os.environ.get("PPDB_PAGE")
    if named:
        return read(named).decode("utf-8", "replace")
    for place in PLACES:
        if place.is_file():
            return place.read_text(encoding="utf-8")
    raise Stop(f"there is no {PAGE} to put the files into: `make page` makes it, a release has it, and the variable PPDB_PAGE may name one", Status.WORDS)


def debug_name(pair: Pair, word: str) -> str:
    """The name of the debug file in the page: its own, or that of the assembly that it is in, with .pdb."""
    return str(Path(word).with_suffix(".pdb")) if pair.image and pair.place == word else pair.place


def sources(said: Described, folders: Folders) -> Iterator[tuple[str, bytes]]:
    """The files that are the sources of documents, by the names of these. The page itself has those that are embedded."""
    left = IN_TOTAL
    for document in said.documents:
        value = said.embedded.get(document.row)
        found = folders.source(document) if value is None or unpacked(value) is None else None
        if found is None or has_kind(found.data):
            continue
        left -= len(found.data)
        if left < 0:
            warn("page", f"sources are left out: together they have more than {IN_TOTAL} bytes")
            return
        yield text_of(document.name), found.data


def check_map(before: Input, data: bytes) -> None:
    """The bytes are a map that fits the debug file; otherwise `ppdb remap` says why not."""
    with tempfile.TemporaryDirectory() as folder:
        place = Path(folder, "page.map")
        place.write_bytes(data)
        for _ in program.lines(before, "remap", str(place), str(Path(folder, "after.pdb"))):
            pass


def check_assembly(name: str, data: bytes, pdb_ids: list[str]) -> None:
    """The bytes are an assembly whose debug directory names one of the debug files."""
    try:
        ids = sorted({found.hex() for found in Assembly(data).debug_ids})
    except Damaged as damaged:
        raise Stop(f"{shown(name)} is no assembly of .NET: {damaged}") from damaged
    if not set(ids) & set(pdb_ids):
        raise Stop(f"{shown(name)} belongs to another debug file: its debug directory names {' and '.join(ids) or 'none'}")


def run(said: argparse.Namespace) -> int:
    page = empty_page()
    if sys.stdout.isatty():
        raise Stop(f"the page goes to standard output: add > {shown(Path(said.file).stem)}.html", Status.WORDS)
    pair = pair_of(said.file)
    with pair.file as before:
        told = described(before)
        shows, ids = [debug_name(pair, said.file)], [told.pdb_id]
        files = {shows[0]: before.read()}
        if said.map:
            map_name, after_name = said.map
            with Input.open(after_name) as after:
                ids.append(described(after).pdb_id)
                files[after_name] = after.read()
            files[map_name] = read(map_name)
            check_map(before, files[map_name])
            shows.append(after_name)
    assembly = said.assembly or (said.file if pair.image else None)
    if assembly:
        files[assembly] = read(assembly)
        check_assembly(assembly, files[assembly], ids)
    inside = [*files.items(), *sources(told, Folders(said.source))]
    try:
        put(with_files(page, inside, Path(said.file).name, shows))
    except ValueError as wrong:
        raise Stop(f"{shown(os.environ.get('PPDB_PAGE') or PAGE)}: {wrong}", Status.WORDS) from wrong
    return Status.DONE
