"""Lists, checks and extracts the sources of a debug file, or of an assembly that has one.

It prints a line for each document, with tabs between its columns: its row; where its source is (embedded, disk, url, none); whether the
bytes have the hash of the document (agrees, differs, unchecked if the hash is of no known kind, damaged, too long, or - if there are no
bytes); its name and its URL as ppdb prints them, - if there is no URL. Files below the folders of --source are compared with the hash:
SHA-1 or SHA-256. No link is followed out of these folders.

--check ends with status 1 unless each document has a URL, an embedded source without another hash, or a file with its hash. --urls prints
what to fetch: algorithm, hash and URL of each document that has a URL. --extract writes embedded sources below FOLDER, at their names
without drive, root and `..`, never over a file and never through a link; it prints what was done in place of the URL."""
import argparse
import json
import re

from ppdb_tools.debug_files import pair_of
from ppdb_tools.described import Described, Links, described, links
from ppdb_tools.errors import Status
from ppdb_tools.inputs import Input
from ppdb_tools.names import escaped, printable, text_of
from ppdb_tools.output import GREEN, RED, Lines as Out, coloured, is_terminal, put_table, warn
from ppdb_tools.outputs import Tree
from ppdb_tools.sources import DAMAGED, DIFFERS, TOO_LONG, Embedded, Folders
from ppdb_tools.verdicts import Verdict, verdicts

DOES = "list, check and extract the sources of a debug file"
EXAMPLE = "ppdb-tools sources app.pdb --source src --check"
HEAD = ("row", "source", "hash", "name", "url")


def words(parser: argparse.ArgumentParser) -> None:
    parser.add_argument("file", metavar="FILE")
    parser.add_argument("--source", action="append", default=[], metavar="FOLDER", help="where sources are; may be repeated")
    how = parser.add_mutually_exclusive_group()
    how.add_argument("--check", action="store_true", help="status 1 if the source of a document cannot be found")
    how.add_argument("--urls", action="store_true", help="print algorithm, hash and URL of each document")
    how.add_argument("--extract", metavar="FOLDER", help="write embedded sources below FOLDER")
    parser.add_argument("--json", action="store_true", help="print objects")


def place_of(name: str) -> list[str]:
    """Where a source is written below a folder, by the name of its document: no part leads out of it or cannot be printed."""
    parts = [part for part in re.split(r"[\\/]", text_of(name)) if part not in ("", ".")]
    if parts and re.fullmatch("[A-Za-z]:", parts[0]):
        parts[0] = parts[0][0]
    return [{"..": "__"}.get(part, printable(part).replace("\\", "_")) for part in parts] or ["_"]


def extracted(tree: Tree, place: list[str], data: bytes) -> str:
    """Writes a source, and says what was done."""
    try:
        return tree.add(place, data)
    except OSError as wrong:
        return f"fault: {wrong.strerror}"


def extract(said: Described, file: Input, folder: str) -> int:
    """Writes the embedded sources, and prints a line for each."""
    is_whole, embedded, out = True, Embedded(said, file.size), Out()
    with Tree(folder) as tree:
        for document in said.documents:
            source = embedded.source(document)
            if source is None:
                continue
            place = place_of(document.name)
            done = source.state if source.state in (DAMAGED, TOO_LONG) else extracted(tree, place, source.data)
            is_whole &= done in ("written", "there") and source.state != DIFFERS
            out.add("\t".join((str(document.row), source.state, done, escaped("/".join(place)))))
    out.write()
    return Status.DONE if is_whole else Status.FOUND


def put_urls(said: Described, found: Links) -> None:
    """Prints what to fetch."""
    out = Out()
    for document in said.documents:
        if document.row in found.addresses:
            hashed = (document.hash_name or "-", document.hash or "-")
            out.add("\t".join((*hashed, found.addresses[document.row])))
    out.write()


def as_json(it: Verdict) -> str:
    return json.dumps({"row": it.document.row, "where": it.where, "hash": it.state, "name": it.document.name, "url": it.url,
                       "found": it.is_found}, sort_keys=True)


def as_row(it: Verdict) -> tuple[str | int, ...]:
    name = printable(text_of(it.document.name)) if is_terminal() else it.document.name
    return it.document.row, it.where, coloured(it.state, GREEN if it.is_found else RED), name, it.url or "-"


def run(said: argparse.Namespace) -> int:
    with pair_of(said.file).file as file:
        shown, found = described(file), links(file)
        if found.fault:
            warn("sources", f"{escaped(said.file)}: the Source Link record cannot be read: {found.fault}")
        if said.extract:
            return extract(shown, file, said.extract)
        if said.urls:
            put_urls(shown, found)
            return Status.DONE
        judged = list(verdicts(shown, file.size, Folders(said.source), found))
    if said.json:
        out = Out()
        for it in judged:
            out.add(as_json(it))
        out.write()
    else:
        put_table(HEAD, map(as_row, judged))
    is_whole = all(it.is_found for it in judged)
    return Status.FOUND if said.check and not is_whole else Status.DONE
